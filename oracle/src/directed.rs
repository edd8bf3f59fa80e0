//! Directed calls: every opcode, every stop, the edges and the marked cases of document 01.

#![forbid(unsafe_code)]

use crate::call::Record;
use crate::list::Sparse;
use crate::opcodes::{table, Kind};

/// BF set, nothing else.
pub const ON: u16 = 0x008;

/// Timer states and previous: a difference of 41, 42 and 84, of -1, and at the wrap.
pub const DIFFERENCES: [(u64, u64); 7] = [
    (41, 0),
    (42, 0),
    (84, 0),
    (5, 6),
    (0, u64::MAX - 40),
    (0, u64::MAX - 41),
    (u64::MAX, u64::MAX - 42),
];

/// A record with these flags and zeros.
pub fn flagged(flags: u16) -> Record {
    let mut record = Record::default();
    record.set_flags(flags);
    record
}

/// A call of page 0 with this code at 0 and nothing else.
pub fn code(record: Record, limit: u32, bytes: &[u8]) -> Sparse {
    Sparse {
        record,
        limit,
        lengths: [bytes.len(), 0],
        set: if bytes.is_empty() { vec![] } else { vec![(0, bytes.to_vec())] },
        ..Sparse::default()
    }
}

/// All groups, with a title each.
pub fn groups() -> Vec<(String, Vec<Sparse>)> {
    let mut groups = cases();
    groups.push(("the first page's opcodes".to_string(), opcodes(0)));
    groups.push(("the opcodes after FD".to_string(), opcodes(1)));
    groups
}

/// The groups before those of the opcodes.
pub fn cases() -> Vec<(String, Vec<Sparse>)> {
    let mut groups = vec![];
    for (number, cases) in marked() {
        groups.push((format!("marked case {number}"), cases));
    }
    groups.push(("stops 0 to 7".to_string(), stops()));
    groups.push(("limits 0, 1, 1,000,000, 1,000,001".to_string(), limits()));
    groups.push(("TM 511, 512".to_string(), timer_values()));
    groups.push(("page lengths 65,536, 65,537".to_string(), page_lengths()));
    groups.push(("timer difference 41, 42 and previous above current".to_string(), differences()));
    groups.push(("order of a step".to_string(), orders()));
    groups.push(("vector FF and the stack over the vectors".to_string(), vectors()));
    groups
}

/// A decimal sum: A, T, opcode and the operand at X.
fn decimal(a: u8, t: u8, opcode: u8, operand: u8) -> Sparse {
    code(Record { a, t, x: 1, ..flagged(ON) }, 1, &[opcode, operand])
}

/// A step after which the timer shifts.
fn shifting(tm: u16) -> Sparse {
    code(Record { tm, timer_state: 42, ticks: 42, ..flagged(ON) }, 1, &[0x38])
}

/// Document 01, "Marked cases": 1 to 13.
pub fn marked() -> Vec<(u32, Vec<Sparse>)> {
    let digits = |opcode| code(Record { a: 0x12, x: 1, ..flagged(ON) }, 1, &[opcode, 0x34]);
    let counted = |u| {
        let lop = [0x38, 0x38, 0x88, 0x04];
        code(Record { u, p: 2, ..flagged(ON) }, 1, &lop)
    };
    let at_the_end = Sparse {
        lengths: [65_536, 0],
        set: vec![(0xFFFE, vec![0x8E, 0x00])],
        ..code(Record { p: 0xFFFE, ..flagged(ON) }, 1, &[])
    };
    let worked = [0xB5, 0x15, 0xF9, 0x8C, 0x31, 0x27];
    vec![
        (1, vec![decimal(0x15, 0x00, 0x8C, 0x27)]),
        (2, vec![decimal(0x50, 0x00, 0x8C, 0x50)]),
        (3, vec![decimal(0x99, 0x01, 0x8C, 0x99)]),
        (4, vec![decimal(0x20, 0x01, 0x0C, 0x05)]),
        (5, vec![decimal(0x05, 0x01, 0x0C, 0x20)]),
        (6, vec![decimal(0x9A, 0x00, 0x8C, 0x00)]),
        (7, vec![shifting(0x1FE), shifting(0x1FF)]),
        (8, vec![counted(0x1200)]),
        (9, vec![counted(0x1201)]),
        (10, vec![digits(0xD7)]),
        (11, vec![digits(0xD3)]),
        (12, vec![at_the_end]),
        (13, vec![code(Record { x: 5, ..flagged(ON) }, 10, &worked)]),
    ]
}

/// One call for each number from 0 to 7, and those of 1 to 4 before one another.
fn stops() -> Vec<Sparse> {
    let plain = code(flagged(ON), 1, &[0x38]);
    let long0 = Sparse { lengths: [65_537, 0], ..plain.clone() };
    let long1 = Sparse { lengths: [1, 65_537], ..plain.clone() };
    let high = Record { tm: 512, ..flagged(ON) };
    let halted = |flags, t| code(Record { t, ..flagged(flags) }, 3, &[0x38]);
    vec![
        plain.clone(),
        long0.clone(),
        long1.clone(),
        Sparse { record: high, ..plain.clone() },
        Sparse { limit: 0, ..plain.clone() },
        code(flagged(ON), 4, &[0x38, 0x38, 0x31]),
        code(flagged(ON), 4, &[0x38, 0xFD, 0x00]),
        halted(0x009, 0x02),
        Sparse { lengths: [65_537, 65_537], record: high, limit: 0, ..plain.clone() },
        Sparse { lengths: [1, 65_537], record: high, limit: 0, ..plain.clone() },
        Sparse { record: high, limit: 0, ..plain.clone() },
        // Past the end the code reads FF.
        code(flagged(ON), 1, &[]),
        code(flagged(ON), 1, &[0xFD]),
        code(flagged(ON), 2, &[0xFD, 0xB1]),
        // Halted with IR0; with a request and IE; with a request without IE; with BF clear.
        halted(0x029, 0x02),
        halted(0x049, 0x02),
        halted(0x089, 0x02),
        halted(0x109, 0x02),
        halted(0x149, 0x00),
        halted(0x109, 0x00),
        halted(0x101, 0x02),
    ]
}

/// An endless branch to itself, and the limits around the greatest.
fn limits() -> Vec<Sparse> {
    let limits = [0, 1, 1_000_000, 1_000_001, u32::MAX];
    limits.into_iter().map(|limit| code(flagged(ON), limit, &[0x9E, 0x02])).collect()
}

fn timer_values() -> Vec<Sparse> {
    let values = [0, 511, 512, 4095];
    values.into_iter().map(|tm| code(Record { tm, ..flagged(ON) }, 1, &[0x38])).collect()
}

/// Whole pages, and pages one byte too long; STA at FFFF of either page.
fn page_lengths() -> Vec<Sparse> {
    let lengths = [[65_536, 65_536], [65_537, 65_536], [65_536, 65_537], [65_535, 65_535], [4, 0]];
    let store = vec![(0, vec![0x0E, 0xFD, 0x0E, 0x38])];
    let record = Record { a: 0x5A, x: 0xFFFF, ..flagged(ON) };
    let call = |lengths| Sparse { lengths, set: store.clone(), ..code(record, 3, &[]) };
    lengths.into_iter().map(call).collect()
}

/// An entry has no states, so the difference is exactly the given one: the entry of IR0, and that of
/// IR1.
fn differences() -> Vec<Sparse> {
    let entries = DIFFERENCES.into_iter().flat_map(|(timer_state, step_previous_state)| {
        [(0x020, 0x00), (0x040, 0x02)].map(|(request, t)| {
            let record = Record { t, tm: 0x1FE, timer_state, ..flagged(ON + request) };
            code(Record { step_previous_state, ..record }, 2, &[])
        })
    });
    // A NOP of 5 states ends at a difference of 41 and 42; CDV never shifts; BF clear never shifts.
    let running = [(36, ON, [0x38, 0x38]), (37, ON, [0x38, 0x38]), (60, ON, [0xFD, 0x8E])];
    let off = [(60, 0x000, [0x38, 0x38])];
    let run = running.into_iter().chain(off).map(|(timer_state, flags, bytes)| {
        code(Record { tm: 0x155, timer_state, ..flagged(flags) }, 1, &bytes)
    });
    entries.chain(run).collect()
}

/// Interrupts, BF clear, OFF, HLT, and AM in a step that shifts.
fn orders() -> Vec<Sparse> {
    let vectors = vec![(0, vec![0x38; 4]), (0xFFF8, vec![0x00, 0x01, 0x00, 0x02])];
    let entering = |flags, t| Sparse {
        lengths: [65_536, 0],
        set: vectors.clone(),
        ..code(Record { t, s: 0x0200, p: 0x1234, ..flagged(flags) }, 2, &[])
    };
    let mut cases = vec![];
    for flags in [0x048, 0x088, 0x0C8, 0x108, 0x188, 0x1E8, 0x149, 0x089] {
        for t in [0x00, 0x1F, 0xE2] {
            cases.push(entering(flags, t));
        }
    }
    cases.push(code(flagged(0x1F0), 3, &[0x38]));
    cases.push(code(Record { timer_state: 42, ..flagged(ON) }, 3, &[0xFD, 0x4C, 0x38]));
    for am in [0xCE, 0xDE] {
        let record = Record { a: 0xFE, timer_state: 42, ..flagged(ON) };
        cases.push(code(record, 3, &[0xFD, am, 0x38, 0x38]));
    }
    cases
}

/// Vector FF reads its second byte at 10000; pushes at FFFB lie under the vector read after them.
fn vectors() -> Vec<Sparse> {
    let call = |record, set: &[(u32, Vec<u8>)]| Sparse {
        lengths: [65_536, 16],
        fill: (0x11, 0x07),
        set: set.to_vec(),
        ..code(record, 1, &[])
    };
    let plain = Record { p: 0x0100, s: 0x0200, t: 0x04, ..flagged(ON) };
    let over = Record { s: 0xFFFB, t: 0x1E, p: 0xABCD, ..flagged(ON) };
    let timer = Record { ir1: true, ..over };
    let line = Record { ir2: true, s: 0xFFF9, ..over };
    let end = [(0x0100, vec![0xCD, 0xFF]), (0xFFFF, vec![0x12]), (0x10000, vec![0x34])];
    let under = Record { s: 0xFFC1, ..plain };
    vec![
        call(plain, &end),
        Sparse { lengths: [65_536, 0], ..call(plain, &end[..2]) },
        call(timer, &[]),
        call(line, &[]),
        call(under, &[(0x0100, vec![0xC0])]),
        call(under, &[(0x0100, vec![0xC1, 0xC0])]),
    ]
}

/// Each byte of a page: an unlisted one once, a listed one with flags clear over short pages and
/// with flags set over whole pages.
fn opcodes(page: usize) -> Vec<Sparse> {
    let mut cases = vec![];
    for byte in 0..=255_u8 {
        let mut bytes = executed(page, byte);
        if page == 0 && byte == 0xFD {
            bytes.push(0xCC);
        }
        cases.push(with_flags_clear(&bytes));
        if table()[page][usize::from(byte)].is_some() {
            cases.push(with_flags_set(&bytes));
        }
    }
    cases
}

/// The bytes of an opcode of a page.
fn executed(page: usize, byte: u8) -> Vec<u8> {
    if page == 1 {
        vec![0xFD, byte]
    } else {
        vec![byte]
    }
}

/// Each listed opcode once, the prefix apart: over short pages and over whole ones in turn.
pub fn listed() -> Vec<Sparse> {
    let bytes = (0..2).flat_map(|page| (0..=255_u8).map(move |byte| (page, byte)));
    let listed = bytes.filter(|(page, byte)| {
        let entry = table()[*page][usize::from(*byte)];
        entry.is_some_and(|entry| entry.kind != Kind::Prefix)
    });
    let case = |(index, (page, byte)): (usize, (usize, u8))| match index % 2 {
        0 => with_flags_clear(&executed(page, byte)),
        _ => with_flags_set(&executed(page, byte)),
    };
    listed.enumerate().map(case).collect()
}

fn with_flags_clear(bytes: &[u8]) -> Sparse {
    let record = Record { a: 0x3C, x: 0x0210, y: 0x0325, u: 0x0138, s: 0x03F0, ..flagged(ON) };
    Sparse {
        record: Record { p: 0x0040, tm: 0x0AB, ..record },
        keyboard: 0x6B,
        limit: 1,
        lengths: [1024, 1024],
        fill: (0x02, 0x05),
        set: vec![(0x0040, bytes.to_vec())],
    }
}

fn with_flags_set(bytes: &[u8]) -> Sparse {
    let record = Record { a: 0xC7, t: 0x1D, x: 0xA9FF, y: 0x7F00, u: 0xFFFF, ..flagged(0x01E) };
    let counters = Record { timer_state: 33, step_previous_state: 0, ticks: 7, ..record };
    Sparse {
        record: Record { s: 0x0001, p: 0xFFFE - 2, tm: 0x1FE, ..counters },
        keyboard: 0x00,
        limit: 1,
        lengths: [65_536, 65_536],
        fill: (0x9D, 0x0B),
        set: vec![(0xFFFC, bytes.to_vec())],
    }
}

#[cfg(test)]
mod tests {
    use super::{groups, marked};
    use crate::call::{Answer, Side};
    use crate::model::Model;
    use crate::original::Original;

    /// Both sides' answers to a marked case.
    fn answers(number: u32) -> Vec<[Answer; 2]> {
        let (_, cases) = marked().into_iter().find(|(found, _)| *found == number).unwrap();
        let calls = cases.iter().map(|case| case.call().unwrap());
        calls.map(|call| [Original.call(&call), Model::default().call(&call)]).collect()
    }

    #[test]
    fn marked_cases_1_to_6() {
        let expected =
            [(0x42, 0x18), (0x00, 0x01), (0x99, 0x11), (0x15, 0x01), (0x85, 0x10), (0x9A, 0x04)];
        for (number, (a, t)) in (1..).zip(expected) {
            for answer in answers(number).iter().flatten() {
                assert_eq!((answer.number, answer.steps), (0, 1), "case {number}");
                assert_eq!((answer.record.a, answer.record.t), (a, t), "case {number}");
            }
        }
    }

    #[test]
    fn marked_case_7() {
        let pairs = answers(7);
        for (pair, expected) in pairs.iter().zip([(0x1FF, true), (0x0FF, false)]) {
            for answer in pair {
                assert_eq!((answer.record.tm, answer.record.is_timer_reached), expected);
            }
        }
    }

    #[test]
    fn marked_cases_8_and_9() {
        for (number, u, p, states) in [(8, 0x12FF, 4, 8), (9, 0x1200, 0, 11)] {
            for answer in answers(number).iter().flatten() {
                assert_eq!((answer.record.u, answer.record.p), (u, p), "case {number}");
                assert_eq!((answer.states, answer.record.t), (states, 0), "case {number}");
            }
        }
    }

    #[test]
    fn marked_cases_10_and_11() {
        for (number, byte) in [(10, 0x41), (11, 0x23)] {
            for answer in answers(number).iter().flatten() {
                assert_eq!((answer.record.a, answer.pages[0][1]), (0x34, byte), "case {number}");
            }
        }
    }

    #[test]
    fn marked_cases_12_and_13() {
        for answer in answers(12).iter().flatten() {
            assert_eq!((answer.record.p, answer.states), (0, 8));
        }
        for answer in answers(13).iter().flatten() {
            assert_eq!(answer.line(), "5 3 25 42 18 0005 0000 0000 0000 0004 000 008 25 0 25");
            assert_eq!(answer.byte, 0x31);
        }
    }

    #[test]
    fn directed_calls_reach_every_stop_from_0_to_7() {
        let mut reached = [false; 8];
        for (_, cases) in groups() {
            for case in cases {
                reached[usize::from(Original.call(&case.call().unwrap()).number)] = true;
            }
        }
        assert_eq!(reached, [true; 8]);
    }
}
