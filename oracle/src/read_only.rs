//! Directed calls with a read-only part of page 0 (document 02, F-4): every write with the part's
//! edges around it, pushes, vectors read after dropped pushes, ends above page 0, empty parts.

#![forbid(unsafe_code)]

use crate::call::{Call, Inputs, ReadOnly, Record, Side};
use crate::directed::{self, code, flagged, ON};
use crate::list::Sparse;
use crate::logs::{filled, garbage, instruction, on, Calls, Place, PLACES};
use crate::original::Original;
use crate::random;

/// A call without a log, and its read-only part.
pub type Protected = (Sparse, ReadOnly);

/// All groups, with a title each. Every call comes without a log and with one.
pub fn groups() -> Vec<(&'static str, Calls)> {
    let lists = [edges(), stacks(), walks(), ends()].concat();
    let lists = lists.into_iter().map(|(sparse, read_only)| {
        let call = sparse.call().expect("its bytes lie inside its pages");
        Call { read_only, ..call }
    });
    vec![
        ("a read-only part: edges, stacks, walks, ends", with_logs(lists)),
        ("a read-only part around every write", with_logs(writes())),
        ("an entry with a read-only part", with_logs(entries())),
        ("a vector with a read-only part", with_logs(vectors())),
        ("steps without a write and a read-only part", with_logs(quiet())),
        ("1 to 4 with a read-only part", with_logs(refusals())),
    ]
}

/// The short calls that the replay list holds: some of them, and each opcode that writes.
pub fn short() -> Vec<Protected> {
    [edges(), stacks(), walks(), ends(), entry_cases(), opcode_cases()].concat()
}

/// Each call without a log, and with one that has room for all its steps or for some.
fn with_logs(calls: impl Iterator<Item = Call> + 'static) -> Calls {
    Box::new(calls.enumerate().flat_map(|(index, call)| {
        let used = index % 5;
        let log = garbage(used + if index % 3 == 0 { 10 } else { 200 }, used);
        [call.clone(), Call { bus_log: Some(log), ..call }]
    }))
}

/// Parts with an edge at an address of either page, one below it and one above it; parts that go on
/// to far ends; empty ones; and such as take the address in only where page 1 is protected too, or
/// a number is cut to 16 bits.
fn around(address: u32) -> Vec<ReadOnly> {
    let at = address & 0xFFFF;
    let (below, above) = (at.saturating_sub(1), at + 1);
    let near = [(at, above), (above, above + 1), (below, at), (below, above), (0, at), (0, above)];
    let far = [65_536, 65_537, 70_000, 131_072, u32::MAX].map(|end| (at, end));
    let empty =
        [(at, at), (above, at), (above, below), (at, 0), (u32::MAX, above), (65_536, above)];
    let cut = [(0, 65_536), (0, 65_536 + at), (65_536, 65_536 + above), (above, 131_072)];
    let page_1 = [(65_536, 131_072), (65_536 + at, 65_536 + above), (65_536 + at, u32::MAX)];
    let all = [&near[..], &far, &empty, &cut, &page_1].concat();
    all.into_iter().map(|(first, end)| ReadOnly::new(first, end)).collect()
}

/// The addresses that a call writes.
fn written(call: &Call) -> Vec<u32> {
    let log = Original.call(call).log.unwrap_or_default();
    let mut addresses: Vec<u32> = log.writes().map(|write| write.address()).collect();
    addresses.dedup();
    addresses
}

/// Each opcode that writes, at each place, with parts around each of its writes: of two pushed
/// bytes one is inside and one outside.
fn writes() -> impl Iterator<Item = Call> {
    crate::logs::listed()
        .flat_map(|opcode| PLACES.into_iter().flat_map(move |place| around_writes(&opcode, place)))
}

/// An opcode at a place, with the flags clear or set, whichever makes it write.
fn around_writes(opcode: &[u8], place: Place) -> Vec<Call> {
    let with_flags = [0x00, 0x1D].map(|t| instruction(opcode, place, t));
    let Some(call) = with_flags.into_iter().find(|call| !written(call).is_empty()) else {
        return vec![];
    };
    let parts = written(&call).into_iter().flat_map(around);
    parts.map(|read_only| Call { read_only, ..call.clone() }).collect()
}

/// Parts around the vectors of the entries, and none.
fn vector_parts(s: u16) -> Vec<ReadOnly> {
    let [s, low, high] = [0, 1, 2].map(|down| u32::from(s.wrapping_sub(down)));
    let pairs = [
        (0xFFFA, 0xFFFC),
        (0xFFFA, 0xFFFB),
        (0xFFFB, 0xFFFC),
        (0xFFF8, 0xFFFA),
        (0xFFFC, 0xFFFA),
        (0xFFF8, 65_536),
        (0, 131_072),
        (65_536, u32::MAX),
        (s, s + 1),
        (low, low + 1),
        (high, high + 1),
        (s, s),
    ];
    pairs.into_iter().map(|(first, end)| ReadOnly::new(first, end)).collect()
}

/// Each kind of entry, S around both vectors and the ends of page 0.
fn entries() -> impl Iterator<Item = Call> {
    let stacks = (0xFFF7..=0xFFFF_u16).chain([0, 1, 2, 0x0201]);
    let lengths = [[65_536, 16], [0xFFFB, 0], [0x0200, 0]];
    let records = stacks.flat_map(|s| [0x048, 0x088, 0x108, 0x149].map(|flags| entering(s, flags)));
    records.flat_map(move |record| {
        lengths.into_iter().flat_map(move |lengths| {
            vector_parts(record.s).into_iter().map(move |read_only| {
                let pages = filled(lengths, 0x5A);
                Call { record, limit: 2, pages, read_only, ..Call::default() }
            })
        })
    })
}

/// An entry comes next.
fn entering(s: u16, flags: u16) -> Record {
    Record { t: 0x1E, s, p: 0xABCD, ..flagged(flags) }
}

/// Every vector, S from below to above its two bytes, with one of them protected, both, and
/// everything from there on. Vector FF has its second byte in page 1.
fn vectors() -> impl Iterator<Item = Call> {
    (0..=255_u8).flat_map(|number| {
        let vector = 0xFF00 + u32::from(number);
        let ends = [(0, 1), (1, 2), (0, 2), (0, 256), (0, 65_536), (1, 0)];
        let parts = ends.map(|(first, end)| ReadOnly::new(vector + first, vector + end));
        (0..4_u16).flat_map(move |above| {
            let s = (vector as u16).wrapping_add(above);
            parts.into_iter().map(move |read_only| vector_call(number, s, read_only))
        })
    })
}

/// VMJ in one page of 65,536 bytes and one of four.
fn vector_call(number: u8, s: u16, read_only: ReadOnly) -> Call {
    let mut pages = filled([65_536, 4], 0xA5);
    random::place(&mut pages[0], 0x0100, &[0xCD, number]);
    let record = Record { s, p: 0x0100, ..on() };
    Call { record, limit: 1, pages, read_only, ..Call::default() }
}

/// With BF clear, IR0 clear and set; waiting; and NOP.
fn quiet() -> impl Iterator<Item = Call> {
    let waiting = Record { is_halted: true, ..on() };
    let off = Record { ir0: true, ..Record::default() };
    [Record::default(), off, waiting, on()].into_iter().flat_map(|record| {
        around(0).into_iter().map(move |read_only| {
            let inputs = Inputs { idle: 42, ..Inputs::default() };
            let pages = [vec![0x38; 8], vec![0x77; 8]];
            Call { record, inputs, limit: 5, pages, read_only, ..Call::default() }
        })
    })
}

/// 1 to 4 come first, whatever is read-only.
fn refusals() -> impl Iterator<Item = Call> {
    around(0x0004).into_iter().flat_map(|read_only| {
        let pages = [vec![0x0E; 8], vec![]];
        let plain = Call { record: on(), limit: 1, pages, read_only, ..Call::default() };
        let mut calls = [0; 5].map(|_| plain.clone());
        calls[0].pages[0].resize(65_537, 0x38);
        calls[1].pages[1].resize(65_537, 0x38);
        calls[2].record.tm = 512;
        calls[3].limit = 0;
        calls[4].limit = 1_000_001;
        calls
    })
}

/// This code at 0, and both pages of 48 bytes.
fn among(record: Record, limit: u32, bytes: &[u8]) -> Sparse {
    Sparse { lengths: [48, 48], fill: (0x21, 0x01), ..code(record, limit, bytes) }
}

/// STA (X), STA #(X), LDA (X), with X at 0020 of both pages; and STA (X) at FFFF.
fn edges() -> Vec<Protected> {
    let record = Record { a: 0x5A, x: 0x0020, ..flagged(ON) };
    let both = among(record, 3, &[0x0E, 0xFD, 0x0E, 0x05]);
    let last = Sparse { lengths: [65_536, 0], ..code(Record { x: 0xFFFF, ..record }, 2, &[]) };
    let last = Sparse { set: vec![(0, vec![0x0E, 0x05])], ..last };
    let ends = [0xFFFF, 65_536, 65_537, u32::MAX];
    let at_the_end = ends.map(|end| (last.clone(), ReadOnly::new(0xFFFF, end)));
    let around = around(0x0020).into_iter().map(|part| (both.clone(), part));
    around.chain(at_the_end).collect()
}

/// Pushes that are read back: PSH A and POP A, PSH X and POP X, a call and its return. S is 0020, so
/// that a pushed word is at 0020 and 001F; with S at 0000 it is there and at FFFF.
fn stacks() -> Vec<Protected> {
    let record = Record { a: 0x5A, x: 0x1234, s: 0x0020, ..flagged(ON) };
    let codes: [&[u8]; 3] =
        [&[0xFD, 0xC8, 0xFD, 0x8A], &[0xFD, 0x88, 0xFD, 0x0A], &[0xBE, 0, 3, 0x9A]];
    let parts = [(0x20, 0x21), (0x1F, 0x20), (0x1F, 0x21), (0, 65_536)];
    let near = codes.into_iter().flat_map(|bytes| {
        let call = among(record, 3, bytes);
        parts.map(|(first, end)| (call.clone(), ReadOnly::new(first, end)))
    });
    let over = Sparse { lengths: [65_536, 0], ..among(Record { s: 0, ..record }, 2, codes[1]) };
    let over = Sparse { set: vec![(8, codes[1].to_vec())], ..over };
    let over = Sparse { record: Record { p: 8, ..over.record }, ..over };
    let parts = [(0, 1), (0xFFFF, 65_536), (0xFFFF, 131_072)];
    let over = parts.map(|(first, end)| (over.clone(), ReadOnly::new(first, end)));
    near.chain(over).collect()
}

/// SIN X, SDE X and LIN X, each eight times: forwards, back and forwards again over both edges.
fn walks() -> Vec<Protected> {
    let bytes = [[0x41; 8], [0x43; 8], [0x45; 8]].concat();
    let record = Record { a: 0x5A, x: 0x0020, ..flagged(ON) };
    let parts = [(0x22, 0x25), (0x20, 0x21), (0x27, 0x29), (0x24, 65_536), (0, 0x23), (0x25, 0x22)];
    let call = among(record, 24, &bytes);
    parts.map(|(first, end)| (call.clone(), ReadOnly::new(first, end))).to_vec()
}

/// A dropped write, and then 5, 6, 7 and the limit; BF clear.
fn ends() -> Vec<Protected> {
    let record = Record { a: 0x5A, x: 0x0020, ..flagged(ON) };
    let codes: [&[u8]; 4] =
        [&[0x0E, 0x31], &[0x0E, 0xFD, 0x00], &[0x0E, 0xFD, 0xB1], &[0x0E, 0xFD, 0x4C]];
    let calls = codes.map(|bytes| (among(record, 3, bytes), ReadOnly::new(0x20, 65_537)));
    let off = (among(Record::default(), 3, &[0x0E]), ReadOnly::new(0, u32::MAX));
    calls.into_iter().chain([off]).collect()
}

/// An entry with S at FFFB, where it pushes over its own vector.
fn entry_cases() -> Vec<Protected> {
    let record = entering(0xFFFB, 0x048);
    let vectors = vec![(0xFFF8, vec![0x11, 0x22, 0x33, 0x44])];
    let call = Sparse { lengths: [65_536, 0], set: vectors, ..code(record, 2, &[]) };
    vector_parts(0xFFFB).into_iter().map(|part| (call.clone(), part)).collect()
}

/// Each opcode that writes, with a part around its last write: the parts in turn.
fn opcode_cases() -> Vec<Protected> {
    let cases = directed::listed().into_iter().filter_map(|sparse| {
        let last = sparse.call().ok().and_then(|call| written(&call).last().copied());
        last.map(|address| (sparse, address))
    });
    let turns = cases.enumerate().map(|(index, (sparse, address))| {
        let parts = around(address);
        (sparse, parts[[0, 0, 3, 6, 9][index % 5]])
    });
    turns.collect()
}

#[cfg(test)]
mod tests {
    use super::{groups, short};
    use crate::call::{Access, Answer, BusLog, Call, Log, ReadOnly, Record, Side};
    use crate::compare::{difference, ordered_original};
    use crate::drops::Drops;
    use crate::logs::{on, Calls};
    use crate::model::Model;
    #[cfg(feature = "port")]
    use crate::port::Port;

    fn sides() -> Vec<Box<dyn Side>> {
        vec![
            Box::<Model>::default(),
            #[cfg(feature = "port")]
            Box::new(Port),
        ]
    }

    fn all() -> Calls {
        Box::new(groups().into_iter().flat_map(|(_, calls)| calls))
    }

    #[test]
    fn directed_calls_are_answered_alike() {
        let mut drops = Drops::default();
        for call in all() {
            let original = ordered_original(&call);
            drops.add(&call, &original);
            for mut side in sides() {
                let answer = side.call(&call);
                assert_eq!(difference(&original, &answer), None, "{}: {call:?}", side.name());
            }
        }
        assert!(drops.have_all(), "{drops}");
    }

    /// Whatever runs, the bytes of the part are what they were.
    #[test]
    fn protected_bytes_stay() {
        for call in all() {
            let after = ordered_original(&call).pages;
            let protected = call.read_only.offsets(call.pages[0].len());
            assert!(call.pages[0][protected.clone()] == after[0][protected], "{call:?}");
        }
    }

    #[test]
    fn the_list_has_a_hundred_and_more_short_calls() {
        let calls: Vec<_> = short();
        assert!((100..=160).contains(&calls.len()), "{}", calls.len());
        assert!(calls.iter().all(|(sparse, _)| sparse.limit <= 24 && sparse.call().is_ok()));
    }

    /// Every side's answer to a call of so many steps that are completed.
    fn answers(call: &Call) -> Vec<Answer> {
        let others = sides().into_iter().map(|mut side| side.call(call));
        let answers: Vec<Answer> = others.chain([ordered_original(call)]).collect();
        for answer in &answers {
            assert_eq!((answer.number, answer.steps), (0, call.limit.into()));
            assert_eq!(answer.failure, None);
        }
        answers
    }

    /// With this code at 0, page 0 of 64 bytes 11 and page 1 of 64 bytes 22.
    fn call(record: Record, bytes: &[u8], first: u32, end: u32) -> Call {
        let mut pages = [vec![0x11; 64], vec![0x22; 64]];
        pages[0][..bytes.len()].copy_from_slice(bytes);
        let bus_log = Some(BusLog { entries: vec![0; 20], used: 0 });
        let read_only = ReadOnly::new(first, end);
        Call { record, limit: 1, pages, bus_log, read_only, ..Call::default() }
    }

    /// PSH X with the low byte's address protected, the high one's, both, and neither: S is two
    /// less, both writes are in the log, and the page keeps what is protected.
    #[test]
    fn a_dropped_push_moves_s_and_is_logged() {
        let record = Record { x: 0x1234, s: 0x0020, ..on() };
        for (first, end, at_1f, at_20) in [
            (0x20, 0x21, 0x12, 0x11),
            (0x1F, 0x20, 0x11, 0x34),
            (0x1F, 0x21, 0x11, 0x11),
            (0x21, 0x40, 0x12, 0x34),
            (0x00, 0x1F, 0x12, 0x34),
            (0x20, 0x1F, 0x12, 0x34),
            (0x20, 0x20, 0x12, 0x34),
            (0x20, 65_536, 0x12, 0x11),
            (0x00, u32::MAX, 0x11, 0x11),
        ] {
            let call = call(record, &[0xFD, 0x88], first, end);
            for answer in answers(&call) {
                assert_eq!(answer.record.s, 0x001E);
                assert_eq!(answer.pages[0][0x1F..0x21], [at_1f, at_20], "{first:X} {end:X}");
                let log = answer.bus_log.unwrap();
                let pushed = [Access::write(0x20, 0x34), Access::write(0x1F, 0x12)];
                assert_eq!(log.entries[2..log.used], pushed.map(|access| access.entry()));
                let told = answer.log.iter().flat_map(Log::writes).copied().collect::<Vec<_>>();
                assert!(answer.log.is_none() || told == pushed);
            }
        }
    }

    /// STA (X) and STA #(X), X at 0020: of the two only page 0's is dropped, whatever the end is.
    #[test]
    fn page_1_is_never_protected() {
        let record = Record { a: 0x5A, x: 0x0020, ..on() };
        for end in [0x21, 65_536, 65_537, 65_568, 65_569, 70_000, 131_072, u32::MAX] {
            for first in [0, 0x20] {
                let call = Call { limit: 2, ..call(record, &[0x0E, 0xFD, 0x0E], first, end) };
                for answer in answers(&call) {
                    let bytes = answer.pages.map(|page| page[0x20]);
                    assert_eq!(bytes, [0x11, 0x5A], "{first:X} {end:X}");
                }
            }
            let call = Call { limit: 2, ..call(record, &[0x0E, 0xFD, 0x0E], 65_536, end) };
            for answer in answers(&call) {
                assert_eq!(answer.pages.map(|page| page[0x20]), [0x5A, 0x5A], "{end:X}");
            }
        }
    }

    /// An entry with S at FFFB pushes T there, and P's low byte at FFFA: P becomes what was there
    /// before where that is protected, and the pushed byte where it is not.
    #[test]
    fn a_vector_read_after_dropped_pushes_reads_the_old_byte() {
        let record = Record { s: 0xFFFB, t: 0x02, p: 0xABCD, ir1: true, ..on() };
        for (first, end, p) in [
            (0xFFFA, 0xFFFC, 0x1111),
            (0xFFFA, 0xFFFB, 0x1102),
            (0xFFFB, 0xFFFC, 0xCD11),
            (0xFFFB, 0xFFFB, 0xCD02),
            (0xFFFA, 65_536, 0x1111),
            (0x0000, u32::MAX, 0x1111),
            (65_536, u32::MAX, 0xCD02),
        ] {
            let mut call = call(record, &[], first, end);
            call.pages[0] = vec![0x11; 65_536];
            for answer in answers(&call) {
                assert_eq!((answer.record.p, answer.record.s), (p, 0xFFF8), "{first:X} {end:X}");
                let entries = &answer.bus_log.unwrap().entries[..5];
                let [high, low] = p.to_be_bytes();
                let read = [Access::read(0xFFFA, high), Access::read(0xFFFB, low)];
                assert_eq!(entries[3..], read.map(|access| access.entry()));
                let pushed = [(0xFFFB, 0x02), (0xFFFA, 0xCD), (0xFFF9, 0xAB)];
                assert_eq!(entries[..3], pushed.map(|(at, byte)| Access::write(at, byte).entry()));
            }
        }
    }

    /// With BF clear and waiting nothing is written, and the step is as without a part.
    #[test]
    fn steps_without_a_write_do_not_mind() {
        let off = Record { ir0: true, ..Record::default() };
        let waiting = Record { is_halted: true, ..on() };
        for (record, states) in [(Record::default(), 8), (off, 8), (waiting, 42)] {
            let mut call = call(record, &[0x0E], 0, u32::MAX);
            call.inputs.idle = 42;
            for answer in answers(&call) {
                assert_eq!((answer.states, answer.pages == call.pages), (states, true));
            }
        }
    }
}
