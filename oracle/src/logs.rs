//! Directed calls with a bus log (document 02, F-2): every listed opcode, entries, the stack over
//! the vectors, ends of pages, lists of every length, and 11 beside every other end.

#![forbid(unsafe_code)]

use crate::call::{BusLog, Call, Inputs, Record};
use crate::opcodes::{table, Kind};
use crate::random::{self, Random};

/// Directed calls in the order in which they are made.
pub type Calls = Box<dyn Iterator<Item = Call>>;

/// All groups, with a title each.
pub fn groups() -> Vec<(&'static str, Calls)> {
    vec![
        ("a list of every length", Box::new(lists())),
        ("11 beside the other ends", Box::new(ends())),
        ("1 to 4 with a log", Box::new(refusals())),
        ("LOP with a log", Box::new(loops())),
        ("every opcode with a log", Box::new(opcodes())),
        ("an entry with a log", Box::new(entries())),
        ("a vector under the stack with a log", Box::new(vectors())),
    ]
}

/// A log of this length with so many used, full of numbers that mean nothing.
pub fn garbage(length: usize, used: usize) -> BusLog {
    let mut random = Random::new(0xF2, (length ^ used) as u64);
    let entries = (0..length).map(|_| random.next() as u32).collect();
    BusLog { entries, used }
}

/// Pages of these lengths; the byte at an offset is its low byte with these bits turned.
pub fn filled(lengths: [usize; 2], turned: u8) -> [Vec<u8>; 2] {
    lengths.map(|length| (0..length).map(|i| i as u8 ^ turned).collect())
}

/// BF set, nothing else.
pub fn on() -> Record {
    Record { bf: true, ..Record::default() }
}

/// Where an instruction and what it touches lie.
#[derive(Clone, Copy)]
pub struct Place {
    lengths: [usize; 2],
    /// Page 0 ends behind the opcode: every operand is read past the end.
    cut: bool,
    code: u16,
    data: u16,
    stack: u16,
}

const INSIDE: Place =
    Place { lengths: [1024, 1024], cut: false, code: 0x0040, data: 0x0210, stack: 0x0300 };

/// Inside both pages; past both ends; page 1 empty; operands past page 0's end; the last byte of
/// both pages, the stack over it and just behind it; everything at the end of whole pages.
pub const PLACES: [Place; 7] = [
    INSIDE,
    Place { lengths: [128, 128], ..INSIDE },
    Place { lengths: [1024, 0], ..INSIDE },
    Place { cut: true, ..INSIDE },
    Place { data: 0x03FF, stack: 0x03FF, ..INSIDE },
    Place { data: 0x0400, stack: 0x0400, ..INSIDE },
    Place { lengths: [65_536, 65_536], cut: false, code: 0xFFFD, data: 0xFFFF, stack: 0x0000 },
];

/// The opcodes of both pages, FD apart, in the bytes that are executed.
pub fn listed() -> impl Iterator<Item = Vec<u8>> {
    (0..2).flat_map(|page| (0..=255_u8).map(move |byte| (page, byte))).filter_map(|(page, byte)| {
        let entry = table()[page][usize::from(byte)]?;
        let code = if page == 1 { vec![0xFD, byte] } else { vec![byte] };
        (entry.kind != Kind::Prefix).then_some(code)
    })
}

/// Each listed opcode at each place, with the flags clear and set, so that each condition holds and
/// does not hold. Seven entries are free: after one step with an access there is an 11.
fn opcodes() -> impl Iterator<Item = Call> {
    listed().enumerate().flat_map(|(index, opcode)| {
        PLACES.into_iter().flat_map(move |place| {
            let opcode = opcode.clone();
            [0x00, 0x1D].into_iter().map(move |t| {
                let mut call = instruction(&opcode, place, t);
                let used = index % 5;
                call.bus_log = Some(garbage(used + 7, used));
                call.limit = 1 + u32::from(t == 0);
                call
            })
        })
    })
}

/// One instruction at its place. Its operand, where it has one, is the place's data address, and a
/// byte behind it.
pub fn instruction(opcode: &[u8], place: Place, t: u8) -> Call {
    let [high, low] = place.data.to_be_bytes();
    let operand = if place.cut { vec![] } else { vec![high, low, 0x5A] };
    let code = [opcode, &operand].concat();
    let mut pages = filled(place.lengths, 0x00);
    if place.cut {
        pages[0].truncate(usize::from(place.code) + opcode.len());
    }
    random::place(&mut pages[0], place.code, &code);
    let (x, y, u, s, p) = (place.data, place.data, place.data, place.stack, place.code);
    let record = Record { a: 0xC3, t, x, y, u, s, p, ..on() };
    let inputs = Inputs::of_keyboard(0x6B);
    Call { record, inputs, limit: 1, pages, ..Call::default() }
}

/// LOP with UL at its edges: taken and not taken.
fn loops() -> impl Iterator<Item = Call> {
    [0x1200, 0x1201, 0x1202, 0x12FF].into_iter().map(|u| {
        let mut call = instruction(&[0x88], INSIDE, 0x00);
        (call.record.u, call.bus_log) = (u, Some(garbage(40, 3)));
        call.limit = 3;
        call
    })
}

/// Each kind of entry, S around both vectors and the page's ends, on whole, short and empty pages.
fn entries() -> impl Iterator<Item = Call> {
    let flags = [0x048, 0x088, 0x0C8, 0x108, 0x149, 0x089];
    let stacks = (0xFFF5..=0xFFFF_u16).chain([0, 1, 2, 0x01FF, 0x0200, 0x0201, 0x0202, 0x4000]);
    let lengths = [[65_536, 16], [0x0200, 0], [0xFFFB, 0], [0xFFF9, 0], [0, 0]];
    stacks.flat_map(move |s| {
        lengths.into_iter().flat_map(move |lengths| {
            flags.into_iter().map(move |flags| {
                let mut record = Record { t: 0x1E, s, p: 0xABCD, ..on() };
                record.set_flags(flags);
                let pages = filled(lengths, 0x5A);
                let bus_log = Some(garbage(13, 1));
                Call { record, limit: 2, pages, bus_log, ..Call::default() }
            })
        })
    })
}

/// Every vector, S from below to above its two bytes: what is pushed is read after it. Vector FF
/// has its second byte in page 1. VMJ takes every number, the opcodes that are vectors their own.
fn vectors() -> impl Iterator<Item = Call> {
    let direct = listed().filter(|code| {
        let entry = (code.len() == 1).then(|| table()[0][usize::from(code[0])]).flatten();
        entry.is_some_and(|entry| entry.kind == Kind::VectorDirect)
    });
    let jumps = (0..=255_u8).map(|number| vec![0xCD, number]);
    direct.chain(jumps).flat_map(|code| {
        (0..5_u16).flat_map(move |above| {
            let number = code[code.len() - 1];
            let s = (0xFF00 + u16::from(number)).wrapping_add(above).wrapping_sub(1);
            let code = code.clone();
            [0, 4].into_iter().map(move |length1| vector(&code, s, length1))
        })
    })
}

fn vector(code: &[u8], s: u16, length1: usize) -> Call {
    let mut pages = filled([65_536, length1], 0xA5);
    random::place(&mut pages[0], 0x0100, code);
    let record = Record { s, p: 0x0100, ..on() };
    let bus_log = Some(garbage(9, 2));
    Call { record, limit: 1, pages, bus_log, ..Call::default() }
}

/// A unit and its code for `lists`.
struct Course {
    record: Record,
    idle: u8,
    code: &'static [u8],
}

/// Steps of one access; of seven; of three and two with writes; with BF clear; waiting; the entry of
/// IR0, that of IR1, and what their vectors find.
fn courses() -> [Course; 7] {
    let course = |record, idle, code| Course { record, idle, code };
    let (x, s, t) = (0x0010, 0x0011, 0x02);
    let waiting = Record { is_halted: true, ..on() };
    [
        course(on(), 0, &[0x38; 12]),
        course(Record { x, ..on() }, 0, &[0xFD, 0xEB, 0x00, 0x12, 0x5A, 0xFD, 0xEB, 0x00, 0x12, 1]),
        course(Record { x, s, ..on() }, 0, &[0x0E, 0xFD, 0xC8, 0x15, 0x41, 0x9E, 0x06]),
        course(Record::default(), 0, &[0x38]),
        course(waiting, 42, &[0x38]),
        course(Record { ir0: true, s, ..on() }, 0, &[0x38]),
        course(Record { ir1: true, t, s, ..on() }, 0, &[0x38]),
    ]
}

/// Used counts around the end of a list, and such as would wrap.
fn used_counts(length: usize) -> impl Iterator<Item = usize> {
    let great = [usize::MAX, usize::MAX - 6, usize::MAX - 7, usize::MAX - length, 1 << 32, 1 << 63];
    (0..=length + 8).chain(great)
}

/// Lists of every length from 0 to 30 with every used count, on every course.
fn lists() -> impl Iterator<Item = Call> {
    courses().into_iter().flat_map(|Course { record, idle, code }| {
        let logs = (0..=30).flat_map(|length| used_counts(length).map(move |used| (length, used)));
        logs.map(move |(length, used)| {
            let mut page = code.to_vec();
            page.resize(0x20, 0x38);
            let inputs = Inputs { idle, ..Inputs::default() };
            let bus_log = Some(garbage(length, used));
            Call {
                record,
                inputs,
                limit: 5,
                pages: [page, vec![0x77; 0x20]],
                bus_log,
                ..Call::default()
            }
        })
    })
}

/// Stops 5, 6 and 7, and the limit, after no step, one and two, with 0 to 16 entries free.
fn ends() -> impl Iterator<Item = Call> {
    let last: [&[u8]; 4] = [&[0x31], &[0xFD, 0x00], &[0xFD, 0xB1], &[0x38]];
    last.into_iter().flat_map(|last| {
        (0..3).flat_map(move |before| {
            (0..=16).flat_map(move |free| {
                [0, 3].into_iter().map(move |used| {
                    let page = [&vec![0x38; before], last].concat();
                    let bus_log = Some(garbage(used + free, used));
                    let (record, limit) = (on(), before as u32 + 2);
                    let pages = [page, vec![]];
                    Call { record, limit, pages, bus_log, ..Call::default() }
                })
            })
        })
    })
}

/// 1 to 4 come first, whatever the log is.
fn refusals() -> impl Iterator<Item = Call> {
    let logs = [(0, 0), (6, 0), (7, 0), (20, 5), (20, 21), (3, usize::MAX)];
    logs.into_iter().flat_map(|(length, used)| {
        let pages = [vec![0x38; 4], vec![]];
        let bus_log = Some(garbage(length, used));
        let plain = Call { record: on(), limit: 1, pages, bus_log, ..Call::default() };
        let mut calls = [0; 5].map(|_| plain.clone());
        calls[0].pages[0].resize(65_537, 0x38);
        calls[1].pages[1].resize(65_537, 0x38);
        calls[2].record.tm = 512;
        calls[3].limit = 0;
        calls[4].limit = 1_000_001;
        calls
    })
}

#[cfg(test)]
mod tests {
    use super::{groups, Calls};
    use crate::call::{Access, BusLog, Call, Record, Side};
    use crate::compare::{difference, ordered_original, Logs};
    use crate::model::Model;
    #[cfg(feature = "port")]
    use crate::port::Port;
    use crate::traces::Traces;

    fn sides() -> Vec<Box<dyn Side>> {
        vec![
            Box::<Model>::default(),
            #[cfg(feature = "port")]
            Box::new(Port),
        ]
    }

    fn all() -> Calls {
        Box::new(groups().into_iter().flat_map(|(_, calls)| calls))
    }

    #[test]
    fn directed_calls_are_answered_alike() {
        for call in all() {
            let original = ordered_original(&call);
            for mut side in sides() {
                let answer = side.call(&call);
                assert_eq!(difference(&original, &answer), None, "{}: {call:?}", side.name());
            }
        }
    }

    #[test]
    fn directed_calls_reach_every_end_and_enough_traces() {
        let (mut logs, mut traces) = (Logs::default(), Traces::default());
        for call in all() {
            let original = ordered_original(&call);
            logs.add(&call, &original);
            traces.add(&call, &original);
        }
        assert!(logs.has_every_end(), "{logs}");
        assert!(traces.are_enough(), "{traces}");
    }

    const KEPT: u32 = 0xDEAD_BEEF;

    /// Holds every side's answer to a call: its number and steps, and the list and count after it.
    fn hold(call: Call, number: u8, steps: u64, used: usize, entries: &[u32]) {
        let original = ordered_original(&call);
        let others = sides().into_iter().map(|mut side| side.call(&call));
        for answer in others.chain([original]) {
            assert_eq!((answer.number, answer.steps, answer.failure), (number, steps, None));
            let log = BusLog { entries: entries.to_vec(), used };
            assert_eq!(answer.bus_log, Some(log));
        }
    }

    /// A call of this code at 0 with a list of so many words and so many used.
    fn call(record: Record, code: &[u8], limit: u32, length: usize, used: usize) -> Call {
        let bus_log = Some(BusLog { entries: vec![KEPT; length], used });
        let pages = [code.to_vec(), vec![]];
        Call { record, limit, pages, bus_log, ..Call::default() }
    }

    fn on() -> Record {
        Record { bf: true, ..Record::default() }
    }

    /// Document 01's worked run: LDI A, LDA (X) from its own code, and so on, up to the stop 5. The
    /// stopping step's read of 31 is no entry.
    #[test]
    fn the_worked_run_with_a_log() {
        let code = [0xB5, 0x15, 0xF9, 0x8C, 0x31, 0x27];
        let record = Record { x: 5, ..on() };
        let read = |address, byte| Access::read(address, byte).entry();
        let appended = [read(0, 0xB5), read(1, 0x15), read(2, 0xF9), read(3, 0x8C), read(5, 0x27)];
        let list = [&[KEPT; 2][..], &appended, &[KEPT; 8]].concat();
        hold(call(record, &code, 10, 15, 2), 5, 3, 7, &list);
    }

    /// STA (X) past the end of page 0 is an entry, with the write mark; LDA reads FF there.
    #[test]
    fn past_the_end() {
        let record = Record { a: 0x12, x: 0x7FFF, ..on() };
        let list = [0x0000_000E, 0x027F_FF12, 0x0000_0105, 0x007F_FFFF];
        let list = [&list[..], &[KEPT; 7]].concat();
        hold(call(record, &[0x0E, 0x05], 2, 11, 0), 0, 2, 4, &list);
    }

    /// STA #(X) of page 1.
    #[test]
    fn page_1() {
        let record = Record { a: 0x12, x: 0x0004, ..on() };
        let list = [0x0000_00FD, 0x0000_010E, 0x0300_0412, KEPT, KEPT, KEPT, KEPT];
        hold(call(record, &[0xFD, 0x0E], 1, 7, 0), 0, 1, 3, &list);
    }

    /// An entry with S at FFFB: T and P are pushed, and the vector's two bytes are what was pushed,
    /// the high one, at FFFA, first.
    #[test]
    fn an_entry_over_its_own_vector() {
        let record = Record { s: 0xFFFB, t: 0x02, p: 0xABCD, ir1: true, ..on() };
        let mut call = call(record, &[], 1, 7, 0);
        call.pages[0] = vec![0x11; 65_536];
        let list = [0x02FF_FB02, 0x02FF_FACD, 0x02FF_F9AB, 0x00FF_FACD, 0x00FF_FB02, KEPT, KEPT];
        hold(call, 0, 1, 5, &list);
    }

    #[test]
    fn an_empty_list_and_a_count_beyond_are_11() {
        hold(call(on(), &[0x38], 1, 0, 0), 11, 0, 0, &[]);
        for used in [8, 9, 1000, usize::MAX - 6, usize::MAX] {
            hold(call(on(), &[0x38], 1, 7, used), 11, 0, used, &[KEPT; 7]);
        }
    }

    /// A step of no access wants seven free entries too.
    #[test]
    fn eleven_before_steps_without_an_access() {
        let off = Record { ir0: true, ..Record::default() };
        let halted = Record { is_halted: true, ..on() };
        for record in [off, halted] {
            for (length, number, steps) in [(6, 11, 0), (7, 0, 3)] {
                let mut call = call(record, &[], 3, length, 0);
                call.inputs.idle = 9;
                hold(call, number, steps, 0, &vec![KEPT; length]);
            }
        }
    }

    /// 5, 6 and 7 come with seven free entries; with six it is 11. Nothing is appended.
    #[test]
    fn eleven_is_ahead_of_5_6_and_7() {
        let halted = Record { is_halted: true, ..on() };
        let stops: [(Record, &[u8], u8); 3] =
            [(on(), &[0x31], 5), (on(), &[0xFD, 0x00], 6), (halted, &[0x38], 7)];
        for (record, code, number) in stops {
            hold(call(record, code, 3, 10, 3), number, 0, 3, &[KEPT; 10]);
            hold(call(record, code, 3, 10, 4), 11, 0, 4, &[KEPT; 10]);
        }
    }

    /// Three NOPs fill three of nine entries; the fourth step would find six free.
    #[test]
    fn eleven_after_completed_steps() {
        let mut list = [KEPT; 9];
        list[..3].copy_from_slice(&[0x0000_0038, 0x0000_0138, 0x0000_0238]);
        hold(call(on(), &[0x38; 6], 6, 9, 0), 11, 3, 3, &list);
        hold(call(on(), &[0x38; 6], 3, 9, 0), 0, 3, 3, &list);
    }

    #[test]
    fn entry_stops_leave_the_count() {
        for used in [0, 5, 9, usize::MAX] {
            let high = Record { tm: 512, ..on() };
            hold(call(high, &[0x38], 1, 8, used), 3, 0, used, &[KEPT; 8]);
            hold(call(on(), &[0x38], 0, 8, used), 4, 0, used, &[KEPT; 8]);
        }
    }
}
