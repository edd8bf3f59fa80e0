//! Directed calls with IR0 set (document 02, F-6): every state of a step, three entries in a row, the
//! stack around the vector, read-only parts, the timer, every T, few free entries, stop addresses, and
//! 1 to 4.

#![forbid(unsafe_code)]

use crate::call::{Call, ReadOnly, Record};
use crate::directed::{code, flagged, DIFFERENCES, ON};
use crate::item::{Given, NO_LOG};
use crate::list::Sparse;
use crate::logs::{filled, garbage, Calls};

const IR0: u16 = 0x020;
/// Where a requested unit is before the entry: P and S.
const P: u16 = 0x0010;
const STACK: u16 = 0x0080;
/// Where the routines of IR0, IR1 and IR2 begin.
const ROUTINES: [u16; 3] = [0x0040, 0x0044, 0x0048];

/// RTI alone; SIE, NOP and RTI; RIE, NOP and RTI.
const CODES: [&[u8]; 3] = [&[0x8A], &[0xFD, 0x81, 0x38, 0x8A], &[0xFD, 0xBE, 0x38, 0x8A]];
const RTI: &[u8] = CODES[0];
const SIE: &[u8] = CODES[1];

/// All groups, with a title each. In the group of 11 every call has a log; in each other group every
/// call comes without a log and with one.
pub fn groups() -> Vec<(&'static str, Calls)> {
    vec![
        ("IR0 and every kind of step", both_ways(states())),
        ("IR0 and the stack around its vector", both_ways(stacks())),
        ("IR0 and the timer", both_ways(timers())),
        ("IR0 and every T", both_ways(every_t())),
        ("IR0 and P at an edge", both_ways(places())),
        ("IR0 and a stop address", both_ways(stops())),
        ("IR0 and 11", Box::new(full_logs())),
        ("1 to 4 with IR0", both_ways(refusals())),
    ]
}

/// Each call without a log, and with one that has room for all its steps or for some.
fn both_ways(calls: impl Iterator<Item = Call> + 'static) -> Calls {
    Box::new(calls.enumerate().flat_map(|(index, call)| {
        let used = index % 5;
        let log = garbage(used + if index % 3 == 0 { 14 } else { 90 }, used);
        [call.clone(), Call { bus_log: Some(log), ..call }]
    }))
}

/// A unit on NOPs, and the same routine at each of the three vectors.
fn requested(record: Record, routine: &[u8], limit: u32) -> Sparse {
    let record = Record { p: P, s: STACK, ..record };
    let [ir0, ir1, ir2] = ROUTINES.map(u16::to_be_bytes);
    let vectors = (0xFFF8, [ir2, ir1, ir0].concat());
    let routines = ROUTINES.map(|at| (at.into(), routine.to_vec()));
    let set = routines.into_iter().chain([vectors]).collect();
    Sparse { lengths: [65_536, 16], fill: (0x38, 0x00), set, ..code(record, limit, &[]) }
}

/// Such a unit's call.
fn call(record: Record, routine: &[u8], limit: u32) -> Call {
    requested(record, routine, limit).call().expect("its bytes lie inside its pages")
}

/// The flags that decide beside IR0: halted, IR1, IR2, timer reached; every state of them.
fn deciding() -> impl Iterator<Item = u16> {
    let flags = [0x001, 0x040, 0x080, 0x100];
    (0..16).map(move |state| (0..4).filter(|i| state >> i & 1 == 1).map(|i| flags[i]).sum())
}

/// Every state of the flags that decide what a step is, BF clear too, with IE clear and set: one step
/// and several, so that the other interrupts follow behind RTI, or inside the routine behind SIE.
fn states() -> impl Iterator<Item = Call> {
    let flags = deciding().flat_map(|flags| [0x000, ON].map(|bf| IR0 + bf + flags));
    let states = flags.flat_map(|flags| [0x00, 0x02].map(|t| Record { t, ..flagged(flags) }));
    let routines = states.flat_map(|record| CODES.map(|routine| (record, routine)));
    routines.flat_map(|(record, routine)| {
        let limits = [1, 2, 3, 8, 15].map(|limit| call(record, routine, limit));
        limits.into_iter().flat_map(|call| {
            [0, 42].map(|idle| {
                let mut call = call.clone();
                call.inputs.idle = idle;
                call
            })
        })
    })
}

/// Read-only parts around the vector and around what the entry pushes, and none.
fn parts(s: u16) -> Vec<ReadOnly> {
    let [s, low, high] = [0, 1, 2].map(|down| u32::from(s.wrapping_sub(down)));
    let vector = [(0xFFFC, 0xFFFE), (0xFFFC, 0xFFFD), (0xFFFD, 0xFFFE), (0xFFFD, 0xFFFC)];
    let pushes = [(s, s + 1), (low, low + 1), (high, high + 1)];
    let far = [(0, u32::MAX), (0xFFFF, 65_536), (65_536, 131_072)];
    let all = vector.into_iter().chain(pushes).chain(far);
    all.map(|(first, end)| ReadOnly::new(first, end)).collect()
}

/// S around the vector and both ends of page 0.
fn around_the_vector() -> impl Iterator<Item = u16> {
    (0xFFF6..=0xFFFF).chain(0x0000..=0x0003)
}

/// S around the vector, on whole pages, such as end in or before the vector, and empty ones, with
/// each of the read-only parts: the reads find what was pushed, or what was there before.
fn stacks() -> impl Iterator<Item = Call> {
    let lengths = [65_536, 0xFFFE, 0xFFFD, 0xFFFC, 0x0200, 0];
    let pages = around_the_vector().flat_map(move |s| lengths.map(|length| (s, length)));
    pages.flat_map(|(s, length)| {
        let records = [(0x1E, 0x000), (0xE1, 0x0C1)].map(|(t, flags)| Record {
            t,
            s,
            p: 0xABCD,
            ..flagged(ON + IR0 + flags)
        });
        records.into_iter().flat_map(move |record| {
            parts(s).into_iter().map(move |read_only| {
                let pages = filled([length, 0], 0x5A);
                Call { record, limit: 2, pages, read_only, ..Call::default() }
            })
        })
    })
}

/// The timer part of an entry, at each difference, and that of the step behind it: of a unit that runs,
/// of one that is halted, and of one that would wait.
fn timers() -> impl Iterator<Item = Call> {
    let values = [0x000, 0x001, 0x0AA, 0x155, 0x1FE, 0x1FF];
    let timers = DIFFERENCES.into_iter().flat_map(move |pair| values.map(|tm| (pair, tm)));
    let flags = [0x000, 0x001, 0x100, 0x101].map(|flags| flagged(ON + IR0 + flags));
    let records = timers.flat_map(move |((timer_state, step_previous_state), tm)| {
        flags.map(|record| Record { tm, timer_state, step_previous_state, ..record })
    });
    let enabled = records.flat_map(|record| [0x00, 0x02].map(|t| Record { t, ..record }));
    enabled.flat_map(|record| {
        [(0, 1), (0, 2), (1, 1), (255, 2)].map(|(idle, limit)| {
            let mut call = call(record, RTI, limit);
            call.inputs.idle = idle;
            call
        })
    })
}

/// Every T: pushed as it is, IE cleared in the routine, and back behind RTI as it was.
fn every_t() -> impl Iterator<Item = Call> {
    (0..=255).flat_map(|t| {
        let record = Record { t, ..flagged(ON + IR0) };
        [1, 2, 3].map(|limit| call(record, RTI, limit))
    })
}

/// P at the edges, with IE clear and set: pushed, and back behind RTI.
fn places() -> impl Iterator<Item = Call> {
    let edges = [0x0000, 0x0001, 0x00FF, 0x0100, 0x1234, 0x7FFF, 0x8000, 0xFF00, 0xFFFC, 0xFFFD];
    let places = edges.into_iter().chain([0xFFFE, 0xFFFF]);
    places.flat_map(|p| {
        let calls = [0x00, 0x02].map(|t| call(Record { t, ..flagged(ON + IR0) }, RTI, 3));
        calls.into_iter().flat_map(move |call| {
            let record = Record { p, ..call.record };
            [1, 2, 3].map(|limit| Call { record, limit, ..call.clone() })
        })
    })
}

/// The stop address at P, in the routines, behind the return, and elsewhere, where the entry comes with
/// no other request, with IR1, and with a timer reached.
fn stops() -> impl Iterator<Item = Call> {
    let flags = [0x000, 0x001, 0x040, 0x101].map(|flags| flagged(ON + IR0 + flags));
    let records = flags.into_iter().flat_map(|record| [0x00, 0x02].map(|t| Record { t, ..record }));
    let routines = records.flat_map(|record| CODES.map(|routine| (record, routine)));
    routines.flat_map(|(record, routine)| {
        let call = call(record, routine, 1);
        let addresses = [P, P + 1, ROUTINES[0], ROUTINES[0] + 1, ROUTINES[0] + 2, ROUTINES[1]];
        let addresses = addresses.into_iter().chain([0xFFFC, 0x0000, 0xFFFF]);
        let ended = addresses.flat_map(|address| (1..=8).map(move |limit| (address, limit)));
        ended.map(move |(address, limit)| {
            let mut call = Call { limit, ..call.clone() };
            call.inputs.stop_address = Some(address);
            call
        })
    })
}

/// With 0 to 20 entries free, or a used count beyond the list: 11 in place of the entry, or behind it;
/// and with BF clear.
fn full_logs() -> impl Iterator<Item = Call> {
    let lists = (0..=20).map(|free| (free + 2, 2)).chain([(0, 0), (3, 4), (20, usize::MAX)]);
    lists.flat_map(|(length, used)| {
        let flags = [ON, ON + 0x001, ON + 0x140, 0x001].map(|flags| flagged(IR0 + flags));
        flags.into_iter().flat_map(move |record| {
            (1..=4).map(move |limit| {
                let bus_log = Some(garbage(length, used));
                Call { bus_log, ..call(Record { t: 0x02, ..record }, RTI, limit) }
            })
        })
    })
}

/// 1 to 4 come first.
fn refusals() -> impl Iterator<Item = Call> {
    [0x000, ON, ON + 0x001].into_iter().flat_map(|flags| {
        let mut calls = [0; 5].map(|_| call(flagged(IR0 + flags), RTI, 1));
        calls[0].pages[0].resize(65_537, 0x38);
        calls[1].pages[1].resize(65_537, 0x38);
        calls[2].record.tm = 512;
        calls[3].limit = 0;
        calls[4].limit = 1_000_001;
        calls
    })
}

/// The short calls that the replay list holds, every other one with a log where nothing else is said.
pub fn short() -> Vec<Given> {
    let plain = short_states().into_iter().chain(short_timers()).chain(short_places());
    let used = [NO_LOG, 0, NO_LOG, 9].into_iter().cycle();
    let plain = plain.chain(short_refusals()).zip(used).map(Given::new);
    let more = short_stacks().into_iter().chain(short_stops()).chain(short_logs());
    plain.chain(more).collect()
}

/// Every state of the flags that decide, with IE clear and set, through all the routines; and some with
/// BF clear.
fn short_states() -> Vec<Sparse> {
    let states = deciding().flat_map(|flags| [0x00, 0x02].map(|t| (flags, t)));
    let on = states.map(|(flags, t)| {
        let routine = if flags & 0x040 == 0 { RTI } else { SIE };
        requested(Record { t, ..flagged(ON + IR0 + flags) }, routine, 14)
    });
    let off = [0x000, 0x001, 0x040, 0x100].map(|flags| requested(flagged(IR0 + flags), RTI, 3));
    on.chain(off).collect()
}

/// A difference of 41 and of 42, the next shift ending in 1FF or not, running and halted.
fn short_timers() -> Vec<Sparse> {
    let timers = [(41, 0x1FE), (42, 0x1FE), (42, 0x155), (84, 0x1FF)];
    let records = timers.into_iter().flat_map(|(timer_state, tm)| {
        [0x000, 0x101].map(|flags| Record { tm, timer_state, ..flagged(ON + IR0 + flags) })
    });
    records.map(|record| requested(record, RTI, 2)).collect()
}

/// T with each of its bits and with all of them; P at both ends of page 0.
fn short_places() -> Vec<Sparse> {
    let status = (0..8).map(|bit| 1 << bit).chain([0xFF]);
    let status = status.map(|t| requested(Record { t, ..flagged(ON + IR0) }, RTI, 3));
    let ends = [0x0000, 0xFFFF].map(|p| {
        let sparse = requested(flagged(ON + IR0), RTI, 3);
        Sparse { record: Record { p, ..sparse.record }, ..sparse }
    });
    status.chain(ends).collect()
}

fn short_refusals() -> Vec<Sparse> {
    let plain = requested(flagged(ON + IR0), RTI, 1);
    vec![
        Sparse { lengths: [65_537, 0], ..plain.clone() },
        Sparse { lengths: [65_536, 65_537], ..plain.clone() },
        Sparse { record: Record { tm: 512, ..plain.record }, ..plain.clone() },
        Sparse { limit: 0, ..plain },
    ]
}

/// S from FFF9 over both ends to 0002, with the vector read-only and not; and pages that are short.
fn short_stacks() -> Vec<Given> {
    let pushing = |s| {
        let record = Record { t: 0xE3, s, p: 0xABCD, ..flagged(ON + IR0) };
        let set = vec![(0xFFF8, vec![0x11, 0x22, 0x33, 0x44, 0x55, 0x66, 0x77, 0x88])];
        Sparse { lengths: [65_536, 0], set, ..code(record, 2, &[]) }
    };
    let stacks = around_the_vector().skip(3).take(10).flat_map(|s| {
        let part = parts(s)[usize::from(s) % 5];
        [ReadOnly::default(), part].map(|part| (pushing(s), part))
    });
    let short = [0xFFFD_usize, 0x0081, 0].into_iter().flat_map(|length| {
        let sparse = Sparse { lengths: [length, 0], set: vec![], ..pushing(STACK) };
        [ReadOnly::default(), ReadOnly::new(0x0080, 65_537)].map(|part| (sparse.clone(), part))
    });
    let used = [0, NO_LOG, NO_LOG, 57].into_iter().cycle();
    let all = stacks.chain(short).zip(used);
    all.map(|((sparse, read_only), used)| Given { read_only, ..Given::new((sparse, used)) })
        .collect()
}

/// The stop address at P, in the routine, and behind the return, with IE clear and set.
fn short_stops() -> Vec<Given> {
    let addresses = [P, ROUTINES[0], ROUTINES[0] + 2, P + 1].into_iter();
    let calls = addresses.flat_map(|address| {
        [(0x00, RTI), (0x02, SIE)].map(|(t, routine)| {
            let sparse = requested(Record { t, ..flagged(ON + IR0 + 0x040) }, routine, 8);
            Given { stop_address: Some(address), ..Given::new((sparse, NO_LOG)) }
        })
    });
    let logged = [0, NO_LOG].into_iter().cycle();
    calls.zip(logged).map(|(given, used)| Given { used, ..given }).collect()
}

/// Used counts that leave 6, 7, 8, 12, 13 and 14 entries of the log.
fn short_logs() -> Vec<Given> {
    let used = [58, 57, 56, 52, 51, 50].into_iter();
    used.map(|used| Given::new((requested(flagged(ON + IR0 + 0x101), RTI, 3), used))).collect()
}

#[cfg(test)]
mod tests {
    use super::{call, groups, short, Calls, CODES, P, ROUTINES, RTI, SIE, STACK};
    use crate::call::{Access, Call, ReadOnly, Record, Side};
    use crate::compare::{ordered_original, Comparison};
    use crate::ir0_counts::Ir0Counts;
    use crate::logs::{garbage, on};
    use crate::model::Model;
    use crate::original::Original;
    #[cfg(feature = "port")]
    use crate::port::Port;

    fn all() -> Calls {
        Box::new(groups().into_iter().flat_map(|(_, calls)| calls))
    }

    #[test]
    fn directed_calls_are_answered_alike() {
        let sides: Vec<Box<dyn Side>> = vec![
            Box::<Model>::default(),
            #[cfg(feature = "port")]
            Box::new(Port),
        ];
        for side in sides {
            let mut comparison = Comparison::new(side);
            for call in all() {
                assert_eq!(comparison.both(&call).2, None, "{call:?}");
            }
        }
    }

    #[test]
    fn directed_calls_do_all_that_they_can() {
        let mut counts = Ir0Counts::default();
        all().for_each(|call| counts.add(&call, &ordered_original(&call)));
        assert!(counts.have_all(), "{counts}");
    }

    #[test]
    fn the_calls_of_the_replay_list_are_short() {
        let calls: Vec<_> = short().iter().map(|given| given.call().unwrap()).collect();
        assert!(calls.iter().all(|call| call.limit <= 14 && call.record.ir0));
    }

    /// IR0 requested, and nothing else.
    fn ir0() -> Record {
        Record { ir0: true, ..on() }
    }

    /// Holds every side's end record, after so many steps and states. Calls of a log tell the accesses.
    fn hold(given: &Call, states: u64, wanted: Record) {
        let logged = Call { bus_log: Some(garbage(100, 0)), ..given.clone() };
        let sides: Vec<Box<dyn Side>> = vec![
            Box::new(Original),
            Box::<Model>::default(),
            #[cfg(feature = "port")]
            Box::new(Port),
        ];
        for mut side in sides {
            let answer = side.call(&logged);
            let counts = (answer.number, answer.steps, answer.states);
            assert_eq!(counts, (0, given.limit.into(), states), "{}", side.name());
            assert_eq!((answer.failure, answer.record), (None, wanted), "{}", side.name());
        }
    }

    /// T as it was, P's low byte, its high byte, then the vector's high byte and its low one; IE and the
    /// request cleared, no states; IE set or not, halted or not, whatever the idle figure is.
    #[test]
    fn the_entry() {
        for (t, is_halted) in [(0x00, false), (0x02, false), (0xE0, true), (0xFF, true)] {
            let mut call = call(Record { t, is_halted, ..ir0() }, RTI, 1);
            let after = Record { p: ROUTINES[0], s: STACK - 3, t: t & 0xFD, ..call.record };
            let after = Record { ir0: false, is_halted: false, ..after };
            for idle in [0, 1, 255] {
                call.inputs.idle = idle;
                hold(&call, 0, after);
            }
            let log = ordered_original(&call).log.unwrap();
            let pushed = [(0x0080, t), (0x007F, 0x10), (0x007E, 0x00)];
            let pushed = pushed.map(|(at, byte)| Access::write(at, byte));
            let read = [Access::read(0xFFFC, 0x00), Access::read(0xFFFD, 0x40)];
            assert_eq!(log.accesses, [&pushed[..], &read].concat());
        }
    }

    /// IR0, then IR1 and IR2, each as soon as IE is set again: inside the routine before, or behind the
    /// last RTI.
    #[test]
    fn ir0_then_ir1_then_ir2() {
        let record = Record { t: 0x02, is_timer_reached: true, ir2: true, ..ir0() };
        let places = |routine: &[u8]| {
            let call = call(record, routine, 1);
            let ends = (1..=9).map(|limit| Original.call(&Call { limit, ..call.clone() }).record.p);
            ends.collect::<Vec<_>>()
        };
        let [first, second, third] = ROUTINES;
        assert_eq!(places(RTI), [first, P, second, P, third, P, P + 1, P + 2, P + 3]);
        let nested = [first, first + 2, second, second + 2, third, third + 2, third + 3];
        assert_eq!(places(SIE)[..7], nested);
        assert_eq!(places(CODES[2])[..4], [first, first + 2, first + 3, P]);
    }

    /// RTI brings T back, so that with IE clear the other requests go on waiting.
    #[test]
    fn back_with_ie_as_it_was() {
        for t in [0x00, 0x02, 0xFD, 0xFF] {
            let call = call(Record { t, ..ir0() }, RTI, 2);
            let after = Record { ir0: false, timer_state: 14, ticks: 14, ..call.record };
            hold(&call, 14, after);
        }
        let record = Record { ir1: true, ir2: true, ..ir0() };
        let call = call(record, RTI, 3);
        let after = Record { ir0: false, p: P + 1, timer_state: 19, ticks: 19, ..call.record };
        hold(&call, 19, after);
    }

    /// The timer part: no shift at 41, one at 42, which may set reached again; reached moves before.
    #[test]
    fn the_timer_part_of_the_entry() {
        for (timer_state, tm, is_timer_reached) in [(41, 0x1FE, false), (42, 0x1FF, true)] {
            let record = Record { tm: 0x1FE, timer_state, is_timer_reached: true, ..ir0() };
            let call = call(record, RTI, 1);
            let previous = if timer_state == 42 { 42 } else { 0 };
            let after =
                Record { p: ROUTINES[0], s: STACK - 3, ir0: false, ir1: true, ..call.record };
            let after = Record { tm, is_timer_reached, step_previous_state: previous, ..after };
            hold(&call, 0, after);
        }
    }

    /// With BF clear a step is 8 states and nothing else, and IR0 stays.
    #[test]
    fn with_bf_clear_ir0_stays() {
        let record = Record { ir0: true, t: 0x02, is_timer_reached: true, ..Record::default() };
        let call = call(record, RTI, 3);
        hold(&call, 24, Record { timer_state: 24, ticks: 24, ..call.record });
    }

    /// S at FFFE, FFFD and FFFC: the vector's bytes are what was pushed, unless they are read-only.
    #[test]
    fn the_vector_pushed_over() {
        let pages = [vec![0x11; 65_536], vec![]];
        let record = Record { t: 0x2A, p: 0xABCD, ..ir0() };
        let plain = Call { record, limit: 1, pages, ..Call::default() };
        for (s, p, kept) in
            [(0xFFFE, 0xABCD, 0xAB11), (0xFFFD, 0xCD2A, 0xCD11), (0xFFFC, 0x2A11, 0x2A11)]
        {
            for (read_only, p) in [(ReadOnly::default(), p), (ReadOnly::new(0xFFFD, 0xFFFE), kept)]
            {
                let record = Record { s, ..plain.record };
                let call = Call { record, read_only, ..plain.clone() };
                let after = Record { s: s.wrapping_sub(3), p, t: 0x28, ir0: false, ..record };
                hold(&call, 0, after);
            }
        }
    }
}
