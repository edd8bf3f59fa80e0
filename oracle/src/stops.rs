//! Directed calls with a stop address (document 02, F-5): every opcode at it and before it, every byte
//! of an instruction, every kind of step with P there, entries and what they come to, both ends of
//! page 0, full logs and limits, and 1 to 4.

#![forbid(unsafe_code)]

use crate::call::{Call, ReadOnly, Record, Side};
use crate::directed::{code, flagged, ON};
use crate::list::Sparse;
use crate::logs::{self, filled, garbage, instruction, on, Calls, Place, PLACES};
use crate::opcodes::length;
use crate::original::Original;

/// All groups, with a title each. In the group of 11 every call has a log, and none is made without its
/// stop address. In each other group every call comes without a log and with one, and every fourth one
/// without its stop address besides.
pub fn groups() -> Vec<(&'static str, Calls)> {
    vec![
        ("a stop address around every opcode", varied(opcodes())),
        ("a stop address at the ends of page 0", varied(at_the_ends())),
        ("a stop address and every kind of step", varied(states())),
        ("a stop address and an entry", varied(entries())),
        ("a stop address with some bits turned", varied(turned())),
        ("a stop address in a routine", varied(routines())),
        ("a stop address and 11", Box::new(full_logs())),
        ("1 to 4 with a stop address", varied(refusals())),
    ]
}

/// The short calls that the replay list holds, each with its stop address; their idle figure is 0.
pub fn short() -> Vec<(Sparse, u16)> {
    let routines = courses().into_iter().flat_map(|course| {
        [0x0000, 0x0001, 0x0002, 0x0003, 0x0040].map(|address| (course.clone(), address))
    });
    let loops = (1..=4).map(|limit| (Sparse { limit, ..courses().swap_remove(2) }, 0x0001));
    let all = routines.chain(loops).chain(short_opcodes()).chain(short_states());
    all.chain(short_ends()).chain(short_refusals()).collect()
}

/// Every eighth opcode at 0 on a page of its bytes, with the stop address at it, one above it, and where
/// it goes, in turn.
fn short_opcodes() -> Vec<(Sparse, u16)> {
    let record = Record { t: 0x1D, s: 0x0002, tm: 0x1FF, ..flagged(ON + 0x100) };
    let calls = codes().step_by(8).enumerate().map(|(index, bytes)| {
        let sparse = code(record, 2, &bytes);
        let next = sparse.call().map_or(0, |call| after(&call));
        (sparse, [0, 1, next][index % 3])
    });
    calls.collect()
}

/// Kinds of steps with P at the stop address, IE clear and set.
fn short_states() -> Vec<(Sparse, u16)> {
    let flags = [0x000, 0x008, 0x009, 0x028, 0x048, 0x088, 0x108, 0x149, 0x109];
    let states = flags.into_iter().flat_map(|flags| [0x00, 0x02].map(|t| (flags, t)));
    let calls = states.map(|(flags, t)| {
        let record = Record { t, s: 0x0030, p: 0x0010, ..flagged(flags) };
        let sparse = Sparse { lengths: [64, 0], fill: (0x38, 0x00), ..code(record, 3, &[]) };
        (sparse, 0x0010)
    });
    calls.collect()
}

/// NOP, LDI A and FD CC at FFFF, so that P, an operand and the byte after FD are at 0000.
fn short_ends() -> Vec<(Sparse, u16)> {
    let record = Record { p: 0xFFFF, ..flagged(ON) };
    let call = |bytes: [u8; 2]| Sparse {
        lengths: [65_536, 0],
        fill: (0x38, 0x00),
        set: vec![(0x0000, vec![bytes[1]]), (0xFFFF, vec![bytes[0]])],
        ..code(record, 2, &[])
    };
    let [nop, load, after_fd] = [[0x38, 0x38], [0xB5, 0x5A], [0xFD, 0xCC]].map(call);
    vec![
        (nop.clone(), 0xFFFF),
        (nop, 0x0000),
        (load.clone(), 0x0000),
        (load, 0x0001),
        (after_fd, 0),
    ]
}

/// 1 to 4 on calls that would stop at once.
fn short_refusals() -> Vec<(Sparse, u16)> {
    let plain = code(flagged(ON), 1, &[0x38]);
    let calls = [
        Sparse { lengths: [65_537, 0], ..plain.clone() },
        Sparse { lengths: [1, 65_537], ..plain.clone() },
        Sparse { record: Record { tm: 512, ..flagged(ON) }, ..plain.clone() },
        Sparse { limit: 0, ..plain },
    ];
    calls.map(|sparse| (sparse, 0x0000)).to_vec()
}

/// The call with this stop address.
fn stopping(call: &Call, address: u16) -> Call {
    let mut call = call.clone();
    call.inputs.stop_address = Some(address);
    call
}

/// Each call without a log, and with one that has room for all its steps or for some; every fifth
/// one with page 0 read-only; and every fourth one without its stop address too.
fn varied(calls: impl Iterator<Item = Call> + 'static) -> Calls {
    Box::new(calls.enumerate().flat_map(|(index, mut call)| {
        let used = index % 5;
        if used == 4 {
            call.read_only = ReadOnly::new(0, u32::MAX);
        }
        let log = garbage(used + if index % 3 == 0 { 10 } else { 60 }, used);
        let plain = Call { inputs: call.inputs.without_stop(), ..call.clone() };
        let plain = (index % 4 == 0).then_some(plain);
        let logged = Call { bus_log: Some(log), ..call.clone() };
        [call, logged].into_iter().chain(plain)
    }))
}

/// Every opcode in the bytes that are executed: the listed ones, and the unlisted ones.
fn codes() -> impl Iterator<Item = Vec<u8>> {
    let heads = (0..2).flat_map(|page| (0..=255_u8).map(move |byte| (page, byte)));
    let unlisted = heads.filter_map(|(page, byte)| {
        let code = if page == 1 { vec![0xFD, byte] } else { vec![byte] };
        let is_unlisted = length([code[0], byte]) == 0 && (page == 1 || byte != 0xFD);
        is_unlisted.then_some(code)
    });
    logs::listed().chain(unlisted)
}

/// An opcode at a place: of T only IE set; or everything but IE, and timer reached.
fn at_place(code: &[u8], place: Place) -> [Call; 2] {
    [0x02, 0x1D].map(|t| {
        let mut call = instruction(code, place, t);
        call.record.is_timer_reached = t == 0x1D;
        Call { limit: 2, ..call }
    })
}

/// P after one step of the original.
fn after(call: &Call) -> u16 {
    Original.call(&Call { limit: 1, ..call.clone() }).record.p
}

/// Each opcode with the stop address at it, at each byte behind it, where it goes, one below it, and
/// with the same low or high byte; and with two NOPs before it.
fn opcodes() -> impl Iterator<Item = Call> {
    codes().flat_map(|code| at_place(&code, PLACES[0])).flat_map(|call| {
        let (p, next) = (call.record.p, after(&call));
        let low = p % 256;
        let near = [0, 1, 2, 3, 4, 0xFFFF].map(|more| p.wrapping_add(more));
        let all = [&near[..], &[next, next ^ 0x0100, low + 0x0100, low + 0x8000]].concat();
        let mut behind = Call { limit: 4, ..call.clone() };
        behind.record.p -= 2;
        behind.pages[0][usize::from(p) - 2..usize::from(p)].fill(0x38);
        let later = [p, p + 1, next].map(|address| stopping(&behind, address));
        all.into_iter().map(move |address| stopping(&call, address)).chain(later)
    })
}

/// Each opcode at FFFD of whole pages, so that its later bytes and what comes after them are at 0000
/// and above.
fn at_the_ends() -> impl Iterator<Item = Call> {
    codes().flat_map(|code| {
        let [_, call] = at_place(&code, PLACES[6]);
        let addresses = [0xFFFD, 0xFFFE, 0xFFFF, 0x0000, 0x0001, after(&call)];
        addresses.map(|address| stopping(&call, address))
    })
}

/// Bit i of the state is the i-th of these flags: halted, BF, IR0, IR1, IR2, timer reached.
const DECIDING: [u16; 6] = [0x001, 0x008, 0x020, 0x040, 0x080, 0x100];

/// Every state of the flags that decide what a step is, with IE clear and set, and four idle figures.
/// With the last two the timer's next shift ends in 1FF, at once or later. The vectors lie past the
/// page's end: an entry comes to FFFF.
fn states() -> impl Iterator<Item = Call> {
    let states = (0..64_u16).flat_map(|state| [0x00, 0x02].map(|t| (state, t)));
    let figures = states.flat_map(|(state, t)| [0, 1, 21, 255].map(|idle| (state, t, idle)));
    figures.flat_map(|(state, t, idle)| {
        let flags = (0..6).filter(|i| state >> i & 1 == 1).map(|i| DECIDING[i]).sum();
        let record = Record { t, s: 0x0030, p: 0x0010, tm: 0x1FE, ..flagged(flags) };
        let mut call =
            Call { record, limit: 5, pages: [vec![0x38; 64], vec![]], ..Call::default() };
        call.inputs.idle = idle;
        [0x0010, 0xFFFF, 0x0011, 0x0110].map(|address| stopping(&call, address))
    })
}

/// Each kind of entry, the stack around both vectors. The stop address is P before it, where the entry
/// comes to and one above, the vector's own, and P's other byte.
fn entries() -> impl Iterator<Item = Call> {
    let stacks = (0xFFF7..=0xFFFD_u16).chain([0x0000, 0x0201]);
    let flags = [0x048, 0x088, 0x0C8, 0x108, 0x149, 0x089];
    let records = stacks.flat_map(move |s| flags.map(|flags| (s, flags)));
    records.flat_map(|(s, flags)| {
        let record = Record { t: 0x1E, s, p: 0xABCD, ..flagged(flags) };
        let pages = filled([65_536, 0], 0x5A);
        let call = Call { record, limit: 3, pages, ..Call::default() };
        let target = after(&call);
        let addresses = [0xABCD, target, target.wrapping_add(1), 0xFFFA, 0xFFF8, 0x00CD];
        addresses.map(|address| stopping(&call, address))
    })
}

/// P itself, P with each bit turned, 0 and FFFF, where P is at an edge, on a page of NOPs and past the
/// end of an empty page.
fn turned() -> impl Iterator<Item = Call> {
    let edges = [0, 1, 0x00FF, 0x0100, 0x1234, 0x7FFF, 0x8000, 0xFF00, 0xFFFE, 0xFFFF_u16];
    edges.into_iter().flat_map(|p| {
        let bits = (0..16).map(|bit| p ^ 1 << bit);
        let addresses = [p, 0, 0xFFFF].into_iter().chain(bits).collect::<Vec<_>>();
        [65_536, 0].into_iter().flat_map(move |length| {
            let record = Record { p, ..on() };
            let pages = [vec![0x38; length], vec![]];
            let call = Call { record, limit: 3, pages, ..Call::default() };
            addresses.clone().into_iter().map(move |address| stopping(&call, address))
        })
    })
}

/// Each routine with the stop address at each of its bytes and a few behind them, with limits from 1
/// on, and waiting where it halts.
fn routines() -> impl Iterator<Item = Call> {
    courses().into_iter().flat_map(|course| {
        let call = course.call().expect("its bytes lie inside its pages");
        let addresses = (0..12).chain([0x0040, 0x0048, 0xFFFF]);
        let ended = addresses.flat_map(|address| (1..=7).map(move |limit| (address, limit)));
        ended.flat_map(move |(address, limit)| {
            let mut call = Call { limit, ..stopping(&call, address) };
            [0, 21].map(|idle| {
                call.inputs.idle = idle;
                call.clone()
            })
        })
    })
}

/// The vectors of the courses: 0048 for the line, 0040 for the timer and for VMJ C0.
const VECTORS: [(u32, u8); 3] = [(0xFFF8, 0x48), (0xFFFA, 0x40), (0xFFC0, 0x40)];

/// A routine at 0, with RTI at 0040 and NOP at 0048.
fn course(record: Record, bytes: &[u8]) -> Sparse {
    let record = Record { s: 0x0080, ..record };
    let vectors = VECTORS.map(|(at, low)| (at, vec![0x00, low]));
    let routine = vec![(0, bytes.to_vec()), (0x0040, vec![0x8A]), (0x0048, vec![0x38])];
    let set = routine.into_iter().chain(vectors).collect();
    Sparse { lengths: [65_536, 16], fill: (0x38, 0x00), set, ..code(record, 7, &[]) }
}

/// Routines that come to their own operands, go round, call and return, take a vector, halt, switch
/// off, accept interrupts and wake, run into 5 and 6.
fn courses() -> Vec<Sparse> {
    let enabled = |flags| Record { t: 0x02, ..flagged(ON + flags) };
    let woken = Record { tm: 0x1FE, timer_state: 7, ..enabled(0) };
    let counted = Record { u: 0x0002, ..flagged(ON) };
    vec![
        course(flagged(ON), &[0xB5, 0x38, 0x9E, 0x03]),
        course(flagged(ON), &[0xFD, 0xC8, 0xFD, 0x8A, 0x9E, 0x03]),
        course(counted, &[0x38, 0x88, 0x03, 0x38]),
        course(flagged(ON), &[0xBE, 0x00, 0x05, 0x38, 0x31, 0x38, 0x9A]),
        course(flagged(ON), &[0x38, 0xCD, 0xC0, 0x38]),
        course(flagged(ON), &[0xBA, 0x00, 0x04, 0x31, 0xFD, 0x00]),
        course(enabled(0x040), &[0x38, 0x38]),
        course(enabled(0x080), &[0xFD, 0x81, 0x38]),
        course(flagged(ON + 0x100), &[0x38, 0xFD, 0x81, 0x38]),
        course(woken, &[0xFD, 0xB1, 0x38, 0xFD, 0xB1]),
        course(flagged(ON), &[0x38, 0xFD, 0xB1, 0x38]),
        course(flagged(ON), &[0x38, 0xFD, 0x4C, 0x38]),
    ]
}

/// NOPs up to an opcode that stops, halts or goes on, with 0 to 16 entries free, or a used count
/// beyond the list, and the stop address at each of them.
fn full_logs() -> impl Iterator<Item = Call> {
    let last: [&[u8]; 4] = [&[0x31], &[0xFD, 0x00], &[0xFD, 0xB1], &[0x38]];
    last.into_iter().flat_map(|last| {
        let lists = (0..=16).map(|free| (free + 2, 2)).chain([(0, 0), (3, 4), (20, usize::MAX)]);
        lists.flat_map(move |(length, used)| {
            (0..5).flat_map(move |address| {
                [on(), Record { is_timer_reached: true, ..on() }].map(|record| {
                    let (pages, limit) = ([[&[0x38; 3], last].concat(), vec![]], 5);
                    let bus_log = Some(garbage(length, used));
                    let call = Call { record, limit, pages, bus_log, ..Call::default() };
                    stopping(&call, address)
                })
            })
        })
    })
}

/// 1 to 4 come first, whatever the stop address is.
fn refusals() -> impl Iterator<Item = Call> {
    [0x0000, 0x0001, 0xFFFF].into_iter().flat_map(|address| {
        let pages = [vec![0x38; 8], vec![]];
        let call = Call { record: on(), limit: 1, pages, ..Call::default() };
        let mut calls = [0; 5].map(|_| stopping(&call, address));
        calls[0].pages[0].resize(65_537, 0x38);
        calls[1].pages[1].resize(65_537, 0x38);
        calls[2].record.tm = 512;
        calls[3].limit = 0;
        calls[4].limit = 1_000_001;
        calls
    })
}

#[cfg(test)]
mod tests {
    use super::{groups, short, Calls};
    use crate::call::{Answer, BusLog, Call, Inputs, Record, Side};
    use crate::compare::Comparison;
    use crate::logs::on;
    use crate::model::Model;
    use crate::original::Original;
    #[cfg(feature = "port")]
    use crate::port::Port;
    use crate::stop_counts::Stops;

    fn sides() -> Vec<Box<dyn Side>> {
        vec![
            Box::new(Original),
            Box::<Model>::default(),
            #[cfg(feature = "port")]
            Box::new(Port),
        ]
    }

    fn all() -> Calls {
        Box::new(groups().into_iter().flat_map(|(_, calls)| calls))
    }

    /// Each with its stop address and without it.
    #[test]
    fn directed_calls_are_answered_alike() {
        for side in sides().into_iter().skip(1) {
            let mut comparison = Comparison::new(side);
            for call in all() {
                assert_eq!(comparison.both(&call).2, None, "{call:?}");
            }
        }
    }

    #[test]
    fn directed_calls_do_all_that_they_can() {
        let mut stops = Stops::default();
        all().for_each(|call| stops.add(&call, &Original.call(&call)));
        assert!(stops.have_all(), "{stops}");
    }

    #[test]
    fn the_calls_of_the_replay_list_are_short() {
        assert!(short().iter().all(|(sparse, _)| sparse.limit <= 7 && sparse.call().is_ok()));
    }

    /// A call of this code at 0, with S at 0040.
    fn call(record: Record, code: &[u8], limit: u32, stop_address: Option<u16>) -> Call {
        let inputs = Inputs { stop_address, ..Inputs::default() };
        let record = Record { s: 0x0040, ..record };
        Call { record, inputs, limit, pages: [code.to_vec(), vec![]], ..Call::default() }
    }

    /// Holds every side's answer: number, completed steps, their states, and the record's change. A
    /// stopping step makes no access.
    fn hold(call: &Call, number: u8, steps: u64, states: u64, change: fn(&mut Record)) {
        let mut wanted = call.record;
        (wanted.timer_state, wanted.ticks) = (wanted.timer_state + states, wanted.ticks + states);
        change(&mut wanted);
        for mut side in sides() {
            let answer = side.call(call);
            assert_eq!((answer.number, answer.steps, answer.states), (number, steps, states));
            let Answer { record, log, failure, byte, .. } = answer;
            assert_eq!((byte, failure, record), (0, None, wanted), "{}", side.name());
            assert!(number != 12 || log.is_none_or(|log| log.accesses.len() == log.completed));
        }
    }

    /// At the call's first step, before listed bytes and unlisted ones, of the code and past its end.
    #[test]
    fn nothing_is_read_at_the_first_step() {
        for code in [&[0x38][..], &[0x31], &[0xFD, 0x00], &[0xFD], &[0xFD, 0x4C], &[]] {
            hold(&call(on(), code, 5, Some(0)), 12, 0, 0, |_| {});
            for p in [1, 0x00FF, 0xFFFF] {
                let there = Record { p, ..on() };
                hold(&call(there, code, 5, Some(p)), 12, 0, 0, |_| {});
            }
        }
    }

    /// 0000 and FFFF are addresses as others are; P comes to 0000 from FFFF.
    #[test]
    fn both_ends_of_page_0() {
        let mut call = call(Record { p: 0xFFFF, ..on() }, &[0x38; 65_536], 3, Some(0));
        hold(&call, 12, 1, 5, |record| record.p = 0);
        call.record.p = 0xFFFE;
        call.inputs.stop_address = Some(0xFFFF);
        hold(&call, 12, 1, 5, |record| record.p = 0xFFFF);
        call.inputs.stop_address = Some(0);
        hold(&call, 12, 2, 10, |record| record.p = 0);
    }

    /// LDI A and a jump back into it: the operand's address stops the run where P comes to it only.
    #[test]
    fn an_operand_stops_the_run_where_p_comes_to_it() {
        let code = [0xB5, 0x38, 0x9E, 0x03];
        hold(&call(on(), &code, 1, Some(1)), 0, 1, 6, |record| (record.a, record.p) = (0x38, 2));
        hold(&call(on(), &code, 9, Some(1)), 12, 2, 15, |record| (record.a, record.p) = (0x38, 1));
        let after_fd = [0xFD, 0xCC, 0x38];
        hold(&call(on(), &after_fd, 1, Some(1)), 0, 1, 9, |record| record.p = 2);
        hold(&call(on(), &after_fd, 9, Some(2)), 12, 1, 9, |record| record.p = 2);
    }

    /// Timer reached has not moved after a stop; where IE is set it is an entry, which is completed,
    /// and the stop comes before the instruction that it comes to. Past the end the vector is FFFF.
    #[test]
    fn an_accepted_interrupt_is_entered_first() {
        let reached = Record { is_timer_reached: true, ..on() };
        hold(&call(reached, &[0x38], 5, Some(0)), 12, 0, 0, |_| {});
        let enabled = Record { t: 0x02, ..reached };
        let entered = |record: &mut Record| {
            (record.is_timer_reached, record.is_halted, record.t) = (false, false, 0x00);
            (record.s, record.p) = (0x003D, 0xFFFF);
        };
        for is_halted in [false, true] {
            let given = Record { is_halted, ..enabled };
            hold(&call(given, &[0x38], 1, Some(0)), 0, 1, 0, entered);
            hold(&call(given, &[0x38], 5, Some(0xFFFF)), 12, 1, 0, entered);
        }
    }

    /// A halted unit gives 7, or waits; with BF clear steps go on; IR0's entry is made, IE clear.
    #[test]
    fn only_an_instruction_is_stopped() {
        let halted = Record { is_halted: true, ..on() };
        let mut waiting = call(halted, &[0x38], 3, Some(0));
        hold(&waiting, 7, 0, 0, |_| {});
        waiting.inputs.idle = 5;
        hold(&waiting, 0, 3, 15, |_| {});
        hold(&call(Record::default(), &[0x38], 3, Some(0)), 0, 3, 24, |_| {});
        let ir0 = call(Record { ir0: true, ..on() }, &[0x38], 1, Some(0));
        hold(&ir0, 0, 1, 0, |record| (record.ir0, record.s, record.p) = (false, 0x003D, 0xFFFF));
    }

    /// With six entries free it is 11, with seven 12; 1 to 4 come before both.
    #[test]
    fn other_numbers_come_first() {
        for (free, number) in [(0, 11), (6, 11), (7, 12), (20, 12)] {
            let mut logged = call(on(), &[0x31], 5, Some(0));
            logged.bus_log = Some(BusLog { entries: vec![7; free + 2], used: 2 });
            hold(&logged, number, 0, 0, |_| {});
            for mut side in sides() {
                assert_eq!(side.call(&logged).bus_log, logged.bus_log);
            }
        }
        hold(&call(Record { tm: 512, ..on() }, &[0x38], 5, Some(0)), 3, 0, 0, |_| {});
        hold(&call(on(), &[0x38], 0, Some(0)), 4, 0, 0, |_| {});
    }

    /// Two NOPs before the stop address: with the limit 2 the call ends with 0, the next one at once
    /// with 12, and so does each one after it; without the address the run goes on.
    #[test]
    fn a_cut_run_does_not_pass_the_stop() {
        let code = [0x38; 6];
        hold(&call(on(), &code, 9, Some(2)), 12, 2, 10, |record| record.p = 2);
        hold(&call(on(), &code, 2, Some(2)), 0, 2, 10, |record| record.p = 2);
        for mut side in sides() {
            let mut next = call(on(), &code, 2, Some(2));
            for (number, steps) in [(0, 2), (12, 0), (12, 0)] {
                let answer = side.call(&next);
                assert_eq!((answer.number, answer.steps), (number, steps));
                next.record = answer.record;
            }
            next.inputs.stop_address = None;
            assert_eq!((side.call(&next).number, side.call(&next).record.p), (0, 4));
        }
    }
}
