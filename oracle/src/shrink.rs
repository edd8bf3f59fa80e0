//! Makes a failing call smaller: fewer steps first, then the log, the read-only part, the stop address
//! and memory, then registers and flags.

#![forbid(unsafe_code)]

use std::fmt::Write;

use crate::call::{BusLog, Call, Inputs, ReadOnly, Record, Side};
use crate::original::Original;

type Fails<'a> = &'a mut dyn FnMut(&Call) -> bool;

/// The smallest call found for which `fails` still holds.
pub fn shrink(call: Call, fails: Fails) -> Call {
    let mut best = call;
    loop {
        let before = best.clone();
        shrink_steps(&mut best, fails);
        shrink_log(&mut best, fails);
        shrink_read_only(&mut best, fails);
        shrink_stop(&mut best, fails);
        move_part(&mut best, fails);
        move_down(&mut best, fails);
        shrink_pages(&mut best, fails);
        shrink_record(&mut best, fails);
        shrink_inputs(&mut best, fails);
        if best == before {
            return best;
        }
    }
}

/// Keeps the candidate where it still fails.
fn keep(best: &mut Call, candidate: Call, fails: Fails) -> bool {
    let better = candidate != *best && fails(&candidate);
    if better {
        *best = candidate;
    }
    better
}

/// A smaller limit, or the same steps begun later: from the record, pages and log that the original
/// has after some steps.
fn shrink_steps(best: &mut Call, fails: Fails) {
    while best.limit > 1 {
        let limit = best.limit;
        let fewer = [1, limit / 2, limit - limit / 4, limit - 1];
        let shorter = fewer.into_iter().filter(|fewer| (1..limit).contains(fewer));
        let shorter = shorter.map(|limit| Call { limit, ..best.clone() }).collect::<Vec<_>>();
        if shorter.into_iter().any(|candidate| keep(best, candidate, fails)) {
            continue;
        }
        let later = [limit - 1, limit / 2, 1];
        if !later.into_iter().any(|steps| begin_later(best, steps, fails)) {
            return;
        }
    }
}

fn begin_later(best: &mut Call, steps: u32, fails: Fails) -> bool {
    if steps == 0 || steps >= best.limit {
        return false;
    }
    let head = Original.call(&Call { limit: steps, ..best.clone() });
    let candidate = Call {
        record: head.record,
        pages: head.pages,
        limit: best.limit - steps,
        inputs: best.inputs,
        bus_log: head.bus_log,
        read_only: best.read_only,
    };
    head.number == 0 && keep(best, candidate, fails)
}

/// No log at all, or else a smaller one.
fn shrink_log(best: &mut Call, fails: Fails) {
    let without = Call { bus_log: None, ..best.clone() };
    keep(best, without, fails);
    while let Some(log) = &best.bus_log {
        let smaller = smaller_logs(log).into_iter();
        let candidates = smaller.map(|log| Call { bus_log: Some(log), ..best.clone() });
        let candidates = candidates.collect::<Vec<_>>();
        if !candidates.into_iter().any(|candidate| keep(best, candidate, fails)) {
            return;
        }
    }
}

/// Logs with a shorter list, a smaller used count or zeros in the list, and otherwise like this
/// one.
fn smaller_logs(log: &BusLog) -> Vec<BusLog> {
    let (length, used) = (log.entries.len(), log.used);
    let mut logs = vec![];
    for taken in [used, used / 2, 1].into_iter().filter(|taken| (1..=length).contains(taken)) {
        if used <= length {
            logs.push(BusLog { entries: log.entries[taken..].to_vec(), used: used - taken });
        }
    }
    let first = used.min(length);
    let lengths = [0, first, first.saturating_add(7), length / 2, length.saturating_sub(1)];
    for shorter in lengths.into_iter().filter(|shorter| *shorter < length) {
        logs.push(BusLog { entries: log.entries[..shorter].to_vec(), used });
    }
    for less in [0, length + 1, used / 2].into_iter().filter(|less| *less < used) {
        logs.push(BusLog { entries: log.entries.clone(), used: less });
    }
    if log.entries.iter().any(|entry| *entry != 0) {
        logs.push(BusLog { entries: vec![0; length], used });
    }
    logs
}

/// How large a read-only part is: its bytes of page 0, then its end, then its first.
fn size(part: ReadOnly) -> (usize, u32, u32) {
    (part.offsets(65_536).len(), part.end, part.first)
}

/// No read-only part at all, or else one of fewer bytes and with smaller numbers.
fn shrink_read_only(best: &mut Call, fails: Fails) {
    loop {
        let part = best.read_only;
        let smaller = parts_like(part).into_iter().filter(|other| size(*other) < size(part));
        let candidates = smaller.map(|read_only| Call { read_only, ..best.clone() });
        let candidates = candidates.collect::<Vec<_>>();
        if !candidates.into_iter().any(|candidate| keep(best, candidate, fails)) {
            return;
        }
    }
}

/// Read-only parts with other ends, the smallest ones first.
fn parts_like(part: ReadOnly) -> Vec<ReadOnly> {
    let ReadOnly { first, end } = part;
    let size = end.saturating_sub(first);
    let less = |number: u32| [2, 4, 64].map(|part| number - number / part);
    let one_less = |number: u32| [number.saturating_sub(1)];
    let ends = [0, first, first.saturating_add(1), first.saturating_add(size / 2), 65_536, 65_537];
    let ends = ends.into_iter().chain(less(end)).chain(one_less(end));
    let firsts = [0, 1, end.saturating_sub(size / 2), first.saturating_add(1)];
    let firsts = one_less(end).into_iter().chain(firsts).chain(less(first)).chain(one_less(first));
    let with_end = ends.map(|end| ReadOnly { first, end });
    let with_first = firsts.map(|first| ReadOnly { first, end });
    [ReadOnly::default()].into_iter().chain(with_end).chain(with_first).collect()
}

/// No stop address at all, or else a smaller one.
fn shrink_stop(best: &mut Call, fails: Fails) {
    while let Some(address) = best.inputs.stop_address {
        let high = address / 512 * 256;
        let less = [0, 1, address % 256, high, address / 2, address - address / 4];
        let addresses = less.into_iter().chain([address.saturating_sub(1)]).map(Some);
        let smaller = [None].into_iter().chain(addresses).filter(|other| *other < Some(address));
        let candidates = smaller.map(|stop_address| with_stop(best, stop_address));
        let candidates = candidates.collect::<Vec<_>>();
        if !candidates.into_iter().any(|candidate| keep(best, candidate, fails)) {
            return;
        }
    }
}

/// The call with this stop address, or without one.
fn with_stop(call: &Call, stop_address: Option<u16>) -> Call {
    let inputs = Inputs { stop_address, ..call.inputs };
    Call { inputs, ..call.clone() }
}

/// Moves X, Y, U or S down to the pages' beginning, and the read-only part by as much.
fn move_part(best: &mut Call, fails: Fails) {
    let registers: [Register; 4] = [|r| &mut r.x, |r| &mut r.y, |r| &mut r.u, |r| &mut r.s];
    for (register, target) in registers.into_iter().flat_map(|r| [3, 8].map(|to| (r, to))) {
        let mut candidate = best.clone();
        let place = register(&mut candidate.record);
        let down = u32::from(place.saturating_sub(target));
        *place = target.min(*place);
        let ReadOnly { first, end } = best.read_only;
        if down > 0 && down <= first {
            candidate.read_only = ReadOnly { first: first - down, end: end.saturating_sub(down) };
            keep(best, candidate, fails);
        }
    }
}

fn shrink_pages(best: &mut Call, fails: Fails) {
    for page in 0..2 {
        shorten(best, page, fails);
        clear_bytes(best, page, fails);
    }
}

fn shorten(best: &mut Call, page: usize, fails: Fails) {
    loop {
        let length = best.pages[page].len();
        let lengths = [0, length / 2, length - length / 4, length.saturating_sub(1)];
        let shorter = lengths.into_iter().filter(|shorter| *shorter < length);
        let candidates = shorter.map(|shorter| {
            let mut candidate = best.clone();
            candidate.pages[page].truncate(shorter);
            candidate
        });
        let candidates = candidates.collect::<Vec<_>>();
        if !candidates.into_iter().any(|candidate| keep(best, candidate, fails)) {
            return;
        }
    }
}

/// Sets runs of bytes to zero, long runs first.
fn clear_bytes(best: &mut Call, page: usize, fails: Fails) {
    let length = best.pages[page].len();
    let mut run = length.next_power_of_two();
    while run > 0 && length > 0 {
        for begin in (0..length).step_by(run) {
            let end = (begin + run).min(length);
            if best.pages[page][begin..end].iter().any(|byte| *byte != 0) {
                let mut candidate = best.clone();
                candidate.pages[page][begin..end].fill(0);
                keep(best, candidate, fails);
            }
        }
        run /= 2;
    }
}

/// Registers, flags and counters to zero, one after another.
fn shrink_record(best: &mut Call, fails: Fails) {
    let fields: [fn(&mut Record); 10] = [
        |r| r.a = 0,
        |r| r.x = 0,
        |r| r.y = 0,
        |r| r.u = 0,
        |r| r.s = 0,
        |r| r.p = 0,
        |r| r.tm = 0,
        |r| r.ticks = 0,
        |r| r.timer_state = 0,
        |r| r.step_previous_state = 0,
    ];
    for field in fields {
        let mut candidate = best.clone();
        field(&mut candidate.record);
        keep(best, candidate, fails);
    }
    for bit in 0..8 {
        let mut candidate = best.clone();
        candidate.record.t &= !(1 << bit);
        keep(best, candidate, fails);
    }
    for bit in 0..9 {
        let mut candidate = best.clone();
        candidate.record.set_flags(best.record.flags() & !(1 << bit));
        keep(best, candidate, fails);
    }
    shrink_timer(best, fails);
}

/// The keyboard byte to zero, the idle figure to zero, to one or to a smaller one.
fn shrink_inputs(best: &mut Call, fails: Fails) {
    let mut candidate = best.clone();
    candidate.inputs.keyboard = 0;
    keep(best, candidate, fails);
    loop {
        let idle = best.inputs.idle;
        let smaller = [0, 1, idle / 2, idle - idle / 4, idle.saturating_sub(1)];
        let smaller = smaller.into_iter().filter(|smaller| *smaller < idle);
        let candidates = smaller.map(|idle| {
            let mut candidate = best.clone();
            candidate.inputs.idle = idle;
            candidate
        });
        let candidates = candidates.collect::<Vec<_>>();
        if !candidates.into_iter().any(|candidate| keep(best, candidate, fails)) {
            return;
        }
    }
}

/// Both counters together: to zero, to their difference and zero, or to the least difference that
/// shifts.
fn shrink_timer(best: &mut Call, fails: Fails) {
    let (current, previous) = (best.record.timer_state, best.record.step_previous_state);
    if current <= 42 && previous == 0 {
        return;
    }
    for timer_state in [0, current.wrapping_sub(previous).min(current), 42] {
        let mut candidate = best.clone();
        candidate.record.timer_state = timer_state;
        candidate.record.step_previous_state = 0;
        if keep(best, candidate, fails) {
            return;
        }
    }
}

/// A register of the record.
type Register = fn(&mut Record) -> &mut u16;

/// Moves the program, and the bytes that X, Y and U point to, down to the pages' beginning; with the
/// stop address moved by as much, where that still fails.
fn move_down(best: &mut Call, fails: Fails) {
    let registers: [(Register, usize, usize); 6] = [
        (|r| &mut r.p, 0, 8),
        (|r| &mut r.p, 1, 8),
        (|r| &mut r.p, 16, 8),
        (|r| &mut r.x, 8, 1),
        (|r| &mut r.y, 9, 1),
        (|r| &mut r.u, 10, 1),
    ];
    for (register, target, count) in registers {
        let mut candidate = best.clone();
        let from = usize::from(*register(&mut candidate.record));
        if from <= target {
            continue;
        }
        *register(&mut candidate.record) = target as u16;
        for page in &mut candidate.pages {
            for i in 0..count {
                let byte = page.get((from + i) % 65_536).copied().unwrap_or(0xFF);
                if let Some(place) = page.get_mut(target + i) {
                    *place = byte;
                }
            }
        }
        let down = (from - target) as u16;
        let address = best.inputs.stop_address.map(|address| address.wrapping_sub(down));
        let _ = keep(best, with_stop(&candidate, address), fails) || keep(best, candidate, fails);
    }
}

/// A call in words: record, keyboard, idle figure, limit, the read-only part's two numbers, the stop
/// address, the bytes of the pages that are not zero, and the log with its first entries that are not
/// zero.
pub fn describe(call: &Call) -> String {
    let mut text = format!("record: {}\n", call.record);
    let Inputs { keyboard, idle, stop_address } = call.inputs;
    let _ = writeln!(text, "keyboard {keyboard:02X}, idle figure {idle}, limit {}", call.limit);
    let stop = stop_address.map_or("none".to_string(), |address| format!("{address:04X}"));
    let _ = writeln!(text, "read-only: {}, stop address: {stop}", call.read_only);
    for (page, bytes) in call.pages.iter().enumerate() {
        let _ = write!(text, "page {page}: length {}", bytes.len());
        let set = bytes.iter().enumerate().filter(|(_, byte)| **byte != 0);
        for (offset, byte) in set {
            let _ = write!(text, " {offset:04X}={byte:02X}");
        }
        text.push('\n');
    }
    text + &describe_log(call.bus_log.as_ref())
}

fn describe_log(log: Option<&BusLog>) -> String {
    let Some(BusLog { entries, used }) = log else { return "no log\n".to_string() };
    let mut text = format!("log: length {}, used {used}", entries.len());
    let set = entries.iter().enumerate().filter(|(_, entry)| **entry != 0);
    for (place, entry) in set.take(40) {
        let _ = write!(text, " {place}={entry:08X}");
    }
    text + "\n"
}

#[cfg(test)]
mod tests {
    use super::shrink;
    use crate::call::{Answer, Call, Record, Side};
    use crate::compare::Comparison;
    use crate::model::{Model, Slip};
    use crate::random::{self, Random};

    /// The model with wrong waiting steps: each ends with what this makes of the records before and
    /// after it. It tells no accesses.
    struct WrongWaits(fn(Record, Record) -> Record);

    impl Side for WrongWaits {
        fn name(&self) -> &'static str {
            "model with wrong waits"
        }

        fn call(&mut self, call: &Call) -> Answer {
            let right = Model::default().call(call);
            let mut sum = Answer { steps: 0, log: None, ..right };
            if let 1..=4 = sum.number {
                return sum;
            }
            let mut next = Call { limit: 1, ..call.clone() };
            while sum.steps < call.limit.into() {
                let one = Model::default().call(&next);
                let waits = next.inputs.idle != 0 && next.record.begins_halted_step();
                sum.record = if waits { (self.0)(next.record, one.record) } else { one.record };
                (sum.number, sum.byte, sum.pages) = (one.number, one.byte, one.pages);
                (next.record, next.pages) = (sum.record, sum.pages.clone());
                if sum.number != 0 {
                    break;
                }
                sum.steps += 1;
            }
            sum.states = sum.record.ticks.wrapping_sub(call.record.ticks);
            sum
        }
    }

    /// The smallest input for a wrong side: from the first random call that shows it.
    fn smallest(side: impl Side + 'static) -> Call {
        let mut comparison = Comparison::new(Box::new(side));
        let mut calls = (0..).map(|index| random::idle_call(&mut Random::new(7, index)));
        let failing = calls.find(|call| comparison.differs(call)).unwrap();
        shrink(failing, &mut |call| comparison.differs(call))
    }

    fn bytes_set(call: &Call) -> usize {
        call.pages.iter().flatten().filter(|byte| **byte != 0).count()
    }

    #[test]
    fn a_wrong_zero_flag_of_dca_becomes_one_step() {
        let call = smallest(Model { slip: Some(Slip::ZeroFromCorrectedByte) });
        assert_eq!(call.limit, 1);
        assert!(bytes_set(&call) <= 6, "{}", super::describe(&call));
        assert!(call.pages[0].len() <= 32, "{}", super::describe(&call));
        assert_eq!(call.record.flags(), 8);
    }

    #[test]
    fn a_wrong_test_of_lop_becomes_one_step() {
        let call = smallest(Model { slip: Some(Slip::LoopTestsAfterDecrement) });
        assert_eq!(call.limit, 1);
        assert!(bytes_set(&call) <= 2, "{}", super::describe(&call));
        assert_eq!(call.record.flags(), 8);
        assert!(call.record.u & 0xFF <= 1);
    }

    /// Halted and BF, empty pages, and so many states.
    fn assert_small_wait(call: &Call, most_idle: u8) {
        assert_eq!((call.limit, call.record.flags(), call.record.t), (1, 9, 0));
        assert_eq!(call.pages, [vec![], vec![]]);
        assert!((1..=most_idle).contains(&call.inputs.idle), "{}", super::describe(call));
    }

    #[test]
    fn a_wait_of_two_states_becomes_one_step_with_the_figure_1() {
        let call = smallest(WrongWaits(|before, after| {
            let (timer_state, ticks) = (before.timer_state, before.ticks);
            let (timer_state, ticks) = (timer_state.wrapping_add(2), ticks.wrapping_add(2));
            Record { timer_state, ticks, ..after }
        }));
        assert_small_wait(&call, 1);
    }

    #[test]
    fn a_wait_without_a_timer_part_becomes_one_step() {
        let call = smallest(WrongWaits(|before, after| {
            let Record { tm, step_previous_state, .. } = before;
            Record { tm, step_previous_state, is_timer_reached: false, ..after }
        }));
        assert_small_wait(&call, 42);
    }

    #[test]
    fn a_wait_that_leaves_reached_becomes_one_step() {
        let call = smallest(WrongWaits(|before, after| {
            let is_timer_reached = before.is_timer_reached || after.is_timer_reached;
            Record { ir1: before.ir1, is_timer_reached, ..after }
        }));
        assert_eq!((call.limit, call.record.flags(), call.inputs.idle), (1, 0x109, 1));
    }
}
