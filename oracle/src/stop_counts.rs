//! What stop addresses have done, counted (document 02, F-5).

#![forbid(unsafe_code)]

use std::fmt;

use crate::call::{Access, Answer, Call, Log};
use crate::memory::code_at;
use crate::opcodes::length;
use crate::tallies::Tallies;

/// What a call may do with its stop address.
#[derive(Clone, Copy, Debug, PartialEq, Eq)]
pub enum Met {
    /// Ended with 12 before the call's first step, or after completed steps.
    First,
    Later,
    /// Ended with 12 right after an interrupt's entry.
    Target,
    /// Ended with 12 where the step would have stopped with 5 or 6; with timer reached set; at FFFF.
    Unlisted,
    Reached,
    Highest,
    /// Ended with 11, or with 0 at the limit, where an instruction was due at the address.
    Full,
    Limit,
    /// A step with P there that is no instruction: BF clear, waiting, the entry of IR0, of another
    /// interrupt.
    Off,
    Waiting,
    EntryOfIr0,
    Entry,
    /// Ended with 7, and P is there.
    Halted,
    /// The address is of a later byte of an instruction that was executed.
    Inside,
    /// No step began or stopped with P there.
    Never,
}

use Met::*;

const ALL: [(Met, &str); 15] = [
    (First, "12 before the first step"),
    (Later, "12 later"),
    (Target, "12 after an entry"),
    (Unlisted, "12 before 5 or 6"),
    (Reached, "12 with timer reached"),
    (Highest, "12 at FFFF"),
    (Full, "11 there"),
    (Limit, "the limit there"),
    (Off, "BF clear there"),
    (Waiting, "waiting there"),
    (EntryOfIr0, "the entry of IR0 from there"),
    (Entry, "another entry from there"),
    (Halted, "7 there"),
    (Inside, "inside an instruction"),
    (Never, "never met"),
];

/// How many calls had a stop address, and how many of them did each of these.
#[derive(Clone, Default)]
pub struct Stops(Tallies<{ ALL.len() }>);

/// What a completed step was, and P at its beginning.
pub struct Begun<'a> {
    pub p: u16,
    pub accesses: &'a [Access],
}

impl Begun<'_> {
    pub fn is_entry(&self) -> bool {
        self.accesses.first().is_some_and(Access::is_write)
    }

    pub fn is_instruction(&self) -> bool {
        self.accesses.first().is_some_and(|first| !first.is_write())
    }

    /// How many bytes the instruction has; 0 where the step is none.
    fn length(&self) -> u16 {
        match self.accesses {
            [first, second, ..] if !first.is_write() => length([first.byte(), second.byte()]),
            [first] => length([first.byte(), 0x00]),
            _ => 0,
        }
    }
}

/// The completed steps of a call. P comes from the accesses: an instruction begins with the read of
/// its opcode, an entry pushes T and then P, the low byte first; a step without an access leaves P.
pub fn begun<'a>(answer: &Answer, log: &'a Log) -> Vec<Begun<'a>> {
    let mut p = answer.record.p;
    let backwards = (0..answer.steps as usize).rev().map(|index| {
        let accesses = log.step(index);
        p = match accesses {
            [] => p,
            [t, low, high, ..] if t.is_write() => u16::from_be_bytes([high.byte(), low.byte()]),
            [opcode, ..] => opcode.address() as u16,
        };
        Begun { p, accesses }
    });
    let mut steps: Vec<_> = backwards.collect();
    steps.reverse();
    steps
}

impl Stops {
    /// A call, with an answer that tells the accesses.
    pub fn add(&mut self, call: &Call, answer: &Answer) {
        let (Some(address), Some(log)) = (call.inputs.stop_address, &answer.log) else { return };
        let mut met = ended(address, answer, &answer.pages);
        let steps = begun(answer, log);
        // Nothing inside the unit ends BF clear, so its steps come after those with an access.
        let busy = steps.iter().rposition(|step| !step.accesses.is_empty());
        for (index, step) in steps.iter().enumerate().filter(|(_, step)| step.p == address) {
            let is_last = busy.is_none_or(|busy| busy < index);
            met.push(match step.accesses {
                [] if !answer.record.bf && is_last => Off,
                [] => Waiting,
                _ if step.is_instruction() => continue,
                _ if index == 0 && call.record.enters_ir0() => EntryOfIr0,
                _ => Entry,
            });
        }
        if answer.number == 12 && steps.last().is_some_and(Begun::is_entry) {
            met.push(Target);
        }
        let is_inside = |step: &Begun| {
            let behind = address.wrapping_sub(step.p);
            behind > 0 && behind < step.length()
        };
        if steps.iter().any(is_inside) {
            met.push(Inside);
        }
        let ended_there = answer.record.p == address && !matches!(answer.number, 1..=4);
        if !ended_there && steps.iter().all(|step| step.p != address) {
            met.push(Never);
        }
        self.count(&met);
    }

    /// A call of which the end alone is known: number, steps, end record, and the pages after it.
    pub fn add_end(&mut self, stop_address: Option<u16>, answer: &Answer, pages: &[Vec<u8>; 2]) {
        if let Some(address) = stop_address {
            self.count(&ended(address, answer, pages));
        }
    }

    /// One more call, which did all of these.
    fn count(&mut self, met: &[Met]) {
        self.0.add(met.iter().map(|met| *met as usize));
    }

    pub fn join(&mut self, other: &Stops) {
        self.0.join(&other.0);
    }

    /// Whether each of these was met.
    pub fn have_all(&self) -> bool {
        self.0.have_all()
    }
}

/// What a call's end does with the stop address.
fn ended(address: u16, answer: &Answer, pages: &[Vec<u8>; 2]) -> Vec<Met> {
    let record = &answer.record;
    let is_due = record.is_instruction_due() && record.p == address;
    match answer.number {
        0 if is_due => vec![Limit],
        7 if record.p == address => vec![Halted],
        11 if is_due => vec![Full],
        12 => {
            let when = if answer.steps == 0 { First } else { Later };
            // The step would have stopped with 5 or 6.
            let is_unlisted = length(code_at(pages, record.p)) == 0;
            let unlisted = is_unlisted.then_some(Unlisted);
            let reached = record.is_timer_reached.then_some(Reached);
            let highest = (record.p == 0xFFFF).then_some(Highest);
            [Some(when), unlisted, reached, highest].into_iter().flatten().collect()
        }
        _ => vec![],
    }
}

impl fmt::Display for Stops {
    fn fmt(&self, f: &mut fmt::Formatter<'_>) -> fmt::Result {
        let words = self.0.words(ALL.map(|(_, name)| name), 8);
        write!(f, "{} calls with a stop address: {words}", self.0.calls)
    }
}

#[cfg(test)]
mod tests {
    use super::{begun, Met, Stops, ALL};
    use crate::call::{BusLog, Call, Inputs, Record, Side};
    use crate::original::Original;

    /// What the original's answer to a call counts: this code at 0, and the stop address.
    fn met(record: Record, code: &[u8], limit: u32, address: u16) -> Vec<Met> {
        let inputs = Inputs { idle: 5, stop_address: Some(address), ..Inputs::default() };
        let pages = [code.to_vec(), vec![]];
        counted(&Call { record, inputs, limit, pages, ..Call::default() })
    }

    fn counted(call: &Call) -> Vec<Met> {
        let mut stops = Stops::default();
        stops.add(call, &Original.call(call));
        assert_eq!(stops.0.calls, 1);
        stops.0.kinds().into_iter().map(|kind| ALL[kind].0).collect()
    }

    fn on() -> Record {
        Record { bf: true, ..Record::default() }
    }

    #[test]
    fn ends_are_counted() {
        let reached = Record { is_timer_reached: true, ..on() };
        assert_eq!(met(on(), &[0x38], 3, 0), [Met::First]);
        assert_eq!(met(on(), &[0x31], 3, 0), [Met::First, Met::Unlisted]);
        assert_eq!(met(reached, &[0x38], 3, 0), [Met::First, Met::Reached]);
        let last = Record { p: 0xFFFF, ..on() };
        assert_eq!(met(last, &[0x38; 0x1_0000], 3, 0xFFFF), [Met::First, Met::Highest]);
        assert_eq!(met(on(), &[0x38, 0x38], 3, 1), [Met::Later]);
        assert_eq!(met(on(), &[0x38, 0x38], 1, 1), [Met::Limit]);
        assert_eq!(met(on(), &[0x38, 0x38], 1, 2), [Met::Never]);
        assert_eq!(met(on(), &[0xB5, 0x38, 0x38], 1, 1), [Met::Inside, Met::Never]);
        let inputs = Inputs { stop_address: Some(0), ..Inputs::default() };
        let pages = [vec![0x38], vec![]];
        let call = Call { record: on(), inputs, limit: 1, pages, ..Call::default() };
        let bus_log = Some(BusLog { entries: vec![0; 6], used: 0 });
        assert_eq!(counted(&Call { bus_log, ..call.clone() }), [Met::Full]);
        let halted = Record { is_halted: true, ..on() };
        assert_eq!(counted(&Call { record: halted, ..call.clone() }), [Met::Halted]);
        assert_eq!(counted(&Call { limit: 0, ..call }), [Met::Never]);
    }

    /// An entry comes to FFFF past the page's end; HLT and a wait; OFF and steps with BF clear.
    #[test]
    fn steps_are_counted() {
        let entering = Record { ir1: true, t: 0x02, s: 0x0100, ..on() };
        assert_eq!(met(entering, &[0x38], 1, 0), [Met::Entry]);
        let wanted = [Met::Later, Met::Target, Met::Unlisted, Met::Highest];
        assert_eq!(met(entering, &[0x38], 2, 0xFFFF), wanted);
        assert_eq!(met(on(), &[0xFD, 0xB1], 3, 2), [Met::Waiting]);
        assert_eq!(met(on(), &[0xFD, 0x4C], 3, 2), [Met::Off]);
        let [ir0, off] = [true, false].map(|bf| Record { ir0: true, bf, s: 0x0100, ..entering });
        assert_eq!(met(ir0, &[0x38], 1, 0), [Met::EntryOfIr0]);
        assert_eq!(met(ir0, &[0x38], 2, 0), [Met::EntryOfIr0]);
        assert_eq!(met(off, &[0x38], 3, 0), [Met::Off]);
    }

    /// P before each step: HLT, a wait of 42 states that ends in 1FF, the entry, RTI, a wait.
    #[test]
    fn places_of_steps() {
        let mut page = vec![0x8A; 65_536];
        page[..2].copy_from_slice(&[0xFD, 0xB1]);
        page[0xFFFA..0xFFFC].copy_from_slice(&[0x12, 0x34]);
        let record = Record { tm: 0x1FE, t: 0x02, s: 0x8000, ..on() };
        let inputs = Inputs { idle: 42, ..Inputs::default() };
        let call = Call { record, inputs, limit: 4, pages: [page, vec![]], ..Call::default() };
        let answer = Original.call(&call);
        let log = answer.log.clone().unwrap();
        let steps = begun(&answer, &log);
        let places: Vec<_> = steps.iter().map(|step| step.p).collect();
        assert_eq!(places, [0x0000, 0x0002, 0x0002, 0x1234]);
        let kinds: Vec<_> =
            steps.iter().map(|step| (step.is_entry(), step.is_instruction())).collect();
        assert_eq!(kinds, [(false, true), (false, false), (true, false), (false, true)]);
    }
}
