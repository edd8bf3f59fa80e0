//! What calls that begin with IR0 set have met, counted (document 02, F-6).

#![forbid(unsafe_code)]

use std::fmt;

use crate::call::{Access, Answer, Call, Log, Record};
use crate::stop_counts::begun;
use crate::tallies::Tallies;

/// What a call with IR0 set may meet.
#[derive(Clone, Copy, Debug, PartialEq, Eq)]
pub enum Met {
    /// The entry with IE clear, or set; by a halted unit, with the idle figure 0, or above it.
    Masked,
    Enabled,
    Halted,
    Waiting,
    /// The entry with another request, which stays.
    BesideIr1,
    BesideReached,
    BesideIr2,
    /// The vector's reads find a byte that the entry has pushed; a pushed byte was dropped.
    OwnVector,
    Dropped,
    /// The timer shifts in the entry.
    Shift,
    /// The stop address is P, and the entry is made; the call ends with 12 right behind it.
    StopAtP,
    StopBehind,
    /// The entry of IR1, of IR2, comes later in the call.
    ThenIr1,
    ThenIr2,
    /// RTI brings back T as it was, with IE clear, or set.
    BackMasked,
    BackEnabled,
    /// 11 in place of the entry; a step with BF clear.
    Full,
    Off,
}

use Met::*;

const ALL: [(Met, &str); 18] = [
    (Masked, "IE clear"),
    (Enabled, "IE set"),
    (Halted, "halted"),
    (Waiting, "halted with an idle figure"),
    (BesideIr1, "with IR1"),
    (BesideReached, "with timer reached"),
    (BesideIr2, "with IR2"),
    (OwnVector, "the vector pushed over"),
    (Dropped, "a push dropped"),
    (Shift, "the timer shifts"),
    (StopAtP, "P the stop address"),
    (StopBehind, "12 behind it"),
    (ThenIr1, "then IR1"),
    (ThenIr2, "then IR2"),
    (BackMasked, "back with IE clear"),
    (BackEnabled, "back with IE set"),
    (Full, "11"),
    (Off, "BF clear"),
];

/// How many calls began with IR0 set, and how many of them have met each of these.
#[derive(Clone, Default)]
pub struct Ir0Counts(Tallies<{ ALL.len() }>);

impl Ir0Counts {
    /// A call, with an answer that tells the accesses.
    pub fn add(&mut self, call: &Call, answer: &Answer) {
        let Some(log) = answer.log.as_ref().filter(|_| call.record.ir0) else { return };
        let met = match (call.record.bf, answer.number, answer.steps) {
            (true, 11, 0) => vec![Full],
            (_, _, 0) => vec![],
            (false, ..) => vec![Off],
            (true, ..) => {
                let behind = (answer.number == 12 && answer.steps == 1).then_some(StopBehind);
                let met = [given(call), entry(call, log), later(&call.record, answer, log)];
                met.concat().into_iter().chain(behind).collect()
            }
        };
        self.0.add(met.iter().map(|met| *met as usize));
    }

    pub fn join(&mut self, other: &Ir0Counts) {
        self.0.join(&other.0);
    }

    /// Whether each of these was met.
    pub fn have_all(&self) -> bool {
        self.0.have_all()
    }
}

/// Those of these that hold.
fn those<const N: usize>(all: [(bool, Met); N]) -> Vec<Met> {
    all.into_iter().filter(|(holds, _)| *holds).map(|(_, met)| met).collect()
}

/// What the entry finds in the record and the inputs. It adds no states.
fn given(call: &Call) -> Vec<Met> {
    let (r, inputs) = (&call.record, call.inputs);
    let is_enabled = r.t & 0x02 != 0;
    those([
        (!is_enabled, Masked),
        (is_enabled, Enabled),
        (r.is_halted && inputs.idle == 0, Halted),
        (r.is_halted && inputs.idle != 0, Waiting),
        (r.ir1, BesideIr1),
        (r.is_timer_reached, BesideReached),
        (r.ir2, BesideIr2),
        (r.timer_state.wrapping_sub(r.step_previous_state) >= 42, Shift),
        (inputs.stop_address == Some(r.p), StopAtP),
    ])
}

/// What the entry's five accesses, of which the first three are writes, do in memory.
fn entry(call: &Call, log: &Log) -> Vec<Met> {
    let (pushes, reads) = log.step(0).split_at(3);
    let (stored, dropped): (Vec<u32>, Vec<u32>) =
        pushes.iter().map(Access::address).partition(|address| {
            (*address as usize) < call.pages[0].len() && !call.read_only.has(*address)
        });
    let is_pushed = |read: &Access| stored.contains(&read.address());
    those([(reads.iter().any(is_pushed), OwnVector), (!dropped.is_empty(), Dropped)])
}

/// What the completed steps behind the entry do. RTI pops T where the entry has pushed it.
fn later(given: &Record, answer: &Answer, log: &Log) -> Vec<Met> {
    let steps = begun(answer, log);
    let has_entry = |vector: u32| {
        let reads = |access: &Access| !access.is_write() && access.address() == vector;
        steps[1..].iter().any(|step| step.is_entry() && step.accesses.iter().any(reads))
    };
    let pushed = Access::read(given.s.into(), given.t);
    let is_back = steps[1..].iter().any(|step| match step.accesses {
        [opcode, _, _, t] => opcode.byte() == 0x8A && *t == pushed,
        _ => false,
    });
    let is_enabled = given.t & 0x02 != 0;
    those([
        (has_entry(0xFFFA), ThenIr1),
        (has_entry(0xFFF8), ThenIr2),
        (is_back && !is_enabled, BackMasked),
        (is_back && is_enabled, BackEnabled),
    ])
}

impl fmt::Display for Ir0Counts {
    fn fmt(&self, f: &mut fmt::Formatter<'_>) -> fmt::Result {
        let words = self.0.words(ALL.map(|(_, name)| name), 7);
        write!(f, "{} calls that begin with IR0 set: {words}", self.0.calls)
    }
}

#[cfg(test)]
mod tests {
    use super::{Ir0Counts, Met, ALL};
    use crate::call::{BusLog, Call, ReadOnly, Record, Side};
    use crate::original::Original;

    fn met(call: &Call) -> Vec<Met> {
        let mut counts = Ir0Counts::default();
        counts.add(call, &Original.call(call));
        assert_eq!(counts.0.calls, u64::from(call.record.ir0));
        counts.0.kinds().into_iter().map(|kind| ALL[kind].0).collect()
    }

    /// RTI at 0040 for IR0, at 0044 for IR1.
    fn requested() -> Call {
        let record = Record { bf: true, ir0: true, s: 0x0080, p: 0x0010, ..Record::default() };
        let mut page = vec![0x38; 65_536];
        page[0xFFFA..0xFFFE].copy_from_slice(&[0x00, 0x44, 0x00, 0x40]);
        (page[0x0040], page[0x0044]) = (0x8A, 0x8A);
        Call { record, limit: 4, pages: [page, vec![]], ..Call::default() }
    }

    #[test]
    fn entries_are_counted() {
        let call = requested();
        assert_eq!(met(&call), [Met::Masked, Met::BackMasked]);
        let mut other = call.clone();
        (other.record.t, other.record.ir1) = (0x02, true);
        assert_eq!(met(&other), [Met::Enabled, Met::BesideIr1, Met::ThenIr1, Met::BackEnabled]);
        let mut other = call.clone();
        (other.record.s, other.record.timer_state, other.limit) = (0xFFFD, 42, 1);
        other.read_only = ReadOnly::new(0xFFFD, 0xFFFE);
        other.inputs.stop_address = Some(0x0010);
        let wanted = [Met::Masked, Met::OwnVector, Met::Dropped, Met::Shift, Met::StopAtP];
        assert_eq!(met(&other), wanted);
        let mut other = call.clone();
        (other.record.is_halted, other.inputs.stop_address) = (true, Some(0x0040));
        assert_eq!(met(&other), [Met::Masked, Met::Halted, Met::StopBehind]);
    }

    #[test]
    fn calls_without_the_entry() {
        let mut call = requested();
        call.bus_log = Some(BusLog { entries: vec![0; 6], used: 0 });
        assert_eq!(met(&call), [Met::Full]);
        call.limit = 0;
        assert_eq!(met(&call), []);
        let mut off = requested();
        off.record.bf = false;
        assert_eq!(met(&off), [Met::Off]);
        off.record.ir0 = false;
        assert_eq!(met(&off), []);
    }
}
