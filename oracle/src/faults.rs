//! Bus logs that are wrong on purpose: `compare` has to find each of them, among its directed calls
//! and among its random ones, and to make a small input of it.

#![forbid(unsafe_code)]

use crate::call::{refusal, Access, Answer, BusLog, Call, Record, Side, MOST_ACCESSES};
use crate::compare::Comparison;
use crate::logs;
use crate::model::Model;
use crate::random::{self, Random};
use crate::shrink::{describe, shrink};

#[derive(Clone, Copy, Debug, PartialEq, Eq)]
enum Fault {
    Nothing,
    /// 11 is not looked for before such a step.
    UncheckedWithBfClear,
    UncheckedBeforeIr0,
    UncheckedWhileWaiting,
    /// 11 comes after 5, 6 and 7; or where the log is full after the last step.
    CheckedAfterOtherStops,
    CheckedAfterTheLastStep,
    /// 11 only where the step's own accesses find no room; with less than six, or eight, free.
    OwnAccessesAreEnough,
    SixAreEnough,
    EightAreWanted,
    /// The free entries are the length less the used count, modulo 2^64.
    UsedCountWraps,
    EmptyListIsNoLog,
    /// A refused call gives 11, or another used count.
    CheckedBeforeRefusals,
    RefusalsClearTheCount,
    /// What a stopping step reads is appended; or stored behind the used count.
    StoppingStepIsAppended,
    StoppingStepIsStored,
    NoWriteMark,
    WriteMarkAtBit24,
    PageIsLost,
    ReadsPastTheEndAreMissing,
    DroppedWritesAreMissing,
    /// The vector's bytes are those from before the pushes; its low byte is first.
    VectorReadBeforePush,
    VectorLowByteFirst,
    /// A zero is put behind what was appended; or at the list's beginning where there is no step;
    /// the count is zero after an 11.
    EntryBehindIsCleared,
    FirstEntryIsCleared,
    ElevenClearsTheCount,
    /// With 11 the states of the completed steps are lost.
    ElevenLosesTheStates,
    /// Logs nothing, and says 0; logs the opcode only; says 11 always.
    LogsNothing,
    LogsTheOpcodeOnly,
    AlwaysEleven,
}

use Fault::*;

const FAULTS: [Fault; 28] = [
    UncheckedWithBfClear,
    UncheckedBeforeIr0,
    UncheckedWhileWaiting,
    CheckedAfterOtherStops,
    CheckedAfterTheLastStep,
    OwnAccessesAreEnough,
    SixAreEnough,
    EightAreWanted,
    UsedCountWraps,
    EmptyListIsNoLog,
    CheckedBeforeRefusals,
    RefusalsClearTheCount,
    StoppingStepIsAppended,
    StoppingStepIsStored,
    NoWriteMark,
    WriteMarkAtBit24,
    PageIsLost,
    ReadsPastTheEndAreMissing,
    DroppedWritesAreMissing,
    VectorReadBeforePush,
    VectorLowByteFirst,
    EntryBehindIsCleared,
    FirstEntryIsCleared,
    ElevenClearsTheCount,
    ElevenLosesTheStates,
    LogsNothing,
    LogsTheOpcodeOnly,
    AlwaysEleven,
];

/// The model's steps, one by one and without a log, under a run with a wrong log. It tells its
/// accesses in the log alone, as the port does.
struct Wrong(Fault);

impl Side for Wrong {
    fn name(&self) -> &'static str {
        "model with a wrong log"
    }

    fn call(&mut self, call: &Call) -> Answer {
        let Some(log) = call.bus_log.clone() else {
            return Answer { log: None, ..Model::default().call(call) };
        };
        let lengths = [call.pages[0].len(), call.pages[1].len()];
        if let Some(number) = refusal(lengths, call.record.tm, call.limit) {
            return self.refused(call, number);
        }
        let (record, pages) = (call.record, call.pages.clone());
        let mut sum = Answer { record, pages, ..Answer::default() };
        let mut log = log;
        for _ in 0..call.limit {
            if !self.step(call, &mut sum, &mut log) {
                break;
            }
        }
        if self.0 == CheckedAfterTheLastStep && sum.number == 0 && log.is_full() {
            sum.number = 11;
        }
        self.end(&mut sum, &mut log);
        Answer { bus_log: Some(log), ..sum }
    }
}

impl Wrong {
    fn refused(&self, call: &Call, number: u8) -> Answer {
        let mut answer = Answer { log: None, ..Answer::refused(call, number) };
        let Some(log) = &mut answer.bus_log else { return answer };
        match self.0 {
            CheckedBeforeRefusals if log.is_full() => answer.number = 11,
            RefusalsClearTheCount => log.used = 0,
            _ => {}
        }
        answer
    }

    /// One step; false where the call ends with it.
    fn step(&self, call: &Call, sum: &mut Answer, log: &mut BusLog) -> bool {
        let (record, pages) = (sum.record, sum.pages.clone());
        let next = Call { record, inputs: call.inputs, limit: 1, pages, ..Call::default() };
        let one = Model::default().call(&next);
        if self.stops(log, &record, &one) {
            sum.number = 11;
            return false;
        }
        self.append(log, &next, &one);
        (sum.number, sum.byte) = (one.number, one.byte);
        sum.steps += one.steps;
        sum.states += one.states;
        (sum.record, sum.pages) = (one.record, one.pages);
        sum.number == 0
    }

    /// Whether there is an 11 before this step.
    fn stops(&self, log: &BusLog, record: &Record, one: &Answer) -> bool {
        let (length, accesses) = (log.entries.len(), accesses(one).len());
        match self.0 {
            UncheckedWithBfClear if !record.bf => false,
            UncheckedBeforeIr0 if record.enters_ir0() => false,
            UncheckedWhileWaiting if record.begins_halted_step() && one.number == 0 => false,
            CheckedAfterOtherStops if one.number != 0 => false,
            OwnAccessesAreEnough => log.used > length || log.free() < accesses,
            SixAreEnough => log.free() < MOST_ACCESSES - 1,
            EightAreWanted => log.free() < MOST_ACCESSES + 1,
            UsedCountWraps => length.wrapping_sub(log.used) < MOST_ACCESSES,
            EmptyListIsNoLog if length == 0 => false,
            AlwaysEleven => true,
            _ => log.is_full(),
        }
    }

    /// Appends what there is room for.
    fn append(&self, log: &mut BusLog, before: &Call, one: &Answer) {
        if one.number != 0 && self.0 != StoppingStepIsAppended && self.0 != StoppingStepIsStored {
            return;
        }
        let used = log.used;
        for access in self.changed(before, one) {
            let mut entry = access.entry();
            match self.0 {
                NoWriteMark => entry &= 0x01FF_FFFF,
                WriteMarkAtBit24 => entry = entry & 0x01FF_FFFF | entry >> 25 << 24,
                PageIsLost => entry &= 0x02FF_FFFF,
                _ => {}
            }
            if let Some(place) = log.entries.get_mut(log.used) {
                *place = entry;
                log.used += 1;
            }
        }
        if one.number != 0 && self.0 == StoppingStepIsStored {
            log.used = used;
        }
    }

    /// The accesses as this side sees them.
    fn changed(&self, before: &Call, one: &Answer) -> Vec<Access> {
        let mut seen = accesses(one).to_vec();
        let vectors = one.log.as_ref().map(|log| log.vectors.clone()).unwrap_or_default();
        let byte = |address: u32| {
            let (page, offset) = ((address >> 16) as usize, (address & 0xFFFF) as usize);
            before.pages[page].get(offset).copied()
        };
        match self.0 {
            ReadsPastTheEndAreMissing => {
                seen.retain(|access| access.is_write() || byte(access.address()).is_some());
            }
            DroppedWritesAreMissing => {
                seen.retain(|access| !access.is_write() || byte(access.address()).is_some());
            }
            VectorReadBeforePush => {
                vectors.iter().flat_map(|place| [*place, place + 1]).for_each(|i| {
                    let address = seen[i].address();
                    seen[i] = Access::read(address, byte(address).unwrap_or(0xFF));
                })
            }
            VectorLowByteFirst => vectors.iter().for_each(|place| seen.swap(*place, place + 1)),
            LogsNothing => seen.clear(),
            LogsTheOpcodeOnly => seen.truncate(1),
            _ => {}
        }
        seen
    }

    /// What is wrong after the last step.
    fn end(&self, sum: &mut Answer, log: &mut BusLog) {
        let eleven = sum.number == 11;
        let place = match self.0 {
            EntryBehindIsCleared => log.entries.get_mut(log.used),
            FirstEntryIsCleared => log.entries.first_mut().filter(|_| sum.steps == 0),
            _ => None,
        };
        if let Some(place) = place {
            *place = 0;
        }
        match self.0 {
            ElevenClearsTheCount if eleven => log.used = 0,
            ElevenLosesTheStates if eleven => sum.states = 0,
            _ => {}
        }
    }
}

fn accesses(one: &Answer) -> &[Access] {
    one.log.as_ref().map_or(&[], |log| &log.accesses)
}

/// The first of these calls that shows the fault.
fn first(fault: Fault, calls: impl Iterator<Item = Call>) -> Option<Call> {
    let mut comparison = Comparison::new(Box::new(Wrong(fault)));
    let mut calls = calls;
    calls.find(|call| comparison.differs(call))
}

fn directed() -> impl Iterator<Item = Call> {
    logs::groups().into_iter().flat_map(|(_, calls)| calls)
}

fn random() -> impl Iterator<Item = Call> {
    (0..4000).map(|index| random::logged_call(&mut Random::new(1, index)))
}

#[test]
fn without_a_fault_nothing_is_found() {
    assert_eq!(first(Nothing, directed().step_by(5)), None);
    assert_eq!(first(Nothing, random().take(500)), None);
}

#[test]
fn each_fault_is_found_by_the_directed_calls() {
    for fault in FAULTS {
        assert!(first(fault, directed()).is_some(), "{fault:?}");
    }
}

#[test]
fn each_fault_is_found_by_the_random_calls() {
    for fault in FAULTS {
        assert!(first(fault, random()).is_some(), "{fault:?}");
    }
}

/// At most two steps, and a log of few entries.
#[test]
fn each_fault_is_made_small() {
    for fault in FAULTS {
        let failing = first(fault, random()).unwrap();
        let mut comparison = Comparison::new(Box::new(Wrong(fault)));
        let small = shrink(failing, &mut |call| comparison.differs(call));
        let length = small.bus_log.as_ref().map_or(0, |log| log.entries.len());
        let bytes = small.pages.iter().flatten().filter(|byte| **byte != 0).count();
        let is_small = small.bus_log.is_some() && length <= 9 && bytes <= 9 && small.limit <= 2;
        let refused = matches!(fault, CheckedBeforeRefusals | RefusalsClearTheCount);
        assert!(is_small || refused, "{fault:?}\n{}", describe(&small));
    }
}
