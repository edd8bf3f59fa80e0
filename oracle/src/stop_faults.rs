//! Stops before an address that are wrong on purpose: `compare` has to find each of them, among its
//! directed calls and among its random ones, and to make a small input of it.

#![forbid(unsafe_code)]

use crate::call::{refusal, Access, Answer, BusLog, Call, Record, Side};
use crate::compare::Comparison;
use crate::memory::code_at;
use crate::model::Model;
use crate::opcodes::length;
use crate::random::Random;
use crate::shrink::{describe, shrink};
use crate::step_by_step::step_by_step;
use crate::stop_addresses;
use crate::stops;

#[derive(Clone, Copy, Debug, PartialEq, Eq)]
enum Fault {
    Nothing,
    /// Never looked for; not in a call's first step; only in its first step; once, and never again
    /// in a later call.
    NeverLookedFor,
    FirstStepUnchecked,
    FirstStepOnly,
    OnceOnly,
    /// Not looked for right after an entry, or where a step has left the next byte of the code.
    UncheckedAfterAnEntry,
    UncheckedAfterAJump,
    /// Not looked for without a log, or with one.
    UncheckedWithoutALog,
    UncheckedWithALog,
    /// Looked for before a step that is no instruction.
    WithBfClear,
    BeforeIr0,
    WhileWaiting,
    WhereHalted,
    BeforeAnEntry,
    /// A request without IE counts as accepted; a reached timer counts as no request.
    RequestIsEnough,
    ReachedIsNoRequest,
    /// After 5 and 6; before 11; before 1 to 4; in place of 0, where the limit is reached there.
    AfterUnlisted,
    BeforeEleven,
    BeforeRefusals,
    InPlaceOfZero,
    /// Another address: its low byte, its high byte, the next one, the last instruction's, any byte
    /// of the instruction, the byte after FD.
    LowByteOnly,
    HighByteOnly,
    OneAbove,
    LastInstruction,
    AnyByteOfTheInstruction,
    ByteAfterFd,
    /// 0, or FFFF, means that none is given; where none is given it is 0.
    ZeroIsNone,
    FFFFIsNone,
    NoneIsZero,
    /// The stopping step's reached has moved; the step is counted; it adds states; P is one above.
    ReachedIsMoved,
    StepIsCounted,
    StatesAreAdded,
    PMovesOn,
    /// The opcode's read is an access of the stopping step; it is an entry of the log; the byte is
    /// the opcode's.
    OpcodeIsRead,
    OpcodeIsLogged,
    OpcodeIsTheByte,
    /// The number is 7; the last completed step is undone too.
    NumberIsSeven,
    LastStepIsUndone,
}

use Fault::*;

const FAULTS: [Fault; 37] = [
    NeverLookedFor,
    FirstStepUnchecked,
    FirstStepOnly,
    OnceOnly,
    UncheckedAfterAnEntry,
    UncheckedAfterAJump,
    UncheckedWithoutALog,
    UncheckedWithALog,
    WithBfClear,
    BeforeIr0,
    WhileWaiting,
    WhereHalted,
    BeforeAnEntry,
    RequestIsEnough,
    ReachedIsNoRequest,
    AfterUnlisted,
    BeforeEleven,
    BeforeRefusals,
    InPlaceOfZero,
    LowByteOnly,
    HighByteOnly,
    OneAbove,
    LastInstruction,
    AnyByteOfTheInstruction,
    ByteAfterFd,
    ZeroIsNone,
    FFFFIsNone,
    NoneIsZero,
    ReachedIsMoved,
    StepIsCounted,
    StatesAreAdded,
    PMovesOn,
    OpcodeIsRead,
    OpcodeIsLogged,
    OpcodeIsTheByte,
    NumberIsSeven,
    LastStepIsUndone,
];

/// The model's steps one by one, without a stop address, under a stop that is looked for wrongly.
struct Wrong {
    fault: Fault,
    /// Some call has stopped.
    has_stopped: bool,
}

/// The last completed step of a call: the record before it, whether it was an entry.
#[derive(Clone, Copy)]
struct Last {
    record: Record,
    is_entry: bool,
    /// The byte behind the instruction's last one.
    behind: u16,
}

impl Side for Wrong {
    fn name(&self) -> &'static str {
        "model with a wrong stop address"
    }

    fn call(&mut self, call: &Call) -> Answer {
        let lengths = [call.pages[0].len(), call.pages[1].len()];
        if refusal(lengths, call.record.tm, call.limit).is_some() {
            let refused = Model::default().call(call);
            let is_wrong = self.fault == BeforeRefusals && self.is_stop(call, call, None);
            return Answer { number: if is_wrong { 12 } else { refused.number }, ..refused };
        }
        self.steps(call)
    }
}

/// The byte of the code at P, and the one behind it.
fn code(call: &Call) -> [u8; 2] {
    code_at(&call.pages, call.record.p)
}

impl Wrong {
    fn new(fault: Fault) -> Wrong {
        Wrong { fault, has_stopped: false }
    }

    /// Steps until the limit or a stop.
    fn steps(&mut self, call: &Call) -> Answer {
        let plain = Call { inputs: call.inputs.without_stop(), ..call.clone() };
        let mut last = None;
        let mut sum = step_by_step(&plain, |next| {
            if self.is_stop(call, next, last) {
                return self.stop(next, last);
            }
            let one = Model::default().call(next);
            last = Some(last_of(next, &one));
            one
        });
        let is_there = call.inputs.stop_address == Some(sum.record.p);
        let is_due = is_there && sum.record.is_instruction_due();
        if self.fault == InPlaceOfZero && sum.number == 0 && is_due {
            sum.number = 12;
        }
        sum
    }

    /// Whether the call stops before this step.
    fn is_stop(&self, call: &Call, next: &Call, last: Option<Last>) -> bool {
        let is_full = next.bus_log.as_ref().is_some_and(BusLog::is_full);
        let is_looked_for = match self.fault {
            NeverLookedFor => false,
            FirstStepUnchecked => last.is_some(),
            FirstStepOnly => last.is_none(),
            OnceOnly => !self.has_stopped,
            UncheckedAfterAnEntry => !last.is_some_and(|last| last.is_entry),
            UncheckedAfterAJump => last.is_none_or(|last| last.behind == next.record.p),
            UncheckedWithoutALog => call.bus_log.is_some(),
            UncheckedWithALog => call.bus_log.is_none(),
            BeforeEleven | BeforeRefusals => true,
            AfterUnlisted => length(code(next)) > 0,
            _ => !is_full,
        };
        let is_allowed = !is_full || self.fault == BeforeEleven || self.fault == BeforeRefusals;
        is_looked_for && is_allowed && self.is_due(next) && self.is_there(call, next, last)
    }

    /// The kinds of steps before which the address is looked for.
    fn is_due(&self, next: &Call) -> bool {
        let r = &next.record;
        let is_requested = r.ir1 || r.ir2 || r.is_timer_reached;
        let is_accepted = is_requested && r.t & 0x02 != 0;
        let is_plain = r.bf && !r.ir0 && !is_accepted && !r.is_halted;
        match self.fault {
            WithBfClear => is_plain || !r.bf,
            BeforeIr0 => is_plain || r.enters_ir0(),
            WhileWaiting => is_plain || r.begins_halted_step() && next.inputs.idle != 0,
            WhereHalted => is_plain || r.begins_halted_step() && next.inputs.idle == 0,
            BeforeAnEntry => is_plain || r.bf && !r.ir0 && is_accepted,
            RequestIsEnough => is_plain && !is_requested,
            ReachedIsNoRequest => Record { is_timer_reached: false, ..*r }.is_instruction_due(),
            _ => is_plain,
        }
    }

    /// P is at what is taken for the stop address.
    fn is_there(&self, call: &Call, next: &Call, last: Option<Last>) -> bool {
        let p = next.record.p;
        let address = match call.inputs.stop_address {
            Some(0) if self.fault == ZeroIsNone => return false,
            Some(0xFFFF) if self.fault == FFFFIsNone => return false,
            None if self.fault == NoneIsZero => 0,
            None => return false,
            Some(address) => address,
        };
        let behind = address.wrapping_sub(p);
        match self.fault {
            LowByteOnly => address % 256 == p % 256,
            HighByteOnly => address / 256 == p / 256,
            OneAbove => behind == 1,
            LastInstruction => last.is_some_and(|last| last.record.p == address),
            AnyByteOfTheInstruction => behind < length(code(next)).max(1),
            ByteAfterFd => behind == u16::from(code(next)[0] == 0xFD),
            _ => behind == 0,
        }
    }

    /// The stop in place of the next step.
    fn stop(&mut self, next: &Call, last: Option<Last>) -> Answer {
        let opcode = code(next)[0];
        let read = Access::read(next.record.p.into(), opcode);
        self.has_stopped = true;
        let number = if self.fault == NumberIsSeven { 7 } else { 12 };
        let mut answer = Answer::refused(next, number);
        let record = &mut answer.record;
        match self.fault {
            ReachedIsMoved if record.is_timer_reached => {
                (record.is_timer_reached, record.ir1) = (false, true);
            }
            StepIsCounted => answer.steps = 1,
            StatesAreAdded => answer.states = 4,
            PMovesOn => record.p = record.p.wrapping_add(1),
            OpcodeIsTheByte => answer.byte = opcode,
            OpcodeIsRead => answer.log.iter_mut().for_each(|log| log.accesses.push(read)),
            OpcodeIsLogged => answer.bus_log.iter_mut().for_each(|log| log.append(&[read])),
            LastStepIsUndone => *record = last.map_or(*record, |last| last.record),
            _ => {}
        }
        answer
    }
}

/// A step of the model, with what was before it.
fn last_of(before: &Call, one: &Answer) -> Last {
    let accesses = one.log.as_ref().map_or(&[][..], |log| &log.accesses);
    let is_entry = accesses.first().is_some_and(Access::is_write);
    let behind = before.record.p.wrapping_add(length(code(before)));
    Last { record: before.record, is_entry, behind }
}

/// The first of these calls that shows the fault.
fn first(fault: Fault, calls: impl Iterator<Item = Call>) -> Option<Call> {
    let mut comparison = Comparison::new(Box::new(Wrong::new(fault)));
    let mut calls = calls;
    calls.find(|call| comparison.differs(call))
}

fn directed() -> impl Iterator<Item = Call> {
    stops::groups().into_iter().flat_map(|(_, calls)| calls)
}

fn random() -> impl Iterator<Item = Call> {
    (0..5000).map(|index| stop_addresses::call(&mut Random::new(1, index)))
}

#[test]
fn without_a_fault_nothing_is_found() {
    assert_eq!(first(Nothing, directed().step_by(11)), None);
    assert_eq!(first(Nothing, random().take(500)), None);
}

#[test]
fn each_fault_is_found_by_the_directed_calls() {
    for fault in FAULTS {
        assert!(first(fault, directed()).is_some(), "{fault:?}");
    }
}

#[test]
fn each_fault_is_found_by_the_random_calls() {
    for fault in FAULTS {
        assert!(first(fault, random()).is_some(), "{fault:?}");
    }
}

/// At most two steps, a log of few entries, and few bytes that are not zero.
#[test]
fn each_fault_is_made_small() {
    for fault in FAULTS {
        let failing = first(fault, random()).unwrap();
        let mut comparison = Comparison::new(Box::new(Wrong::new(fault)));
        let small = shrink(failing, &mut |call| comparison.differs(call));
        let bytes = small.pages.iter().flatten().filter(|byte| **byte != 0).count();
        let length = small.bus_log.as_ref().map_or(0, |log| log.entries.len());
        let is_small = small.limit <= 2 && bytes <= 6 && length <= 9;
        assert!(is_small, "{fault:?}\n{}", describe(&small));
    }
}
