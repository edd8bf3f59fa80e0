//! Entries of IR0 that are wrong on purpose: `compare` has to find each of them, among its directed
//! calls and among its random ones, and to make a small input of it.

#![forbid(unsafe_code)]

use crate::call::{refusal, Answer, BusLog, Call, Record, Side};
use crate::compare::Comparison;
use crate::ir0;
use crate::memory::Memory;
use crate::model::Model;
use crate::random::Random;
use crate::shrink::{describe, shrink};
use crate::step_by_step::step_by_step;
use crate::stop_addresses;

#[derive(Clone, Copy, Debug, PartialEq, Eq)]
enum Fault {
    Nothing,
    /// No entry with IE clear; by a halted unit; by one that would wait; by one that is not halted;
    /// where IR1, or IR2, is taken first; where P is the stop address; at all. The unit goes on as if
    /// IR0 were clear, or does nothing as long as it is set, always or with IE clear.
    MaskedByIe,
    OnlyWhenNotHalted,
    AfterWaiting,
    OnlyWhenHalted,
    Ir1First,
    Ir2First,
    After12,
    NoEntry,
    Frozen,
    FrozenWithIeClear,
    /// An entry with BF clear; with less than seven entries free.
    WithBfClear,
    BeforeEleven,
    /// What it leaves: IR0 set; IR1 or IR2 cleared; IE set; the unit halted; T cleared; S not moved by
    /// the push of T.
    RequestStays,
    Ir1IsCleared,
    Ir2IsCleared,
    IeStays,
    HaltedStays,
    TIsCleared,
    SStays,
    /// The vector of IR1, of IR2, or FE; its low byte first; from before the pushes.
    VectorOfIr1,
    VectorOfIr2,
    VectorFE,
    VectorLowByteFirst,
    VectorBeforePushes,
    /// T pushed with IE clear, with IE set, or without its upper bits; P before T; P's high byte first;
    /// P from behind an instruction.
    IeIsClearedFirst,
    IeIsPushedSet,
    UpperBitsAreLost,
    PBeforeT,
    HighByteFirst,
    NextPIsPushed,
    /// States: one, those of a vector, the idle figure; no timer part; reached not moved, or lost.
    OneState,
    VectorStates,
    IdleStates,
    NoTimerPart,
    ReachedStays,
    ReachedIsLost,
}

use Fault::*;

const FAULTS: [Fault; 36] = [
    MaskedByIe,
    OnlyWhenNotHalted,
    AfterWaiting,
    OnlyWhenHalted,
    Ir1First,
    Ir2First,
    After12,
    NoEntry,
    Frozen,
    FrozenWithIeClear,
    WithBfClear,
    BeforeEleven,
    RequestStays,
    Ir1IsCleared,
    Ir2IsCleared,
    IeStays,
    HaltedStays,
    TIsCleared,
    SStays,
    VectorOfIr1,
    VectorOfIr2,
    VectorFE,
    VectorLowByteFirst,
    VectorBeforePushes,
    IeIsClearedFirst,
    IeIsPushedSet,
    UpperBitsAreLost,
    PBeforeT,
    HighByteFirst,
    NextPIsPushed,
    OneState,
    VectorStates,
    IdleStates,
    NoTimerPart,
    ReachedStays,
    ReachedIsLost,
];

/// The model's steps one by one, with another entry of IR0, which is made anew here but for its timer
/// part.
struct Wrong(Fault);

impl Side for Wrong {
    fn name(&self) -> &'static str {
        "model with a wrong entry of IR0"
    }

    fn call(&mut self, call: &Call) -> Answer {
        let lengths = [call.pages[0].len(), call.pages[1].len()];
        if refusal(lengths, call.record.tm, call.limit).is_some() {
            return Model::default().call(call);
        }
        step_by_step(call, |next| self.step(next))
    }
}

impl Wrong {
    /// One step.
    fn step(&self, next: &Call) -> Answer {
        let is_entry =
            if self.0 == WithBfClear { next.record.ir0 } else { next.record.enters_ir0() };
        match is_entry {
            true if self.is_passed_over(next) => self.without(next),
            true => self.entry(next),
            false => Model::default().call(next),
        }
    }

    /// The step is another one than the entry.
    fn is_passed_over(&self, next: &Call) -> bool {
        let (r, inputs) = (&next.record, next.inputs);
        let is_enabled = r.t & 0x02 != 0;
        match self.0 {
            MaskedByIe => !is_enabled,
            OnlyWhenNotHalted => r.is_halted,
            AfterWaiting => r.is_halted && inputs.idle != 0,
            OnlyWhenHalted => !r.is_halted,
            Ir1First => is_enabled && (r.ir1 || r.is_timer_reached),
            Ir2First => is_enabled && r.ir2 && !r.ir1 && !r.is_timer_reached,
            After12 => !r.is_halted && inputs.stop_address == Some(r.p),
            NoEntry => true,
            _ => false,
        }
    }

    /// The step that comes without the request, which stays.
    fn without(&self, next: &Call) -> Answer {
        let record = Record { ir0: false, ..next.record };
        let one = Model::default().call(&Call { record, ..next.clone() });
        Answer { record: Record { ir0: true, ..one.record }, ..one }
    }

    /// The entry, made anew but for its timer part.
    fn entry(&self, next: &Call) -> Answer {
        let is_full = next.bus_log.as_ref().is_some_and(BusLog::is_full);
        if is_full && self.0 != BeforeEleven {
            return Model::default().call(next);
        }
        let given = &next.record;
        let timed = timed(next);
        let mut memory = Memory::of(next);
        memory.begin_step();
        let is_frozen = self.0 == Frozen || self.0 == FrozenWithIeClear && given.t & 0x02 == 0;
        let mut record = match is_frozen {
            true => timed,
            false => self.enter(given, &mut memory, timed),
        };
        record.ir0 = is_frozen || self.0 == RequestStays;
        let states = self.spend(next, &mut record);
        let mut bus_log = next.bus_log.clone();
        if let (Some(log), false) = (&mut bus_log, is_full) {
            log.append(memory.step());
        }
        let (pages, log) = memory.finish(1);
        Answer { steps: 1, states, record, pages, log: Some(log), bus_log, ..Answer::default() }
    }

    /// The accesses in order, and the record behind them.
    fn enter(&self, given: &Record, memory: &mut Memory, timed: Record) -> Record {
        let at = self.vector();
        let early = (self.0 == VectorBeforePushes).then(|| at.map(|address| memory.read(address)));
        let mut s = given.s;
        for (index, byte) in self.pushed(given).into_iter().enumerate() {
            memory.write(s.into(), byte);
            s = s.wrapping_sub(u16::from(self.0 != SStays || index > 0));
        }
        let mut read = early.unwrap_or_else(|| at.map(|address| memory.read(address)));
        if self.0 == VectorLowByteFirst {
            read.reverse();
        }
        let (t, p) = (given.t & 0xFD, u16::from_be_bytes(read));
        self.left(given, Record { s, t, p, is_halted: false, ..timed })
    }

    /// Where the vector's two bytes are read, in order.
    fn vector(&self) -> [u32; 2] {
        match self.0 {
            VectorOfIr1 => [0xFFFA, 0xFFFB],
            VectorOfIr2 => [0xFFF8, 0xFFF9],
            VectorFE => [0xFFFE, 0xFFFF],
            VectorLowByteFirst => [0xFFFD, 0xFFFC],
            _ => [0xFFFC, 0xFFFD],
        }
    }

    /// The bytes that are pushed, in order.
    fn pushed(&self, given: &Record) -> [u8; 3] {
        let [high, low] = given.p.wrapping_add(u16::from(self.0 == NextPIsPushed)).to_be_bytes();
        let t = match self.0 {
            IeIsClearedFirst => given.t & 0xFD,
            IeIsPushedSet => given.t | 0x02,
            UpperBitsAreLost => given.t & 0x1F,
            _ => given.t,
        };
        match self.0 {
            PBeforeT => [low, high, t],
            HighByteFirst => [t, high, low],
            _ => [t, low, high],
        }
    }

    /// The flags, T and the timer part.
    fn left(&self, given: &Record, entered: Record) -> Record {
        let mut r = entered;
        match self.0 {
            Ir1IsCleared => r.ir1 = false,
            Ir2IsCleared => r.ir2 = false,
            IeStays => r.t = given.t,
            HaltedStays => r.is_halted = given.is_halted,
            TIsCleared => r.t = 0,
            NoTimerPart => {
                (r.tm, r.is_timer_reached) = (given.tm, false);
                r.step_previous_state = given.step_previous_state;
            }
            ReachedStays if given.is_timer_reached => {
                (r.ir1, r.is_timer_reached) = (given.ir1, true);
            }
            ReachedIsLost => r.ir1 = given.ir1,
            _ => {}
        }
        r
    }

    /// Adds the states that the entry should not have, and tells them.
    fn spend(&self, next: &Call, record: &mut Record) -> u64 {
        let states = match self.0 {
            OneState => 1,
            VectorStates => 13,
            IdleStates if next.record.is_halted => next.inputs.idle.into(),
            _ => 0,
        };
        record.timer_state = record.timer_state.wrapping_add(states);
        record.ticks = record.ticks.wrapping_add(states);
        states
    }
}

/// The record with timer reached moved to IR1, and after the model's timer part, which a unit has that
/// is on.
fn timed(next: &Call) -> Record {
    let on = Record { bf: true, ..next.record };
    let one = Model::default().call(&Call { record: on, bus_log: None, ..next.clone() });
    let Record { tm, is_timer_reached, step_previous_state, .. } = one.record;
    let ir1 = next.record.ir1 || next.record.is_timer_reached;
    Record { ir1, tm, is_timer_reached, step_previous_state, ..next.record }
}

/// The first of these calls that shows the fault.
fn first(fault: Fault, calls: impl Iterator<Item = Call>) -> Option<Call> {
    let mut comparison = Comparison::new(Box::new(Wrong(fault)));
    let mut calls = calls;
    calls.find(|call| comparison.differs(call))
}

fn directed() -> impl Iterator<Item = Call> {
    ir0::groups().into_iter().flat_map(|(_, calls)| calls)
}

fn random() -> impl Iterator<Item = Call> {
    (0..5000).map(|index| stop_addresses::call(&mut Random::new(1, index)))
}

#[test]
fn without_a_fault_nothing_is_found() {
    assert_eq!(first(Nothing, directed().step_by(3)), None);
    assert_eq!(first(Nothing, random().take(2000)), None);
}

#[test]
fn each_fault_is_found_by_the_directed_calls() {
    for fault in FAULTS {
        assert!(first(fault, directed()).is_some(), "{fault:?}");
    }
}

#[test]
fn each_fault_is_found_by_the_random_calls() {
    for fault in FAULTS {
        assert!(first(fault, random()).is_some(), "{fault:?}");
    }
}

/// At most two steps, a log of few entries, and few bytes that are not zero.
#[test]
fn each_fault_is_made_small() {
    for fault in FAULTS {
        let failing = first(fault, random()).unwrap();
        let mut comparison = Comparison::new(Box::new(Wrong(fault)));
        let small = shrink(failing, &mut |call| comparison.differs(call));
        let bytes = small.pages.iter().flatten().filter(|byte| **byte != 0).count();
        let length = small.bus_log.as_ref().map_or(0, |log| log.entries.len());
        let is_small = small.limit <= 2 && bytes <= 6 && length <= 9;
        assert!(is_small, "{fault:?}\n{}", describe(&small));
    }
}
