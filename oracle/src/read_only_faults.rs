//! Read-only parts that are wrong on purpose: `compare` has to find each of them, among its directed
//! calls and among its random ones, and to make a small input of it.

#![forbid(unsafe_code)]

use crate::call::{refusal, Access, Answer, BusLog, Call, ReadOnly, Side};
use crate::compare::Comparison;
use crate::model::Model;
use crate::protect;
use crate::random::Random;
use crate::read_only;
use crate::shrink::{describe, shrink};
use crate::step_by_step::step_by_step;

#[derive(Clone, Copy, Debug, PartialEq, Eq)]
enum Fault {
    Nothing,
    /// Nothing is read-only; or nothing where the end is above page 0, or beyond the lent page.
    NoPart,
    NoPartWithAGreatEnd,
    NoPartBeyondThePage,
    EndInclusive,
    EndOneLess,
    FirstExclusive,
    FirstOneLess,
    /// The numbers modulo 65,536; or at most 65,535.
    EndIsCut,
    FirstIsCut,
    EndAtMostFFFF,
    /// The end is a length; the two numbers are exchanged.
    EndIsALength,
    NumbersAreExchanged,
    /// With the end at or below the first: the one byte; what lies between; what lies outside.
    EqualNumbersProtectAByte,
    ReversedNumbersProtect,
    ReversedNumbersWrap,
    /// With the end at 0 everything from the first on is protected.
    NoEndIsTheGreatest,
    /// Page 1's offsets are compared, always or with an end above 65,536; or its addresses.
    Page1ByOffset,
    Page1ByOffsetWithAGreatEnd,
    Page1ByAddress,
    /// A dropped write is missing in the sequence, in the log; it is a read in the log.
    MissingInTheSequence,
    MissingInTheLog,
    ReadInTheLog,
    /// The log has the byte that is there, and not the one that was to be written.
    OldByteInTheLog,
    /// S stays where a push is dropped.
    SStays,
    /// A vector is read from what was pushed and dropped: in the log alone, in its value alone.
    VectorReadsThePushInTheLog,
    VectorReadsThePush,
    /// A dropped write is stored by the next step; a step that drops one stops the call.
    StoredLater,
    DroppedWriteStops,
    /// A step with a dropped write takes no states.
    DroppedWriteTakesNoStates,
}

use Fault::*;

const FAULTS: [Fault; 29] = [
    NoPart,
    NoPartWithAGreatEnd,
    NoPartBeyondThePage,
    EndInclusive,
    EndOneLess,
    FirstExclusive,
    FirstOneLess,
    EndIsCut,
    FirstIsCut,
    EndAtMostFFFF,
    EndIsALength,
    NumbersAreExchanged,
    EqualNumbersProtectAByte,
    ReversedNumbersProtect,
    ReversedNumbersWrap,
    NoEndIsTheGreatest,
    Page1ByOffset,
    Page1ByOffsetWithAGreatEnd,
    Page1ByAddress,
    MissingInTheSequence,
    MissingInTheLog,
    ReadInTheLog,
    OldByteInTheLog,
    SStays,
    VectorReadsThePushInTheLog,
    VectorReadsThePush,
    StoredLater,
    DroppedWriteStops,
    DroppedWriteTakesNoStates,
];

/// The model under other numbers, or its steps, one by one, with something wrong in them.
struct Wrong(Fault);

impl Side for Wrong {
    fn name(&self) -> &'static str {
        "model with a wrong read-only part"
    }

    fn call(&mut self, call: &Call) -> Answer {
        let lengths = [call.pages[0].len(), call.pages[1].len()];
        if refusal(lengths, call.record.tm, call.limit).is_some() {
            return Model::default().call(call);
        }
        let read_only = self.part(call.read_only, lengths[0] as u32);
        if self.0 == MissingInTheSequence {
            return without_dropped(call);
        }
        if read_only != call.read_only {
            return Model::default().call(&Call { read_only, ..call.clone() });
        }
        self.steps(call)
    }
}

/// The model's answer without the dropped writes in its sequence.
fn without_dropped(call: &Call) -> Answer {
    let mut answer = Model::default().call(call);
    if let Some(log) = &mut answer.log {
        log.accesses.retain(|access| !is_dropped(call, access));
        log.completed = log.completed.min(log.accesses.len());
    }
    answer
}

/// A write that the read-only part drops, inside the page.
fn is_dropped(call: &Call, access: &Access) -> bool {
    let is_inside = (access.address() as usize) < call.pages[0].len();
    access.is_write() && is_inside && call.read_only.has(access.address())
}

impl Wrong {
    /// The part that this side takes for the one of the call.
    fn part(&self, part: ReadOnly, length: u32) -> ReadOnly {
        let ReadOnly { first, end } = part;
        let up_to = |end| ReadOnly { first, end };
        let from = |first| ReadOnly { first, end };
        match self.0 {
            NoPart => ReadOnly::default(),
            NoPartWithAGreatEnd if end > 65_536 => ReadOnly::default(),
            NoPartBeyondThePage if end > length => ReadOnly::default(),
            EndInclusive if first < end => up_to(end.saturating_add(1)),
            EndOneLess if first < end => up_to(end - 1),
            FirstExclusive => from(first.saturating_add(1)),
            FirstOneLess if first < end => from(first.saturating_sub(1)),
            EndIsCut => up_to(end % 65_536),
            FirstIsCut => from(first % 65_536),
            EndAtMostFFFF => up_to(end.min(65_535)),
            EndIsALength => up_to(first.saturating_add(end)),
            NumbersAreExchanged => ReadOnly { first: end, end: first },
            EqualNumbersProtectAByte if first == end && end > 0 => up_to(end.saturating_add(1)),
            ReversedNumbersProtect if end < first => ReadOnly { first: end, end: first },
            NoEndIsTheGreatest if end == 0 && first > 0 => up_to(u32::MAX),
            _ => part,
        }
    }

    /// The model's steps one by one. It tells its accesses in the log alone, as the port does.
    fn steps(&self, call: &Call) -> Answer {
        let sum = step_by_step(call, |next| {
            let mut one = Model::default().call(next);
            if one.steps == 1 {
                self.spoil(next, &mut one);
            }
            one
        });
        Answer { log: None, ..sum }
    }

    /// What is wrong in a completed step: first on the pages and in the record, then in the log.
    fn spoil(&self, before: &Call, one: &mut Answer) {
        let log = one.log.clone().unwrap_or_default();
        let dropped: Vec<_> =
            log.accesses.iter().filter(|access| is_dropped(before, access)).collect();
        match self.0 {
            ReversedNumbersWrap => wrap(before, one),
            Page1ByOffset | Page1ByOffsetWithAGreatEnd | Page1ByAddress => {
                self.keep_page_1(before, one)
            }
            SStays if stack_has_moved(before, one) => {
                one.record.s = one.record.s.wrapping_add(dropped.len() as u16);
            }
            VectorReadsThePush => one.record.p = vector(before, one).unwrap_or(one.record.p),
            StoredLater => dropped.iter().for_each(|access| {
                one.pages[0][access.address() as usize] = access.byte();
            }),
            DroppedWriteStops if !dropped.is_empty() => one.number = 5,
            DroppedWriteTakesNoStates if !dropped.is_empty() => one.states = 0,
            _ => self.spoil_log(before, one),
        }
    }

    /// Page 1's bytes in the part are put back.
    fn keep_page_1(&self, before: &Call, one: &mut Answer) {
        let ReadOnly { first, end } = before.read_only;
        for offset in 0..before.pages[1].len() {
            let at = match self.0 {
                Page1ByAddress => offset as u32 + 65_536,
                _ => offset as u32,
            };
            let is_meant = self.0 != Page1ByOffsetWithAGreatEnd || end > 65_536;
            if is_meant && first <= at && at < end {
                one.pages[1][offset] = before.pages[1][offset];
            }
        }
    }

    /// Another list of the step's entries, in the bus log.
    fn spoil_log(&self, before: &Call, one: &mut Answer) {
        let (Some(given), Some(log)) = (&before.bus_log, one.log.clone()) else { return };
        let old = |access: &Access| before.pages[0][access.address() as usize];
        let entries = log.accesses.iter().enumerate().filter_map(|(place, access)| match self.0 {
            _ if !is_dropped(before, access) => {
                Some(self.entry(before, &log.accesses, &log.vectors, place))
            }
            MissingInTheLog => None,
            ReadInTheLog => Some(Access::read(access.address(), access.byte())),
            OldByteInTheLog => Some(Access::write(access.address(), old(access))),
            _ => Some(*access),
        });
        let mut other: BusLog = given.clone();
        other.append(&entries.collect::<Vec<_>>());
        one.bus_log = Some(other);
    }

    /// An access that is no dropped write.
    fn entry(&self, before: &Call, step: &[Access], vectors: &[usize], place: usize) -> Access {
        let is_vector = vectors.iter().any(|first| place == *first || place == first + 1);
        let access = step[place];
        if self.0 != VectorReadsThePushInTheLog || !is_vector {
            return access;
        }
        let byte = pushed(before, step, access.address()).unwrap_or(access.byte());
        Access::read(access.address(), byte)
    }
}

/// With the end below the first everything from the first on, and below the end, is put back.
fn wrap(before: &Call, one: &mut Answer) {
    let ReadOnly { first, end } = before.read_only;
    for offset in 0..before.pages[0].len() {
        let at = offset as u32;
        if end < first && (first <= at || at < end) {
            one.pages[0][offset] = before.pages[0][offset];
        }
    }
}

/// S is lower after the step: it has pushed.
fn stack_has_moved(before: &Call, one: &Answer) -> bool {
    (1..4).contains(&before.record.s.wrapping_sub(one.record.s))
}

/// The last byte that the step has pushed to this address and that was dropped.
fn pushed(before: &Call, step: &[Access], address: u32) -> Option<u8> {
    let mut writes = step.iter().rev().filter(|access| is_dropped(before, access));
    writes.find(|access| access.address() == address).map(Access::byte)
}

/// Where the step's vector goes, if it is read from what was pushed.
fn vector(before: &Call, one: &Answer) -> Option<u16> {
    let log = one.log.as_ref()?;
    let place = *log.vectors.first()?;
    let byte =
        |access: &Access| pushed(before, &log.accesses, access.address()).unwrap_or(access.byte());
    Some(u16::from_be_bytes([byte(&log.accesses[place]), byte(&log.accesses[place + 1])]))
}

/// The first of these calls that shows the fault.
fn first(fault: Fault, calls: impl Iterator<Item = Call>) -> Option<Call> {
    let mut comparison = Comparison::new(Box::new(Wrong(fault)));
    let mut calls = calls;
    calls.find(|call| comparison.differs(call))
}

fn directed() -> impl Iterator<Item = Call> {
    read_only::groups().into_iter().flat_map(|(_, calls)| calls)
}

fn random() -> impl Iterator<Item = Call> {
    (0..5000).map(|index| protect::call(&mut Random::new(1, index)))
}

#[test]
fn without_a_fault_nothing_is_found() {
    assert_eq!(first(Nothing, directed().step_by(11)), None);
    assert_eq!(first(Nothing, random().take(500)), None);
}

#[test]
fn each_fault_is_found_by_the_directed_calls() {
    for fault in FAULTS {
        assert!(first(fault, directed()).is_some(), "{fault:?}");
    }
}

#[test]
fn each_fault_is_found_by_the_random_calls() {
    for fault in FAULTS {
        assert!(first(fault, random()).is_some(), "{fault:?}");
    }
}

/// At most two steps, a log of few entries, and few bytes that are not zero.
#[test]
fn each_fault_is_made_small() {
    for fault in FAULTS {
        let failing = first(fault, random()).unwrap();
        let mut comparison = Comparison::new(Box::new(Wrong(fault)));
        let small = shrink(failing, &mut |call| comparison.differs(call));
        let bytes = small.pages.iter().flatten().filter(|byte| **byte != 0).count();
        let length = small.bus_log.as_ref().map_or(0, |log| log.entries.len());
        let is_small = small.limit <= 2 && bytes <= 6 && length <= 9;
        assert!(is_small, "{fault:?}\n{}", describe(&small));
    }
}
