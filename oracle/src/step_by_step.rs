//! Calls made step by step, for the sides that are wrong on purpose.

#![forbid(unsafe_code)]

use crate::call::{Answer, Call, Log};

/// The call's steps, each of them answered by `step`, until one stops or the limit is reached.
pub fn step_by_step(call: &Call, mut step: impl FnMut(&Call) -> Answer) -> Answer {
    let mut next = Call { limit: 1, ..call.clone() };
    let mut sum = Answer { log: Some(Log::default()), ..Answer::default() };
    while sum.number == 0 && sum.steps < call.limit.into() {
        sum.join(step(&next));
        next.go_on(&mut sum);
    }
    let Call { record, pages, bus_log, .. } = next;
    Answer { record, pages, bus_log, ..sum }
}
