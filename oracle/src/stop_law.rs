//! A run with a stop address beside the same run without one (document 02, F-5): it is the same up
//! to its end, or up to the first instruction that was due at the address.

#![forbid(unsafe_code)]

use crate::call::{Answer, Call, Side};
use crate::compare::difference;
use crate::stop_counts::begun;

/// What is wrong with a side's answer to this call, beside its answer to the call without the stop
/// address. Where it ends with 12 that call has as many steps as were completed, and ends with 0.
pub fn broken(call: &Call, answer: &Answer, side: &mut dyn Side) -> Option<String> {
    let address = call.inputs.stop_address?;
    if let Some(place) = passed(address, answer) {
        return Some(format!("step {place} executes the instruction at the stop address"));
    }
    let is_stop = answer.number == 12;
    if is_stop && (answer.byte != 0 || answer.record.p != address) {
        return Some("the number 12 with a byte, or with P elsewhere".to_string());
    }
    let without = match answer.steps {
        0 if is_stop => untouched(call),
        steps if is_stop => side.call(&plain(call, steps as u32)),
        _ => side.call(&plain(call, call.limit)),
    };
    let number = if is_stop { 0 } else { answer.number };
    let how = difference(&Answer { number, ..answer.clone() }, &without);
    how.map(|how| format!("with a stop address and without one: {how}"))
}

/// The call without its stop address, and of so many steps.
fn plain(call: &Call, limit: u32) -> Call {
    Call { inputs: call.inputs.without_stop(), limit, ..call.clone() }
}

/// What a call is given, as an answer of no steps.
fn untouched(call: &Call) -> Answer {
    Answer::refused(call, 0)
}

/// The completed step that executes an instruction at this address. A side that does not tell its
/// accesses tells none.
fn passed(address: u16, answer: &Answer) -> Option<usize> {
    let steps = begun(answer, answer.log.as_ref()?);
    steps.iter().position(|step| step.p == address && step.is_instruction())
}

#[cfg(test)]
mod tests {
    use super::broken;
    use crate::call::{Answer, Call, Inputs, Record, Side};
    use crate::original::Original;

    /// Three NOPs, with the stop address behind the second.
    fn call() -> Call {
        let inputs = Inputs { stop_address: Some(2), ..Inputs::default() };
        let record = Record { bf: true, ..Record::default() };
        Call { record, inputs, limit: 3, pages: [vec![0x38; 3], vec![]], ..Call::default() }
    }

    #[test]
    fn the_law_holds_of_the_original() {
        for (address, limit) in [(0, 3), (1, 3), (2, 3), (2, 2), (7, 3), (7, 0)] {
            let mut call = Call { limit, ..call() };
            call.inputs.stop_address = Some(address);
            assert_eq!(broken(&call, &Original.call(&call), &mut Original), None);
        }
    }

    #[test]
    fn other_answers_break_it() {
        let right = Original.call(&call());
        let wrong: [fn(&mut Answer); 5] = [
            |answer| answer.number = 0,
            |answer| answer.steps -= 1,
            |answer| answer.states += 1,
            |answer| answer.record.p += 1,
            |answer| answer.byte = 0x38,
        ];
        for change in wrong {
            let mut answer = right.clone();
            change(&mut answer);
            assert!(broken(&call(), &answer, &mut Original).is_some());
        }
    }

    /// The answer without the address, taken for the one with it, has passed the address.
    #[test]
    fn a_run_that_has_passed_the_address_breaks_it() {
        let mut plain = call();
        plain.inputs.stop_address = None;
        let how = broken(&call(), &Original.call(&plain), &mut Original);
        assert!(how.is_some_and(|how| how.starts_with("step 2 executes")));
    }
}
