//! A call's first step with IR0 set (document 02, F-6), which is no step of the original.
//!
//! The original does nothing while IR0 is set; document 02 has the unit enter IR0's routine, and claims
//! agreement with the original for steps that begin with IR0 clear. After a step IR0 is set only where
//! BF is clear (of the port that is a proved law, `reaches_off`; a step of the original sets neither),
//! so only a call's first step ever begins with both. That step is made here by the model alone: with the model
//! on the other side it is compared with itself. The original goes on from the record, the pages, the
//! log, the steps, the states and the accesses that it has left. With BF clear such a step is the
//! original's own, as ever.

#![forbid(unsafe_code)]

use crate::call::{refusal, Answer, Call, Side};
use crate::model::Model;

/// The answer to a call of which the original makes the steps: all of them, or those behind IR0's
/// entry.
pub fn call(call: &Call, original: impl FnOnce(&Call) -> Answer) -> Answer {
    let lengths = [call.pages[0].len(), call.pages[1].len()];
    let is_refused = refusal(lengths, call.record.tm, call.limit).is_some();
    if is_refused || !call.record.enters_ir0() {
        return original(call);
    }
    let mut next = Call { limit: 1, ..call.clone() };
    let mut answer = Model::default().call(&next);
    if answer.number == 0 && call.limit > 1 {
        next.go_on(&mut answer);
        next.limit = call.limit - 1;
        answer.join(original(&next));
    }
    answer
}

#[cfg(test)]
mod tests {
    use crate::call::{Access, BusLog, Call, Record, Side};
    use crate::compare::{difference, ordered_original};
    use crate::model::Model;
    use crate::original::Original;

    /// IR0 and IR1 requested with IE set; each routine sets IE again and returns.
    fn requested() -> Call {
        let record = Record { bf: true, ir0: true, ir1: true, t: 0x02, ..Record::default() };
        let record = Record { s: 0x0080, p: 0x0010, timer_state: 42, tm: 0x0AA, ..record };
        let mut page = vec![0x38; 65_536];
        page[0xFFFA..0xFFFE].copy_from_slice(&[0x00, 0x40, 0x00, 0x50]);
        page[0x0040] = 0x8A;
        page[0x0050..0x0053].copy_from_slice(&[0xFD, 0x81, 0x8A]);
        let bus_log = Some(BusLog { entries: vec![7; 60], used: 3 });
        Call { record, limit: 6, pages: [page, vec![]], bus_log, ..Call::default() }
    }

    /// The entry of IR0, SIE, the entry of IR1, RTI, RTI, NOP: all but the first are the original's.
    #[test]
    fn the_original_goes_on_behind_the_entry() {
        let call = requested();
        for limit in 1..=6 {
            let call = Call { limit, ..call.clone() };
            let (original, model) = (ordered_original(&call), Model::default().call(&call));
            assert_eq!(difference(&original, &model), None, "{limit}");
            assert_eq!(original.steps, limit.into());
        }
        let log = Original.call(&call).log.unwrap();
        assert_eq!(log.starts, [0, 5, 7, 12, 16, 20]);
        let pushed = [(0x0080, 0x02), (0x007F, 0x10), (0x007E, 0x00)];
        let pushed = pushed.map(|(at, byte)| Access::write(at, byte));
        assert_eq!(log.step(0)[..3], pushed);
        assert_eq!(log.step(0)[3..], [Access::read(0xFFFC, 0x00), Access::read(0xFFFD, 0x50)]);
        // The original reads a vector's low byte first: the step that it makes is not in order yet.
        assert_eq!(log.step(2)[3..], [Access::read(0xFFFB, 0x40), Access::read(0xFFFA, 0x00)]);
        assert_eq!(log.vectors, [3]);
    }

    /// 1 to 4 and 11 come before the entry; with BF clear the original makes the step itself.
    #[test]
    fn calls_without_the_entry() {
        let call = requested();
        let mut calls = [0; 4].map(|_| call.clone());
        calls[0].limit = 0;
        calls[1].record.tm = 512;
        calls[2].bus_log = Some(BusLog { entries: vec![7; 6], used: 0 });
        calls[3].record.bf = false;
        for (call, (number, steps)) in calls.iter().zip([(4, 0), (3, 0), (11, 0), (0, 6)]) {
            let (original, model) = (Original.call(call), Model::default().call(call));
            assert_eq!(difference(&original, &model), None);
            assert_eq!((original.number, original.steps), (number, steps));
            assert_eq!(original.record.ir0, call.record.ir0);
        }
    }
}
