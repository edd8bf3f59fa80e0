//! A halted unit (document 02, F-1): directed calls, and waiting steps by hand.

#![forbid(unsafe_code)]

use crate::call::{Call, Inputs, Record};

/// The flags that decide what kind a step is: halted, BF, IR0, IR1, IR2, timer reached.
const DECIDING: [u16; 6] = [0x001, 0x008, 0x020, 0x040, 0x080, 0x100];

/// Three steps with each of the 256 idle figures, under every state of the deciding flags, with IE
/// clear and set. The first step, where it waits, ends at a timer difference of 41, of 42, or of the
/// figure itself; the next shift ends in 1FF.
pub fn calls() -> impl Iterator<Item = Call> {
    let figures = (0..=255_u8).flat_map(|idle| starts(idle).map(move |start| (idle, start)));
    figures.flat_map(|(idle, timer_state)| {
        let states = (0..64_u16).flat_map(|state| [0x00, 0x02].map(|t| (state, t)));
        states.map(move |(state, t)| call(idle, timer_state, state, t))
    })
}

/// Timer states before such a first step, with previous 0. Those of a figure above 42 wrap: the step
/// begins before previous and ends behind it.
fn starts(idle: u8) -> impl Iterator<Item = u64> {
    [41, 42].map(|end: u64| end.wrapping_sub(idle.into())).into_iter().chain([0])
}

/// Bit i of the state is the i-th deciding flag. Page 0 has room for what an entry pushes.
fn call(idle: u8, timer_state: u64, state: u16, t: u8) -> Call {
    let set = (0..6).filter(|i| state >> i & 1 == 1).map(|i| DECIDING[i]);
    let mut record = Record { t, s: 2, tm: 0x1FE, timer_state, ticks: 7, ..Record::default() };
    record.set_flags(set.sum());
    let pages = [vec![0x38; 4], vec![]];
    Call {
        record,
        inputs: Inputs { idle, ..Inputs::default() },
        limit: 3,
        pages,
        ..Call::default()
    }
}

#[cfg(test)]
mod tests {
    use super::{call, calls};
    use crate::call::{Answer, Call, Inputs, Record, Side};
    use crate::compare::difference;
    use crate::first_step;
    use crate::model::Model;
    use crate::original::Original;
    #[cfg(feature = "port")]
    use crate::port::Port;

    /// The library's run call as a side. It has no log.
    struct Bare;

    impl Side for Bare {
        fn name(&self) -> &'static str {
            "bare"
        }

        fn call(&mut self, call: &Call) -> Answer {
            first_step::call(call, run_bare)
        }
    }

    fn run_bare(call: &Call) -> Answer {
        let mut machine = bare::Pc1500::new(&call.record, call.inputs, call.pages.clone());
        let bare::Returned { number, byte, steps, states } =
            machine.original_run(call.limit, &mut ());
        let record = machine.lh5801.record();
        let pages = [machine.page0, machine.page1];
        Answer { number, byte, steps, states, record, pages, ..Answer::default() }
    }

    fn sides() -> Vec<Box<dyn Side>> {
        vec![
            Box::new(Original),
            Box::new(Bare),
            Box::new(Model::default()),
            #[cfg(feature = "port")]
            Box::new(Port),
        ]
    }

    /// Halted, BF set, nothing requested; a shift makes 0AA of TM.
    fn parked() -> Record {
        let (timer_state, step_previous_state, ticks) = (1000, 1000, 77);
        let record = Record { timer_state, step_previous_state, ticks, ..Record::default() };
        Record { is_halted: true, bf: true, p: 0x1234, s: 0x0200, tm: 0x155, ..record }
    }

    /// After so many states, no shift among them.
    fn passed(record: Record, states: u64) -> Record {
        let (timer_state, ticks) = (record.timer_state + states, record.ticks + states);
        Record { timer_state, ticks, ..record }
    }

    /// Holds the answer of every side to a call on no pages: number, completed steps, their states,
    /// record and, where the side tells them, the number of accesses.
    fn hold(record: Record, idle: u8, expected: (u8, u64, u64, Record), accesses: usize) {
        let limit = expected.1.max(1) as u32;
        let inputs = Inputs { idle, ..Inputs::default() };
        let call = Call { record, inputs, limit, ..Call::default() };
        for mut side in sides() {
            let answer = side.call(&call);
            let Answer { number, steps, states, record, .. } = answer;
            let name = side.name();
            assert_eq!((number, steps, states, record), expected, "{name}, idle {idle}");
            assert_eq!((answer.byte, answer.failure), (0, None), "{name}, idle {idle}");
            if let Some(log) = answer.log {
                assert_eq!(log.accesses.len(), accesses, "{name}, idle {idle}");
            }
        }
    }

    /// The figure's states on timer states and ticks, no access; one shift from 42 states on, at 84
    /// and 255 too, and none at 41.
    #[test]
    fn a_waiting_step_of_each_figure() {
        for idle in 1..=255 {
            let states = u64::from(idle);
            let after = passed(parked(), states);
            let shifted = Record { tm: 0x0AA, step_previous_state: 1000 + states, ..after };
            hold(parked(), idle, (0, 1, states, if idle < 42 { after } else { shifted }), 0);
        }
    }

    /// The difference counts what passed before the step: 1 state after 41 shifts, after 40 not.
    #[test]
    fn the_difference_goes_on_through_waiting_steps() {
        let given = Record { step_previous_state: 960, ..parked() };
        hold(given, 1, (0, 1, 1, passed(given, 1)), 0);
        let given = Record { step_previous_state: 959, ..parked() };
        let shifted = Record { tm: 0x0AA, step_previous_state: 1001, ..passed(given, 1) };
        hold(given, 1, (0, 1, 1, shifted), 0);
    }

    #[test]
    fn counters_wrap() {
        let (timer_state, step_previous_state) = (u64::MAX - 40, u64::MAX - 40);
        let given = Record { timer_state, step_previous_state, ticks: u64::MAX, ..parked() };
        let after = Record { timer_state: 0, ticks: 40, ..given };
        hold(given, 41, (0, 1, 41, after), 0);
        let after =
            Record { timer_state: 1, ticks: 41, tm: 0x0AA, step_previous_state: 1, ..given };
        hold(given, 42, (0, 1, 42, after), 0);
    }

    /// With IE clear reached becomes IR1, and the same step's shift may set reached again.
    #[test]
    fn timer_reached_moves_to_ir1() {
        let given = Record { is_timer_reached: true, ..parked() };
        let moved = Record { is_timer_reached: false, ir1: true, ..given };
        hold(given, 2, (0, 1, 2, passed(moved, 2)), 0);
        let given = Record { tm: 0x1FE, ..given };
        let again = Record { is_timer_reached: true, ir1: true, tm: 0x1FF, ..given };
        let again = Record { step_previous_state: 1042, ..passed(again, 42) };
        hold(given, 42, (0, 1, 42, again), 0);
    }

    /// With requests, IE clear, a halted step waits; IR1 and IR2 stay.
    #[test]
    fn requests_without_ie_wait() {
        let given = Record { ir1: true, ir2: true, t: 0x1D, ..parked() };
        hold(given, 7, (0, 1, 7, passed(given, 7)), 0);
    }

    /// The step that stops is undone: reached is still set.
    #[test]
    fn with_0_a_halted_step_stops_with_7() {
        hold(parked(), 0, (7, 0, 0, parked()), 0);
        let reached = Record { is_timer_reached: true, ..parked() };
        hold(reached, 0, (7, 0, 0, reached), 0);
    }

    /// T and P pushed, the vector read: five accesses and no states. Empty pages read FF.
    fn entered(given: Record) -> Record {
        let after = Record { is_halted: false, is_timer_reached: false, ir1: false, ..given };
        Record { t: 0x00, s: given.s - 3, p: 0xFFFF, ..after }
    }

    #[test]
    fn reached_with_ie_is_an_entry_and_no_wait() {
        let given = Record { is_timer_reached: true, t: 0x02, ..parked() };
        for idle in [0, 1, 42, 255] {
            hold(given, idle, (0, 1, 0, entered(given)), 5);
        }
    }

    /// Two waiting steps of 21 states reach 1FF, and the step after them is the timer's entry.
    #[test]
    fn the_timer_wakes_the_unit() {
        let given = Record { tm: 0x1FE, t: 0x02, ..parked() };
        let reached = Record { tm: 0x1FF, is_timer_reached: true, ..passed(given, 42) };
        let reached = Record { step_previous_state: 1042, ..reached };
        hold(given, 21, (0, 2, 42, reached), 0);
        hold(given, 21, (0, 3, 42, entered(reached)), 5);
    }

    /// No states, and reached moves; IE set or clear.
    #[test]
    fn ir0_is_an_entry_and_no_wait() {
        for (t, idle) in [(0x00, 0), (0x02, 0), (0x00, 42), (0x02, 255)] {
            let given = Record { ir0: true, is_timer_reached: true, t, ..parked() };
            let after = Record { ir0: false, ir1: true, ..entered(given) };
            hold(given, idle, (0, 1, 0, after), 5);
        }
    }

    /// Eight states, no timer part, and reached stays.
    #[test]
    fn bf_clear_is_8_states_and_no_wait() {
        for idle in [0, 2, 42, 255] {
            let given = Record { bf: false, is_timer_reached: true, ..parked() };
            let given = Record { step_previous_state: 900, ..given };
            hold(given, idle, (0, 1, 8, passed(given, 8)), 0);
        }
    }

    /// HLT is an instruction of 9 states; the steps after it wait.
    #[test]
    fn a_unit_parks_itself() {
        let record = Record { bf: true, ..Record::default() };
        let pages = [vec![0xFD, 0xB1], vec![]];
        let inputs = Inputs { idle: 5, ..Inputs::default() };
        let call = Call { record, inputs, limit: 4, pages, ..Call::default() };
        for mut side in sides() {
            let answer = side.call(&call);
            assert_eq!((answer.number, answer.steps, answer.states), (0, 4, 9 + 3 * 5));
            assert_eq!((answer.record.p, answer.record.is_halted), (2, true));
        }
    }

    #[test]
    fn directed_calls_are_answered_alike() {
        let mut sides = sides();
        for call in calls().step_by(7) {
            let answers: Vec<Answer> = sides.iter_mut().map(|side| side.call(&call)).collect();
            for answer in &answers[1..] {
                let unordered = Answer { log: None, ..answer.clone() };
                assert_eq!(difference(&answers[0], &unordered), None, "{call:?}");
            }
        }
    }

    /// Each kind of a first step among the directed calls.
    #[test]
    fn directed_calls_have_every_kind_of_step() {
        let states = |state, t| {
            let call = Call { limit: 1, ..call(42, 0, state, t) };
            (Original.call(&call).number, Original.call(&call).states)
        };
        assert_eq!(states(0b000011, 0x00), (0, 42));
        assert_eq!(states(0b000001, 0x00), (0, 8));
        assert_eq!(states(0b000111, 0x00), (0, 0));
        assert_eq!(states(0b100011, 0x02), (0, 0));
        assert_eq!(states(0b000010, 0x00), (0, 5));
        assert_eq!(calls().count(), 256 * 64 * 2 * 3);
    }
}
