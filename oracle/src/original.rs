//! The original `lh5801.rs`, included unchanged but for one name, over the flat memory.
//!
//! What is the original's own: a completed step, a waiting one too, and stops 5 and 6, which are
//! its panics, and every access. What is this harness's own: 1 to 4, 7, 11 and 12, the undoing of
//! a step that stops, the bus log's entries, made of those accesses, the states that a halted step
//! adds (`halted_states`, the one place where the build changes the included text), and everything
//! that the file expects of the machine around it. IR0's entry, a call's first step, is the model's
//! (`first_step.rs`).

#![forbid(unsafe_code)]

use std::any::Any;
use std::cell::Cell;
use std::panic::{catch_unwind, set_hook, take_hook, AssertUnwindSafe};
use std::sync::Once;

use self::lh5801::Lh5801;
use crate::call::{refusal, Answer, BusLog, Call, Inputs, Record, Side};
use crate::first_step;
use crate::memory::Memory;
use bare::Keyboard;

/// The included file. Only code of this module reaches its private fields and functions.
#[allow(dead_code, unused, clippy::all, clippy::pedantic)]
mod lh5801 {
    include!(env!("LH5801_RS_PATH"));

    include!("unit.rs");

    impl Lh5801 {
        pub fn set_a_and_t(&mut self, a: u8, t: u8) {
            self.a = a;
            self.t = t;
        }
    }

    /// The private arithmetic, for `oracle arithmetic`. Each acts on A and T of the unit.
    impl Pc1500 {
        pub fn original_adc(&mut self, operand: u8) {
            self.adc(operand);
        }
        pub fn original_sbc(&mut self, operand: u8) {
            self.sbc(operand);
        }
        pub fn original_cpa(&mut self, operand: u8) {
            self.cpa(self.lh5801.a, operand);
        }
        pub fn original_dca(&mut self, operand: u8) {
            self.dca(operand);
        }
        pub fn original_dcs(&mut self, operand: u8) {
            self.dcs(operand);
        }
        pub fn original_and(&mut self, operand: u8) {
            self.and(operand);
        }
        pub fn original_ora(&mut self, operand: u8) {
            self.ora(operand);
        }
        pub fn original_eor(&mut self, operand: u8) {
            self.eor(operand);
        }
        pub fn original_bit(&mut self, operand: u8) {
            self.bit(self.lh5801.a, operand);
        }
        pub fn original_lda(&mut self, operand: u8) {
            self.lda(operand);
        }
        pub fn original_inc(&mut self) {
            self.lh5801.a = self.inc(self.lh5801.a);
        }
        pub fn original_dec(&mut self) {
            self.lh5801.a = self.dec(self.lh5801.a);
        }
        pub fn original_rol(&mut self) {
            self.rol();
        }
        pub fn original_ror(&mut self) {
            self.ror();
        }
        pub fn original_shl(&mut self) {
            self.shl();
        }
        pub fn original_shr(&mut self) {
            self.shr();
        }
        pub fn original_check_z(&mut self, operand: u8) {
            self.check_z(operand);
        }
        pub fn original_add(&mut self, left: u8, right: u8, carry: bool) -> u8 {
            self.add_generic(left, right, carry)
        }
        pub fn original_decimaladd(&mut self, left: u8, right: u8, carry: bool) -> u8 {
            self.decimaladd_generic(left, right, carry)
        }
        pub fn original_adr(&mut self, reg: u16) -> u16 {
            self.adr(reg)
        }
    }
}

/// The machine that the included file is written over.
pub struct Pc1500 {
    pub lh5801: Lh5801,
    pub keyboard: Keyboard,
    /// What `halted_states` gives.
    pub idle: u8,
    pub memory: Memory,
}

impl Pc1500 {
    pub fn new(record: &Record, inputs: Inputs, pages: [Vec<u8>; 2]) -> Pc1500 {
        Pc1500::over(record, inputs, Memory::new(pages))
    }

    pub fn over(record: &Record, inputs: Inputs, memory: Memory) -> Pc1500 {
        let keyboard = Keyboard { byte: inputs.keyboard };
        Pc1500 { lh5801: Lh5801::from_record(record), keyboard, idle: inputs.idle, memory }
    }

    /// Makes ready for steps from this record.
    pub fn begin(&mut self, record: &Record) {
        self.lh5801 = Lh5801::from_record(record);
    }

    #[inline]
    pub fn read_byte(&self, address: u32) -> u8 {
        self.memory.read(address)
    }

    #[inline]
    pub fn write_byte(&mut self, address: u32, byte: u8) {
        self.memory.write(address, byte);
    }

    pub fn host_trap(&mut self) -> bool {
        false
    }

    /// So many steps of the original and nothing else: no stop is looked for.
    #[inline(never)]
    pub fn logged_steps(&mut self, steps: u32) {
        for _ in 0..steps {
            self.step_cpu();
        }
    }
}

/// Why a step of the original did not complete.
enum Panicked {
    Illegal { number: u8, byte: u8 },
    Other(String),
}

thread_local! {
    /// Set while a step of the original runs: its panics are answers and print nothing.
    static SILENT: Cell<bool> = const { Cell::new(false) };
}

fn install_silent_hook() {
    static INSTALLED: Once = Once::new();
    INSTALLED.call_once(|| {
        let previous = take_hook();
        set_hook(Box::new(move |info| {
            if !SILENT.get() {
                previous(info);
            }
        }));
    });
}

/// Reads the stop from a panic's message.
fn panicked(payload: &(dyn Any + Send)) -> Panicked {
    let text = payload.downcast_ref::<String>().map(String::as_str);
    let message = text.or_else(|| payload.downcast_ref::<&str>().copied());
    let message = message.unwrap_or("a panic without a message");
    let starts = [(5, "Illegal opcode: 0x"), (6, "Illegal fd opcode: ")];
    for (number, start) in starts {
        let digits = message.strip_prefix(start).and_then(|rest| rest.get(..2));
        if let Some(byte) = digits.and_then(|digits| u8::from_str_radix(digits, 16).ok()) {
            return Panicked::Illegal { number, byte };
        }
    }
    Panicked::Other(message.to_string())
}

/// One `step_cpu`.
fn step(machine: &mut Pc1500) -> Result<(), Panicked> {
    machine.memory.begin_step();
    SILENT.set(true);
    let outcome = catch_unwind(AssertUnwindSafe(|| machine.step_cpu()));
    SILENT.set(false);
    outcome.map_err(|payload| panicked(payload.as_ref()))
}

#[derive(Default)]
pub struct Original;

/// The harness's own stops before a step: 11 before every step, then 7, with the idle figure 0
/// only, then 12, where an instruction is due at the stop address. Nothing is read for them.
fn stop(answer: &Answer, inputs: Inputs) -> Option<u8> {
    let record = &answer.record;
    if answer.bus_log.as_ref().is_some_and(BusLog::is_full) {
        return Some(11);
    }
    if record.begins_halted_step() && inputs.idle == 0 {
        return Some(7);
    }
    let is_there = inputs.stop_address == Some(record.p);
    (record.is_instruction_due() && is_there).then_some(12)
}

impl Original {
    /// Steps until the limit or a stop; leaves the number, byte, counts, record and log in the
    /// answer.
    fn run(machine: &mut Pc1500, call: &Call, answer: &mut Answer) {
        for _ in 0..call.limit {
            let before = machine.lh5801.record();
            answer.record = before;
            if let Some(number) = stop(answer, call.inputs) {
                answer.number = number;
                return;
            }
            if let Err(reason) = step(machine) {
                machine.memory.undo_step();
                match reason {
                    Panicked::Illegal { number, byte } => {
                        (answer.number, answer.byte) = (number, byte);
                    }
                    Panicked::Other(message) => answer.failure = Some(message),
                }
                return;
            }
            answer.record = machine.lh5801.record();
            answer.steps += 1;
            answer.waits += u64::from(before.begins_halted_step());
            answer.states += answer.record.timer_state.wrapping_sub(before.timer_state);
            if let Some(log) = &mut answer.bus_log {
                log.append(machine.memory.step());
            }
        }
    }

    /// A call of which the original makes every step.
    fn whole_call(call: &Call) -> Answer {
        let lengths = [call.pages[0].len(), call.pages[1].len()];
        if let Some(number) = refusal(lengths, call.record.tm, call.limit) {
            return Answer::refused(call, number);
        }
        let mut machine = Pc1500::over(&call.record, call.inputs, Memory::of(call));
        let mut answer = Answer { bus_log: call.bus_log.clone(), ..Answer::default() };
        Original::run(&mut machine, call, &mut answer);
        let (pages, log) = machine.memory.finish(answer.steps);
        Answer { pages, log: Some(log), ..answer }
    }
}

impl Side for Original {
    fn name(&self) -> &'static str {
        "original"
    }

    fn call(&mut self, call: &Call) -> Answer {
        install_silent_hook();
        first_step::call(call, Original::whole_call)
    }
}

#[cfg(test)]
mod tests {
    use std::fs;

    use super::{panicked, Original, Panicked, Pc1500};
    use crate::call::{Inputs, Record, Side};
    use crate::compare::{pages_difference, returned_difference, slices};
    use crate::random::{self, Random};
    use crate::stop_addresses;

    /// The included text is the original's but for the name in one line.
    #[test]
    fn one_line_of_the_included_text_is_changed() {
        let files = [env!("LH5801_RS_GIVEN"), env!("LH5801_RS_PATH")];
        let [given, included] = files.map(|file| fs::read_to_string(file).unwrap());
        assert_eq!(given.lines().count(), included.lines().count());
        let mut lines = given.lines().zip(included.lines());
        let (line, changed) = lines.find(|(given, included)| given != included).unwrap();
        assert_eq!(line.replace("halted_states", "halted_states_of_the_original"), changed);
        assert!(lines.all(|(given, included)| given == included));
    }

    #[test]
    fn another_panic_is_a_failure_of_its_own() {
        let fd = "Illegal fd opcode: 0A at 0002".to_string();
        assert!(matches!(panicked(&fd), Panicked::Illegal { number: 6, byte: 0x0A }));
        let first = "Illegal opcode: 0xff at PC: 0x0002".to_string();
        assert!(matches!(panicked(&first), Panicked::Illegal { number: 5, byte: 0xFF }));
        assert!(matches!(panicked(&"index out of bounds"), Panicked::Other(_)));
    }

    /// Tells a run of the library where to stop.
    struct At(Option<u16>);

    impl bare::Watch for At {
        fn stop_address(&self) -> Option<u16> {
            self.0
        }
    }

    /// The library's run call, which foretells 5 and 6, answers as the panics do. Half of the calls
    /// have a stop address, none begins with BF and IR0 set.
    #[test]
    fn the_bare_run_call_answers_as_the_panics_do() {
        for index in 0..3000 {
            let mut random = Random::new(11, index);
            let mut call = random::idle_call(&mut random);
            call.record.ir0 &= !call.record.bf;
            let call = stop_addresses::sometimes(&mut random, call);
            let panics = Original.call(&call);
            let mut bare = bare::Pc1500::new(&call.record, call.inputs, call.pages);
            let returned = bare.original_run(call.limit, &mut At(call.inputs.stop_address));
            assert_eq!(returned_difference(&returned, &bare.lh5801.record(), &panics), None);
            let pages = [bare.page0, bare.page1];
            assert_eq!(pages_difference(slices(&pages), slices(&panics.pages)), None);
        }
    }

    fn digits(value: u32) -> u8 {
        (value / 10 * 16 + value % 10) as u8
    }

    /// Document 01, "Arithmetic": DCA and DCS on valid digits.
    #[test]
    fn digit_laws_hold_of_the_original() {
        let mut machine = Pc1500::new(&Record::default(), Inputs::default(), [vec![], vec![]]);
        for i in 0..20_000 {
            let (a, operand, carry) = (i / 200, i / 2 % 100, i % 2);
            machine.lh5801.set_a_and_t(digits(a), carry as u8);
            machine.original_dca(digits(operand));
            let sum = a + operand + carry;
            assert_eq!(machine.lh5801.a(), digits(sum % 100));
            assert_eq!(u32::from(machine.lh5801.t() & 1), sum / 100);
            machine.lh5801.set_a_and_t(digits(a), carry as u8);
            machine.original_dcs(digits(operand));
            let rest = 100 + a + carry - operand - 1;
            assert_eq!(machine.lh5801.a(), digits(rest % 100));
            assert_eq!(u32::from(machine.lh5801.t() & 1), rest / 100);
        }
    }
}
