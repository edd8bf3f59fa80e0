//! A second implementation of a step and of a call, written from the text of documents 01 and 02.
//!
//! It is driven by the table of `opcodes.txt`; its flags come from sums, and its accesses are in
//! document 01's order, a vector's high byte first. Which writes are stored is its own rule. It
//! shares only the types and the memory's reads, list of accesses and undoing with the harness of
//! the original.

#![forbid(unsafe_code)]

use std::ops::Range;

use crate::call::{
    Access, Answer, BusLog, Call, Inputs, ReadOnly, Record, Side, GREATEST_LIMIT, GREATEST_PAGE,
    GREATEST_TM,
};
use crate::memory::Memory;
use crate::opcodes::{
    table, Combine, Condition, Entry, Kind, Line, Modify, Pair, Place, Shift, CARRY, HALF,
    INTERRUPT_ENABLE, OVERFLOW, ZERO,
};

/// An interrupt: the request's flag, which the entry clears, where its vector is, and whether it has
/// to wait for IE.
struct Interrupt {
    request: fn(&mut Record) -> &mut bool,
    vector: u32,
    wants_ie: bool,
}

/// IR0, IR1 and IR2. Where several are requested, the first of them that may be accepted is.
const INTERRUPTS: [Interrupt; 3] = [
    Interrupt { request: |record| &mut record.ir0, vector: 0xFFFC, wants_ie: false },
    Interrupt { request: |record| &mut record.ir1, vector: 0xFFFA, wants_ie: true },
    Interrupt { request: |record| &mut record.ir2, vector: 0xFFF8, wants_ie: true },
];

/// States after which the timer shifts.
const PERIOD: u64 = 42;

#[derive(Default)]
pub struct Model {
    /// Makes the model wrong on purpose, for the tests of the shrinker.
    #[cfg(test)]
    pub slip: Option<Slip>,
}

/// Two of document 01's "Where a port slips".
#[cfg(test)]
#[derive(Clone, Copy, PartialEq, Eq)]
pub enum Slip {
    ZeroFromCorrectedByte,
    LoopTestsAfterDecrement,
}

/// A stop before or inside a step: 11, 5, 6, 7 or 12, and the byte.
struct Stop {
    number: u8,
    byte: u8,
}

impl Side for Model {
    fn name(&self) -> &'static str {
        "model"
    }

    fn call(&mut self, call: &Call) -> Answer {
        if let Some(number) = refusal(call) {
            return Answer::refused(call, number);
        }
        let mut bus = Bus { memory: Memory::new(call.pages.clone()), kept: kept(call) };
        let bus_log = call.bus_log.clone();
        let mut answer = Answer { record: call.record, bus_log, ..Answer::default() };
        for _ in 0..call.limit {
            if let Err(stop) = self.next(call.inputs, &mut bus, &mut answer) {
                (answer.number, answer.byte) = (stop.number, stop.byte);
                break;
            }
        }
        let (pages, log) = bus.memory.finish(answer.steps);
        Answer { pages, log: Some(log), ..answer }
    }
}

/// Document 02, F-2: 11 comes before 5, 6 and 7, "when fewer than seven entries are free before a
/// step, or the used count is beyond the list".
fn check_room(log: &BusLog) -> Result<(), Stop> {
    let behind = log.used.checked_add(7);
    match behind.is_some_and(|behind| behind <= log.entries.len()) {
        true => Ok(()),
        false => Err(Stop { number: 11, byte: 0 }),
    }
}

/// "Each access of a completed step is appended in order: bit 25 is the write mark, bits 24 to 8
/// the address, bits 7 to 0 the byte, the rest zero."
fn append(log: &mut BusLog, accesses: &[Access]) {
    let free = &mut log.entries[log.used..];
    for (entry, access) in free.iter_mut().zip(accesses) {
        let mark = if access.is_write() { 33_554_432 } else { 0 };
        *entry = mark + 256 * access.address() + u32::from(access.byte());
    }
    log.used += accesses.len();
}

/// The memory, and the addresses where a write is stored.
struct Bus {
    memory: Memory,
    kept: [Range<u32>; 3],
}

impl Bus {
    /// Every write is an access; outside of these addresses it changes nothing.
    fn write(&mut self, address: u32, byte: u8) {
        self.memory.note_write(address, byte);
        if self.kept.iter().any(|addresses| addresses.contains(&address)) {
            self.memory.store(address, byte);
        }
    }
}

/// Document 02, F-4, the other way round: what is below the first, and from the end or the first on,
/// whichever is greater, as far as page 0 is lent; and page 1 as far as it is lent.
fn kept(call: &Call) -> [Range<u32>; 3] {
    let [length0, length1] = [0, 1].map(|page: usize| call.pages[page].len() as u32);
    let ReadOnly { first, end } = call.read_only;
    [0..length0.min(first), end.max(first)..length0, 65_536..65_536 + length1]
}

/// The conditions of 1 to 4, in document 01's order.
fn refusal(call: &Call) -> Option<u8> {
    let conditions = [
        call.pages[0].len() > GREATEST_PAGE,
        call.pages[1].len() > GREATEST_PAGE,
        call.record.tm > GREATEST_TM,
        !(1..=GREATEST_LIMIT).contains(&call.limit),
    ];
    (1..=4).find(|number| conditions[usize::from(*number) - 1])
}

impl Model {
    /// The next step of a call: what it adds to the answer, or a stop.
    fn next(&self, inputs: Inputs, bus: &mut Bus, answer: &mut Answer) -> Result<(), Stop> {
        answer.bus_log.as_ref().map_or(Ok(()), check_room)?;
        let step = self.step(answer.record, inputs, bus);
        if step.is_err() {
            bus.memory.undo_step();
        }
        let (record, states) = step?;
        answer.record = record;
        answer.states += states;
        answer.steps += 1;
        if let Some(log) = &mut answer.bus_log {
            append(log, bus.memory.step());
        }
        Ok(())
    }

    /// One step: the record after it and its states, or a stop.
    fn step(&self, record: Record, inputs: Inputs, bus: &mut Bus) -> Result<(Record, u64), Stop> {
        bus.memory.begin_step();
        let mut step = Step {
            r: record,
            inputs,
            bus,
            #[cfg(test)]
            slip: self.slip,
        };
        step.run()?;
        Ok((step.r, step.r.ticks.wrapping_sub(record.ticks)))
    }
}

/// A step under way: `r` is the record as the step has changed it so far.
struct Step<'a> {
    r: Record,
    inputs: Inputs,
    bus: &'a mut Bus,
    #[cfg(test)]
    slip: Option<Slip>,
}

/// The order of a step: document 01, "One step", with document 02's F-1, F-5 and F-6.
impl Step<'_> {
    fn run(&mut self) -> Result<(), Stop> {
        if !self.r.bf {
            self.spend(8);
            return Ok(());
        }
        if self.r.is_timer_reached {
            self.r.ir1 = true;
            self.r.is_timer_reached = false;
        }
        self.interrupt_or_instruction()?;
        if self.r.timer_state.wrapping_sub(self.r.step_previous_state) >= PERIOD {
            self.shift_timer();
        }
        Ok(())
    }

    fn interrupt_or_instruction(&mut self) -> Result<(), Stop> {
        let enabled = self.flag(INTERRUPT_ENABLE);
        let accepted = INTERRUPTS.iter().find(|interrupt| {
            *(interrupt.request)(&mut self.r) && (enabled || !interrupt.wants_ie)
        });
        match accepted {
            Some(interrupt) => self.enter(interrupt),
            None if self.r.is_halted => self.halted()?,
            None => self.instruction()?,
        }
        Ok(())
    }

    /// Document 02, F-1: "With 0 a halted step stops with 7 as before. With 1 to 255 it adds that
    /// many states". Timer reached has moved to IR1 by now, and the timer part comes after.
    fn halted(&mut self) -> Result<(), Stop> {
        match self.inputs.idle {
            0 => Err(Stop { number: 7, byte: 0 }),
            figure => {
                self.spend(u64::from(figure));
                Ok(())
            }
        }
    }

    /// Pushes T as it is, then clears IE and the request, pushes P and goes where the vector says. No
    /// states are added.
    fn enter(&mut self, interrupt: &Interrupt) {
        self.push(self.r.t);
        self.put_flag(INTERRUPT_ENABLE, false);
        *(interrupt.request)(&mut self.r) = false;
        self.push_word(self.r.p);
        self.r.p = self.vector_word(interrupt.vector);
        self.r.is_halted = false;
    }

    /// Document 02, F-5: "A run ends with P on it, before the opcode is read, even on the call's
    /// first step". Every other kind of step has gone another way by now.
    fn check_stop_address(&self) -> Result<(), Stop> {
        match self.inputs.stop_address {
            Some(address) if address == self.r.p => Err(Stop { number: 12, byte: 0 }),
            _ => Ok(()),
        }
    }

    fn instruction(&mut self) -> Result<(), Stop> {
        self.check_stop_address()?;
        let first = self.code();
        let Some(mut entry) = table()[0][usize::from(first)] else {
            return Err(Stop { number: 5, byte: first });
        };
        if entry.kind == Kind::Prefix {
            let second = self.code();
            entry = match table()[1][usize::from(second)] {
                Some(listed) => listed,
                None => return Err(Stop { number: 6, byte: second }),
            };
        }
        self.spend(entry.states);
        self.execute(first, entry);
        Ok(())
    }

    /// TM is a register of nine bits that shifts to the right.
    fn shift_timer(&mut self) {
        let bit = |i: u16| self.r.tm / (1 << i) % 2;
        let top = u16::from(bit(0) != bit(4));
        self.r.tm = self.r.tm / 2 + 256 * top;
        self.r.is_timer_reached = self.r.tm == 0x1FF;
        self.r.step_previous_state = self.r.timer_state;
    }

    /// States go on both counters.
    fn spend(&mut self, states: u64) {
        self.r.timer_state = self.r.timer_state.wrapping_add(states);
        self.r.ticks = self.r.ticks.wrapping_add(states);
    }
}

/// Instructions by kind.
impl Step<'_> {
    fn execute(&mut self, opcode: u8, entry: Entry) {
        let place = entry.place;
        match entry.kind {
            Kind::Prefix | Kind::Nothing => {}
            Kind::Combine(combine) => {
                let byte = self.operand(place);
                self.combine(combine, byte);
            }
            Kind::Modify(modify) => self.modify(modify, place),
            Kind::TestCode => {
                let byte = self.operand(place);
                let code = self.code();
                self.put_zero(byte & code);
            }
            Kind::CompareCode => {
                let byte = self.operand(place);
                let code = self.code();
                self.sum(byte, !code, true);
            }
            Kind::LoadCode => self.load_code(place),
            Kind::StoreA => self.store(place, self.r.a),
            Kind::Count(by) => self.count(place, by),
            Kind::LoadWalking(by) => self.load_walking(place, by),
            Kind::StoreWalking(by) => self.store_walking(place, by),
            Kind::Shift(shift) => self.shift(shift),
            Kind::DigitsLeft => self.move_digits(place, true),
            Kind::DigitsRight => self.move_digits(place, false),
            Kind::ExchangeDigits => self.r.a = self.r.a % 16 * 16 + self.r.a / 16,
            Kind::Transfer => self.transfer(),
            Kind::CompareNext => self.compare_next(),
            _ => self.execute_flow(opcode, entry),
        }
    }

    /// Branches, jumps and vectors.
    fn execute_flow(&mut self, opcode: u8, entry: Entry) {
        match entry.kind {
            Kind::Branch(condition) => {
                let distance = u16::from(self.code());
                if self.holds(condition) {
                    self.branch(entry.place, distance);
                }
            }
            Kind::Loop => self.counted_loop(entry.place),
            Kind::Jump => self.r.p = self.code_word(),
            Kind::JumpSubroutine => {
                let target = self.code_word();
                self.push_word(self.r.p);
                self.r.p = target;
            }
            Kind::Return => self.r.p = self.pop_word(),
            Kind::ReturnInterrupt => {
                self.r.p = self.pop_word();
                self.r.t = self.pop();
            }
            Kind::Vector(condition) => {
                let number = self.code();
                if self.holds(condition) {
                    self.vector(number);
                }
            }
            Kind::VectorDirect => self.vector(opcode),
            _ => self.execute_control(entry),
        }
    }

    /// Moves between registers, the stack, the flags of the record and the timer.
    fn execute_control(&mut self, entry: Entry) {
        match (entry.kind, entry.place) {
            (Kind::SetLine(line, value), _) => *self.line_mut(line) = value,
            (Kind::SetFlag(mask, value), _) => self.put_flag(mask, value),
            (Kind::ToX, Place::Whole(pair)) => self.r.x = self.pair(pair),
            (Kind::FromX, Place::Whole(pair)) => *self.pair_mut(pair) = self.r.x,
            (Kind::Push, Place::A) => self.push(self.r.a),
            (Kind::Push, Place::Whole(pair)) => self.push_word(self.pair(pair)),
            (Kind::Pop, Place::A) => {
                let byte = self.pop();
                self.combine(Combine::Lda, byte);
            }
            (Kind::Pop, Place::Whole(pair)) => *self.pair_mut(pair) = self.pop_word(),
            (Kind::Pop, Place::Missing) => self.r.s = self.r.s.wrapping_add(2),
            (Kind::AddToPair, Place::Whole(pair)) => {
                *self.pair_mut(pair) = self.pair(pair).wrapping_add(u16::from(self.r.a));
            }
            (Kind::StatusToA, _) => self.status_to_a(),
            (Kind::AToStatus, _) => self.r.t = self.r.a % 32,
            (Kind::InputToA, _) => self.combine(Combine::Lda, self.inputs.keyboard),
            (Kind::ClearDivider, _) => self.r.step_previous_state = self.r.timer_state,
            (Kind::LoadTimer(top), _) => self.r.tm = top + u16::from(self.r.a),
            _ => unreachable!("no such line in opcodes.txt: {entry:?}"),
        }
    }

    fn combine(&mut self, combine: Combine, byte: u8) {
        let (a, carry) = (self.r.a, self.flag(CARRY));
        match combine {
            Combine::Adc => self.r.a = self.sum(a, byte, carry),
            Combine::Sbc => self.r.a = self.sum(a, !byte, carry),
            Combine::Cpa => {
                self.sum(a, !byte, true);
            }
            Combine::Dca => self.r.a = self.decimal_sum(a.wrapping_add(0x66), byte, carry),
            Combine::Dcs => self.r.a = self.decimal_sum(a, !byte, carry),
            Combine::Bit => self.put_zero(a & byte),
            Combine::Lda => self.r.a = byte,
            Combine::And => self.r.a = a & byte,
            Combine::Ora => self.r.a = a | byte,
            Combine::Eor => self.r.a = a ^ byte,
        }
        if matches!(combine, Combine::Lda | Combine::And | Combine::Ora | Combine::Eor) {
            self.put_zero(self.r.a);
        }
    }

    /// The code's byte comes before the memory's.
    fn modify(&mut self, modify: Modify, place: Place) {
        let address = self.address(place);
        let code = self.code();
        let byte = self.read(address);
        let result = match modify {
            Modify::And => byte & code,
            Modify::Ora => byte | code,
            Modify::Add => self.sum(byte, code, false),
        };
        self.put_zero(result);
        self.bus.write(address, result);
    }

    fn load_code(&mut self, place: Place) {
        if let Place::Whole(pair) = place {
            *self.pair_mut(pair) = self.code_word();
        } else {
            let byte = self.code();
            self.store(place, byte);
        }
    }

    /// INC and DEC: a whole register counts without flags.
    fn count(&mut self, place: Place, by: u8) {
        if let Place::Whole(pair) = place {
            let word = self.pair_mut(pair);
            *word = word.wrapping_add(if by == 1 { 1 } else { 0xFFFF });
        } else {
            let byte = self.operand(place);
            let result = self.sum(byte, by, false);
            self.store(place, result);
        }
    }

    fn load_walking(&mut self, place: Place, by: u16) {
        let Place::Whole(pair) = place else { unreachable!() };
        let byte = self.read(u32::from(self.pair(pair)));
        self.combine(Combine::Lda, byte);
        *self.pair_mut(pair) = self.pair(pair).wrapping_add(by);
    }

    fn store_walking(&mut self, place: Place, by: u16) {
        let Place::Whole(pair) = place else { unreachable!() };
        self.bus.write(u32::from(self.pair(pair)), self.r.a);
        *self.pair_mut(pair) = self.pair(pair).wrapping_add(by);
    }

    /// TIN: the byte at X goes to Y, both move on.
    fn transfer(&mut self) {
        let byte = self.read(u32::from(self.r.x));
        self.bus.write(u32::from(self.r.y), byte);
        self.r.x = self.r.x.wrapping_add(1);
        self.r.y = self.r.y.wrapping_add(1);
    }

    /// CIN: A is compared with the byte at X, X moves on.
    fn compare_next(&mut self) {
        let byte = self.read(u32::from(self.r.x));
        self.combine(Combine::Cpa, byte);
        self.r.x = self.r.x.wrapping_add(1);
    }

    /// DRL and DRR: of the four digits of A and the byte, the middle two go to memory; A becomes
    /// the byte. DRL has the byte on the left of A, DRR on its right.
    fn move_digits(&mut self, place: Place, byte_on_left: bool) {
        let address = self.address(place);
        let byte = self.read(address);
        let (left, right) = if byte_on_left { (byte, self.r.a) } else { (self.r.a, byte) };
        self.bus.write(address, left % 16 * 16 + right / 16);
        self.r.a = byte;
    }

    fn branch(&mut self, place: Place, distance: u16) {
        if place == Place::Forward {
            self.spend(2);
            self.r.p = self.r.p.wrapping_add(distance);
        } else {
            self.spend(3);
            self.r.p = self.r.p.wrapping_sub(distance);
        }
    }

    /// LOP tests UL before it counts it down, and changes no flag.
    fn counted_loop(&mut self, place: Place) {
        let distance = u16::from(self.code());
        let ul = (self.r.u % 256) as u8;
        let after = ul.wrapping_sub(1);
        let tested = if self.slips_loop() { after } else { ul };
        if tested != 0 {
            self.branch(place, distance);
        }
        self.r.u = self.r.u / 256 * 256 + u16::from(after);
    }

    /// A vector that is taken.
    fn vector(&mut self, number: u8) {
        self.spend(13);
        self.push_word(self.r.p);
        self.r.p = self.vector_word(0xFF00 + u32::from(number));
        self.put_flag(ZERO, false);
    }

    /// TTA: the arm tests T for zero twice, the second time on the changed T, so Z stays set only
    /// where it was the only bit set.
    fn status_to_a(&mut self) {
        self.r.a = self.r.t;
        self.put_flag(ZERO, self.r.t == ZERO);
    }

    fn shift(&mut self, shift: Shift) {
        let old = self.r.a;
        let bit = |i: u32| old >> i & 1 == 1;
        let carry = u8::from(self.flag(CARRY));
        let (result, out, half, overflow) = match shift {
            Shift::Shl => (old << 1, bit(7), bit(3), bit(7) != bit(6)),
            Shift::Rol => (old << 1 | carry, bit(7), bit(3), bit(7) != bit(6)),
            Shift::Shr => (old >> 1, bit(0), bit(4), bit(1) || bit(0) && bit(2)),
            Shift::Ror => (old >> 1 | carry << 7, bit(0), bit(4), bit(1) || bit(0) && bit(2)),
        };
        self.r.a = result;
        self.put_flag(CARRY, out);
        self.put_flag(HALF, half);
        self.put_flag(OVERFLOW, overflow);
        self.put_zero(result);
    }
}

/// Sums and flags: document 01, "Arithmetic".
impl Step<'_> {
    fn sum(&mut self, left: u8, right: u8, carry: bool) -> u8 {
        let wide = u16::from(left) + u16::from(right) + u16::from(carry);
        let digits = left % 16 + right % 16 + u8::from(carry);
        let signed = i16::from(left as i8) + i16::from(right as i8) + i16::from(carry);
        let result = (wide % 256) as u8;
        self.put_flag(CARRY, wide > 255);
        self.put_flag(HALF, digits > 15);
        self.put_flag(OVERFLOW, !(-128..128).contains(&signed));
        self.put_zero(result);
        result
    }

    /// The correction depends on C and H of the plain sum; the flags stay those of the plain sum.
    fn decimal_sum(&mut self, left: u8, right: u8, carry: bool) -> u8 {
        let plain = self.sum(left, right, carry);
        let correction = match (self.flag(CARRY), self.flag(HALF)) {
            (false, false) => 0x9A,
            (false, true) => 0xA0,
            (true, false) => 0xFA,
            (true, true) => 0x00,
        };
        let result = plain.wrapping_add(correction);
        if self.slips_zero() {
            self.put_zero(result);
        }
        result
    }

    fn flag(&self, mask: u8) -> bool {
        self.r.t & mask != 0
    }

    fn holds(&self, condition: Condition) -> bool {
        self.flag(condition.mask) == condition.set
    }

    fn put_flag(&mut self, mask: u8, value: bool) {
        self.r.t = if value { self.r.t | mask } else { self.r.t & !mask };
    }

    fn put_zero(&mut self, byte: u8) {
        self.put_flag(ZERO, byte == 0);
    }

    #[cfg(test)]
    fn slips_zero(&self) -> bool {
        self.slip == Some(Slip::ZeroFromCorrectedByte)
    }

    #[cfg(not(test))]
    fn slips_zero(&self) -> bool {
        false
    }

    #[cfg(test)]
    fn slips_loop(&self) -> bool {
        self.slip == Some(Slip::LoopTestsAfterDecrement)
    }

    #[cfg(not(test))]
    fn slips_loop(&self) -> bool {
        false
    }
}

/// Places, registers and the stack.
impl Step<'_> {
    /// The byte at a place.
    fn operand(&mut self, place: Place) -> u8 {
        match place {
            Place::Missing => 0,
            Place::A => self.r.a,
            Place::High(pair) => (self.pair(pair) / 256) as u8,
            Place::Low(pair) => (self.pair(pair) % 256) as u8,
            Place::Code => self.code(),
            _ => {
                let address = self.address(place);
                self.read(address)
            }
        }
    }

    /// Stores a byte at a place. The missing register takes nothing.
    fn store(&mut self, place: Place, byte: u8) {
        match place {
            Place::Missing => {}
            Place::A => self.r.a = byte,
            Place::High(pair) => {
                let word = self.pair_mut(pair);
                *word = u16::from(byte) * 256 + *word % 256;
            }
            Place::Low(pair) => {
                let word = self.pair_mut(pair);
                *word = *word / 256 * 256 + u16::from(byte);
            }
            _ => {
                let address = self.address(place);
                self.bus.write(address, byte);
            }
        }
    }

    fn address(&mut self, place: Place) -> u32 {
        match place {
            Place::At(pair, page) => page * 0x10000 + u32::from(self.pair(pair)),
            Place::Fixed(page) => page * 0x10000 + u32::from(self.code_word()),
            _ => unreachable!("no place in memory: {place:?}"),
        }
    }

    fn pair(&self, pair: Pair) -> u16 {
        match pair {
            Pair::X => self.r.x,
            Pair::Y => self.r.y,
            Pair::U => self.r.u,
            Pair::S => self.r.s,
            Pair::P => self.r.p,
        }
    }

    fn pair_mut(&mut self, pair: Pair) -> &mut u16 {
        match pair {
            Pair::X => &mut self.r.x,
            Pair::Y => &mut self.r.y,
            Pair::U => &mut self.r.u,
            Pair::S => &mut self.r.s,
            Pair::P => &mut self.r.p,
        }
    }

    fn line_mut(&mut self, line: Line) -> &mut bool {
        match line {
            Line::Pu => &mut self.r.pu,
            Line::Pv => &mut self.r.pv,
            Line::Disp => &mut self.r.disp,
            Line::Bf => &mut self.r.bf,
            Line::Halted => &mut self.r.is_halted,
        }
    }

    fn read(&mut self, address: u32) -> u8 {
        self.bus.memory.read(address)
    }

    /// The next byte of the code; P wraps at FFFF.
    fn code(&mut self) -> u8 {
        let byte = self.read(u32::from(self.r.p));
        self.r.p = self.r.p.wrapping_add(1);
        byte
    }

    fn code_word(&mut self) -> u16 {
        let high = self.code();
        let low = self.code();
        u16::from_be_bytes([high, low])
    }

    /// The high byte is read first; the second byte of vector FF is at 10000.
    fn vector_word(&mut self, address: u32) -> u16 {
        self.bus.memory.mark_vector();
        let high = self.read(address);
        let low = self.read(address + 1);
        u16::from_be_bytes([high, low])
    }

    fn push(&mut self, byte: u8) {
        self.bus.write(u32::from(self.r.s), byte);
        self.r.s = self.r.s.wrapping_sub(1);
    }

    fn pop(&mut self) -> u8 {
        self.r.s = self.r.s.wrapping_add(1);
        self.read(u32::from(self.r.s))
    }

    /// Low byte first.
    fn push_word(&mut self, word: u16) {
        let [high, low] = word.to_be_bytes();
        self.push(low);
        self.push(high);
    }

    /// High byte first.
    fn pop_word(&mut self) -> u16 {
        let high = self.pop();
        let low = self.pop();
        u16::from_be_bytes([high, low])
    }
}

#[cfg(test)]
mod tests {
    use super::kept;
    use crate::call::{Call, ReadOnly};

    /// Around every edge, a write is stored where it lies inside its page and is not protected.
    #[test]
    fn kept_addresses_are_those_that_are_not_protected() {
        let edges = [0, 1, 2, 15, 16, 17, 0xFFFE, 0xFFFF, 0x1_0000, 0x1_0001, 0x1_0010, u32::MAX];
        for length in [0, 1, 16, 0xFFFF, 0x1_0000] {
            let mut call = Call { pages: [vec![0; length], vec![0; length]], ..Call::default() };
            for (first, end) in edges.into_iter().flat_map(|first| edges.map(|end| (first, end))) {
                call.read_only = ReadOnly::new(first, end);
                let kept = kept(&call);
                for address in edges.into_iter().filter(|address| *address < 0x2_0000) {
                    let is_inside = ((address & 0xFFFF) as usize) < length;
                    let is_kept = kept.iter().any(|addresses| addresses.contains(&address));
                    assert_eq!(is_kept, is_inside && !call.read_only.has(address));
                }
            }
        }
    }
}
