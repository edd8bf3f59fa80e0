//! A call and its answer, as documents 01 and 02 tell them, and the sides that answer calls.

#![forbid(unsafe_code)]

use std::fmt;
use std::mem;
use std::ops::Range;

/// Greatest length of a lent page.
pub const GREATEST_PAGE: usize = 65_536;
/// Greatest timer value that a call accepts.
pub const GREATEST_TM: u16 = 511;
/// Greatest step limit that a call accepts.
pub const GREATEST_LIMIT: u32 = 1_000_000;
/// Document 02, F-2: "A step has at most seven accesses."
pub const MOST_ACCESSES: usize = 7;

/// The record: document 01, "Record and pages". Names are those of the original's fields.
#[derive(Clone, Copy, Debug, Default, PartialEq, Eq)]
pub struct Record {
    pub a: u8,
    pub t: u8,
    pub x: u16,
    pub y: u16,
    pub u: u16,
    pub s: u16,
    pub p: u16,
    pub is_halted: bool,
    pub pu: bool,
    pub pv: bool,
    pub bf: bool,
    pub disp: bool,
    pub ir0: bool,
    pub ir1: bool,
    pub ir2: bool,
    pub is_timer_reached: bool,
    pub tm: u16,
    pub timer_state: u64,
    pub step_previous_state: u64,
    pub ticks: u64,
}

impl Record {
    /// The nine flags as document 01 numbers them: bit 0 is halted.
    pub fn flags(&self) -> u16 {
        let bits = [
            self.is_halted,
            self.pu,
            self.pv,
            self.bf,
            self.disp,
            self.ir0,
            self.ir1,
            self.ir2,
            self.is_timer_reached,
        ];
        (0..9).map(|i| u16::from(bits[i]) << i).sum()
    }

    pub fn set_flags(&mut self, flags: u16) {
        let bit = |i: u16| flags >> i & 1 == 1;
        self.is_halted = bit(0);
        self.pu = bit(1);
        self.pv = bit(2);
        self.bf = bit(3);
        self.disp = bit(4);
        self.ir0 = bit(5);
        self.ir1 = bit(6);
        self.ir2 = bit(7);
        self.is_timer_reached = bit(8);
    }

    /// The next step is a halted one, document 02's term: BF set, halted, no interrupt accepted.
    pub fn begins_halted_step(&self) -> bool {
        self.bf && self.is_halted && !self.accepts_interrupt()
    }

    /// The next step executes an instruction, or stops with 5, 6 or 12 in place of it: BF set, no
    /// interrupt accepted, not halted. The harness's own; the model has another writing of it.
    pub fn is_instruction_due(&self) -> bool {
        self.bf && !self.is_halted && !self.accepts_interrupt()
    }

    /// The next step is IR0's entry (document 02, F-6): BF and IR0 set. Only 11 comes before it.
    #[inline]
    pub fn enters_ir0(&self) -> bool {
        self.bf && self.ir0
    }

    /// An interrupt that BF lets in: IR0, or with IE set any other one. A reached timer counts as IR1.
    fn accepts_interrupt(&self) -> bool {
        let is_requested = self.is_timer_reached || self.ir1 || self.ir2;
        self.ir0 || is_requested && self.t & 0x02 != 0
    }
}

/// The record as it stands in document 01's printed line.
impl fmt::Display for Record {
    fn fmt(&self, f: &mut fmt::Formatter<'_>) -> fmt::Result {
        write!(f, "{:02X} {:02X} ", self.a, self.t)?;
        for word in [self.x, self.y, self.u, self.s, self.p] {
            write!(f, "{word:04X} ")?;
        }
        write!(f, "{:03X} {:03X} ", self.tm, self.flags())?;
        write!(f, "{} {} {}", self.timer_state, self.step_previous_state, self.ticks)
    }
}

/// What each step of a call is given beside the record and the pages.
#[derive(Clone, Copy, Debug, Default, PartialEq, Eq)]
pub struct Inputs {
    pub keyboard: u8,
    /// The states that a halted step waits; with 0 it stops with 7. Document 02, F-1.
    pub idle: u8,
    /// Before an instruction at this address the call stops with 12. Document 02, F-5.
    pub stop_address: Option<u16>,
}

impl Inputs {
    /// What a caller gets who gives a keyboard byte and asks for nothing else: the calls of a
    /// campaign file and of a list.
    pub fn of_keyboard(keyboard: u8) -> Inputs {
        Inputs { keyboard, ..Inputs::default() }
    }

    /// The same without a stop address.
    pub fn without_stop(self) -> Inputs {
        Inputs { stop_address: None, ..self }
    }
}

/// The bus log that a call is lent (document 02, F-2): the list's entries, and how many of them are
/// used, which may be more than there are.
#[derive(Clone, Debug, Default, PartialEq, Eq)]
pub struct BusLog {
    pub entries: Vec<u32>,
    pub used: usize,
}

impl BusLog {
    /// Room for every access of so many steps, and of one more.
    pub fn for_steps(limit: u32) -> BusLog {
        let steps = limit.min(GREATEST_LIMIT) as usize + 1;
        BusLog { entries: vec![0; MOST_ACCESSES * steps], used: 0 }
    }

    /// How many entries are free; none where the used count is beyond the list.
    pub fn free(&self) -> usize {
        self.entries.len().saturating_sub(self.used)
    }

    /// The condition of 11: the harness's own. The model has another writing of it.
    pub fn is_full(&self) -> bool {
        self.free() < MOST_ACCESSES
    }

    /// Appends a completed step's accesses, for which there is room.
    pub fn append(&mut self, accesses: &[Access]) {
        for access in accesses {
            self.entries[self.used] = access.entry();
            self.used += 1;
        }
    }
}

/// The read-only part of page 0 (document 02, F-4): from the first address up to, not including,
/// the end. Either may be 65,536 or more; with the end at or below the first nothing is protected.
#[derive(Clone, Copy, Debug, Default, PartialEq, Eq)]
pub struct ReadOnly {
    pub first: u32,
    pub end: u32,
}

impl ReadOnly {
    pub fn new(first: u32, end: u32) -> ReadOnly {
        ReadOnly { first, end }
    }

    /// Whether a write to this address is dropped: the harness's own. Page 1, from 10000 on, is
    /// never protected. The model has another writing of it.
    #[inline]
    pub fn has(&self, address: u32) -> bool {
        self.first <= address && address < self.end && address < 0x1_0000
    }

    /// The offsets that are protected of a page 0 of this length.
    pub fn offsets(&self, length: usize) -> Range<usize> {
        let end = length.min(self.end as usize);
        end.min(self.first as usize)..end
    }
}

/// `0010 up to 0020`.
impl fmt::Display for ReadOnly {
    fn fmt(&self, f: &mut fmt::Formatter<'_>) -> fmt::Result {
        write!(f, "{:04X} up to {:04X}", self.first, self.end)
    }
}

/// What a call is given.
#[derive(Clone, Debug, Default, PartialEq, Eq)]
pub struct Call {
    pub record: Record,
    pub inputs: Inputs,
    pub limit: u32,
    pub pages: [Vec<u8>; 2],
    /// Absent where no log is lent.
    pub bus_log: Option<BusLog>,
    pub read_only: ReadOnly,
}

impl Call {
    /// Goes on from an answer to this call, whose pages and log are taken out of it.
    pub fn go_on(&mut self, from: &mut Answer) {
        self.record = from.record;
        (self.pages, self.bus_log) = (mem::take(&mut from.pages), from.bus_log.take());
    }
}

/// The number of a call that is not accepted, 1 to 4, in document 01's order: the harness's own.
pub fn refusal(lengths: [usize; 2], tm: u16, limit: u32) -> Option<u8> {
    if lengths[0] > GREATEST_PAGE {
        Some(1)
    } else if lengths[1] > GREATEST_PAGE {
        Some(2)
    } else if tm > GREATEST_TM {
        Some(3)
    } else if limit == 0 || limit > GREATEST_LIMIT {
        Some(4)
    } else {
        None
    }
}

/// One access, as an entry of the bus log: bit 25 is the write mark, bits 24 to 8 are the address,
/// bits 7 to 0 the byte. Page 0 is at 0 to FFFF, page 1 at 10000 to 1FFFF.
#[derive(Clone, Copy, Debug, PartialEq, Eq)]
pub struct Access(u32);

const WRITE_MARK: u32 = 1 << 25;

impl Access {
    #[inline]
    pub fn read(address: u32, byte: u8) -> Access {
        Access(address << 8 | u32::from(byte))
    }

    #[inline]
    pub fn write(address: u32, byte: u8) -> Access {
        Access(WRITE_MARK | Access::read(address, byte).0)
    }

    pub fn of_entry(entry: u32) -> Access {
        Access(entry)
    }

    pub fn entry(&self) -> u32 {
        self.0
    }

    pub fn is_write(&self) -> bool {
        self.0 & WRITE_MARK != 0
    }

    pub fn address(&self) -> u32 {
        self.0 >> 8 & 0x1_FFFF
    }

    pub fn byte(&self) -> u8 {
        self.0 as u8
    }
}

/// `R 0004 27`, and five digits for page 1: `W 10004 27`.
impl fmt::Display for Access {
    fn fmt(&self, f: &mut fmt::Formatter<'_>) -> fmt::Result {
        let letter = if self.is_write() { 'W' } else { 'R' };
        write!(f, "{letter} {:04X} {:02X}", self.address(), self.byte())
    }
}

/// The accesses of a call in order, those of a stopping step included.
#[derive(Clone, Debug, Default, PartialEq, Eq)]
pub struct Log {
    pub accesses: Vec<Access>,
    /// For each step that was tried: how many accesses were made before it.
    pub starts: Vec<usize>,
    /// How many accesses belong to completed steps.
    pub completed: usize,
    /// The places of a vector's two reads: that of the first. Only where the model made the step.
    pub vectors: Vec<usize>,
}

impl Log {
    /// The writes of completed steps, in order, dropped ones included.
    pub fn writes(&self) -> impl Iterator<Item = &Access> {
        self.accesses[..self.completed].iter().filter(|access| access.is_write())
    }

    /// The accesses of the step with this index.
    pub fn step(&self, index: usize) -> &[Access] {
        let end = self.starts.get(index + 1).copied().unwrap_or(self.accesses.len());
        &self.accesses[self.starts[index]..end]
    }

    /// Puts the log of a call that goes on behind this one, of which every step was completed.
    pub fn join(&mut self, next: &Log) {
        let before = self.accesses.len();
        let behind =
            |places: &[usize]| places.iter().map(|place| before + place).collect::<Vec<_>>();
        self.starts.extend(behind(&next.starts));
        self.vectors.extend(behind(&next.vectors));
        self.accesses.extend(&next.accesses);
        self.completed = before + next.completed;
    }
}

/// What a call answers.
#[derive(Clone, Debug, Default)]
pub struct Answer {
    pub number: u8,
    pub byte: u8,
    pub steps: u64,
    pub states: u64,
    pub record: Record,
    pub pages: [Vec<u8>; 2],
    /// How many of the steps waited. The original's harness alone counts them; not compared.
    pub waits: u64,
    /// Absent where a side does not tell its accesses.
    pub log: Option<Log>,
    /// The bus log after the call, where one was lent.
    pub bus_log: Option<BusLog>,
    /// A failure of the side itself: for the original, a panic that is neither 5 nor 6.
    pub failure: Option<String>,
}

impl Answer {
    /// The answer of a call that ends with this number, and has changed nothing.
    pub fn refused(call: &Call, number: u8) -> Answer {
        Answer {
            number,
            record: call.record,
            pages: call.pages.clone(),
            log: Some(Log::default()),
            bus_log: call.bus_log.clone(),
            ..Answer::default()
        }
    }

    /// The answer to a call that goes on from this one, which has ended with 0, joined to it.
    pub fn join(&mut self, next: Answer) {
        let log = self.log.take().zip(next.log.as_ref()).map(|(mut log, more)| {
            log.join(more);
            log
        });
        let (steps, states) = (self.steps + next.steps, self.states + next.states);
        *self = Answer { steps, states, waits: self.waits + next.waits, log, ..next };
    }

    /// Document 01's line, without its newline.
    pub fn line(&self) -> String {
        format!("{} {} {} {}", self.number, self.steps, self.states, self.record)
    }
}

/// An implementation that answers calls: the original, the model, the port.
pub trait Side {
    fn name(&self) -> &'static str;
    fn call(&mut self, call: &Call) -> Answer;
}

#[cfg(test)]
mod tests {
    use super::{Access, BusLog, ReadOnly};

    /// Document 02: "bit 25 is the write mark, bits 24 to 8 the address, bits 7 to 0 the byte, the
    /// rest zero".
    #[test]
    fn entries_of_accesses() {
        assert_eq!(Access::read(0x0004, 0x27).entry(), 0x0000_0427);
        assert_eq!(Access::write(0x7FFF, 0x12).entry(), 0x027F_FF12);
        assert_eq!(Access::read(0x1_FFFF, 0xFF).entry(), 0x01FF_FFFF);
        assert_eq!(Access::write(0x1_FFFF, 0xFF).entry(), 0x03FF_FFFF);
        let access = Access::write(0x1_2345, 0x67);
        assert_eq!((access.is_write(), access.address(), access.byte()), (true, 0x1_2345, 0x67));
    }

    #[test]
    fn accesses_in_words() {
        assert_eq!(Access::read(0x0004, 0x27).to_string(), "R 0004 27");
        assert_eq!(Access::write(0x7FFF, 0x12).to_string(), "W 7FFF 12");
        assert_eq!(Access::read(0x1_0004, 0xFF).to_string(), "R 10004 FF");
    }

    #[test]
    fn a_log_is_full_with_less_than_seven_entries_free() {
        let full = |length, used| BusLog { entries: vec![0; length], used }.is_full();
        assert!(full(0, 0) && full(6, 0) && full(7, 1) && full(7, 8) && full(7, usize::MAX));
        assert!(!full(7, 0) && !full(8, 0) && !full(8, 1) && !full(100, 93));
    }

    /// Document 02: "from the first up to, not including, the end, writes to page 0 are dropped. With
    /// the end at or below the first, nothing is protected." Page 1 never is.
    #[test]
    fn the_protected_addresses() {
        let has = |first, end, address| ReadOnly::new(first, end).has(address);
        assert!(has(4, 6, 4) && has(4, 6, 5) && !has(4, 6, 3) && !has(4, 6, 6));
        for end in [0x1_0000, 0x1_0001, 70_000, 0x2_0000, u32::MAX] {
            assert!(has(0xFFFF, end, 0xFFFF) && has(0, end, 0) && !has(0xFFFF, end, 0xFFFE));
            assert!(!has(0, end, 0x1_0000) && !has(0x1_0000, end, 0x1_0000));
            assert!(!has(0, end, 0x1_FFFF) && !has(0x1_0000, end, 0));
        }
        for (first, end) in [(0, 0), (5, 5), (6, 5), (u32::MAX, 0), (0x1_0000, 5)] {
            assert!((0..0x2_0000).all(|address| !has(first, end, address)));
        }
    }

    #[test]
    fn the_protected_offsets() {
        let edges = [0, 1, 2, 15, 16, 17, 0xFFFF, 0x1_0000, 0x1_0001, 0x2_0000, u32::MAX];
        for (first, end) in edges.into_iter().flat_map(|first| edges.map(|end| (first, end))) {
            let part = ReadOnly::new(first, end);
            for length in [0, 1, 16, 0x1_0000] {
                let counted = (0..length as u32).filter(|address| part.has(*address)).count();
                assert_eq!(part.offsets(length).len(), counted, "{part} of {length}");
                assert!(part.offsets(length).all(|offset| part.has(offset as u32)));
            }
        }
    }
}
