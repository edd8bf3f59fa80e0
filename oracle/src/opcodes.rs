//! The table of listed bytes: `opcodes.txt` turned into 256 + 256 entries.

#![forbid(unsafe_code)]

use std::sync::OnceLock;

/// Bits of T.
pub const CARRY: u8 = 0x01;
pub const INTERRUPT_ENABLE: u8 = 0x02;
pub const ZERO: u8 = 0x04;
pub const OVERFLOW: u8 = 0x08;
pub const HALF: u8 = 0x10;

/// A register of 16 bits.
#[derive(Clone, Copy, Debug, PartialEq, Eq)]
pub enum Pair {
    X,
    Y,
    U,
    S,
    P,
}

/// Where an operand lies.
#[derive(Clone, Copy, Debug, PartialEq, Eq)]
pub enum Place {
    None,
    /// The register that the unit does not have: it reads as 0.
    Missing,
    A,
    High(Pair),
    Low(Pair),
    Whole(Pair),
    /// The byte that a register points to; the number is the page.
    At(Pair, u32),
    /// The byte at the address word in the code; the number is the page.
    Fixed(u32),
    Code,
    CodeWord,
    Forward,
    Backward,
}

/// Holds when the bits of T under the mask are set (or clear). An empty mask always holds.
#[derive(Clone, Copy, Debug, PartialEq, Eq)]
pub struct Condition {
    pub mask: u8,
    pub set: bool,
}

/// What happens to A and the operand's byte.
#[derive(Clone, Copy, Debug, PartialEq, Eq)]
pub enum Combine {
    Sbc,
    Adc,
    Lda,
    Cpa,
    And,
    Ora,
    Eor,
    Bit,
    Dca,
    Dcs,
}

/// What happens to a byte of memory and the byte in the code.
#[derive(Clone, Copy, Debug, PartialEq, Eq)]
pub enum Modify {
    And,
    Ora,
    Add,
}

#[derive(Clone, Copy, Debug, PartialEq, Eq)]
pub enum Shift {
    Shl,
    Rol,
    Shr,
    Ror,
}

/// A flag of the record that an instruction sets or clears.
#[derive(Clone, Copy, Debug, PartialEq, Eq)]
pub enum Line {
    Pu,
    Pv,
    Disp,
    Bf,
    Halted,
}

#[derive(Clone, Copy, Debug, PartialEq, Eq)]
pub enum Kind {
    /// The byte FD: a second byte follows.
    Prefix,
    Nothing,
    Combine(Combine),
    Modify(Modify),
    TestCode,
    CompareCode,
    LoadCode,
    StoreA,
    /// Adds this byte: 01 counts up, FF counts down.
    Count(u8),
    /// Loads A from (or stores A to) where a register points to, then moves it by this word.
    LoadWalking(u16),
    StoreWalking(u16),
    Branch(Condition),
    Loop,
    Jump,
    JumpSubroutine,
    Return,
    ReturnInterrupt,
    Vector(Condition),
    /// The vector's number is the opcode itself.
    VectorDirect,
    Shift(Shift),
    DigitsLeft,
    DigitsRight,
    ExchangeDigits,
    Transfer,
    CompareNext,
    SetLine(Line, bool),
    SetFlag(u8, bool),
    ToX,
    FromX,
    Push,
    Pop,
    AddToPair,
    StatusToA,
    AToStatus,
    InputToA,
    ClearDivider,
    /// Loads the timer from A; the number is bit 8.
    LoadTimer(u16),
}

#[derive(Clone, Copy, Debug)]
pub struct Entry {
    pub kind: Kind,
    pub place: Place,
    pub states: u64,
}

impl Entry {
    /// How many bytes of the code follow the opcode.
    pub fn code_bytes(&self) -> usize {
        let of_place = match self.place {
            Place::Code | Place::Forward | Place::Backward => 1,
            Place::CodeWord | Place::Fixed(_) => 2,
            _ => 0,
        };
        let of_kind = match (self.kind, self.place) {
            (Kind::LoadCode, Place::Whole(_)) => 2,
            (Kind::Modify(_) | Kind::TestCode | Kind::CompareCode | Kind::LoadCode, _) => 1,
            _ => 0,
        };
        of_place + of_kind
    }
}

/// How many bytes an instruction has that begins with these two; 0 where it is unlisted.
pub fn length(code: [u8; 2]) -> u16 {
    let (page, byte) = if code[0] == 0xFD { (1, code[1]) } else { (0, code[0]) };
    let entry = table()[page][usize::from(byte)];
    entry.map_or(0, |entry| (1 + page + entry.code_bytes()) as u16)
}

const fn when(mask: u8, set: bool) -> Condition {
    Condition { mask, set }
}

const KINDS: &[(&str, Kind)] = &[
    ("FD", Kind::Prefix),
    ("NOP", Kind::Nothing),
    ("ATP", Kind::Nothing),
    ("SBC", Kind::Combine(Combine::Sbc)),
    ("ADC", Kind::Combine(Combine::Adc)),
    ("LDA", Kind::Combine(Combine::Lda)),
    ("CPA", Kind::Combine(Combine::Cpa)),
    ("AND", Kind::Combine(Combine::And)),
    ("ORA", Kind::Combine(Combine::Ora)),
    ("EOR", Kind::Combine(Combine::Eor)),
    ("BIT", Kind::Combine(Combine::Bit)),
    ("DCA", Kind::Combine(Combine::Dca)),
    ("DCS", Kind::Combine(Combine::Dcs)),
    ("ANI", Kind::Modify(Modify::And)),
    ("ORI", Kind::Modify(Modify::Ora)),
    ("ADI", Kind::Modify(Modify::Add)),
    ("BII", Kind::TestCode),
    ("CPI", Kind::CompareCode),
    ("LDI", Kind::LoadCode),
    ("STA", Kind::StoreA),
    ("INC", Kind::Count(0x01)),
    ("DEC", Kind::Count(0xFF)),
    ("LIN", Kind::LoadWalking(0x0001)),
    ("LDE", Kind::LoadWalking(0xFFFF)),
    ("SIN", Kind::StoreWalking(0x0001)),
    ("SDE", Kind::StoreWalking(0xFFFF)),
    ("BCR", Kind::Branch(when(CARRY, false))),
    ("BCS", Kind::Branch(when(CARRY, true))),
    ("BHR", Kind::Branch(when(HALF, false))),
    ("BHS", Kind::Branch(when(HALF, true))),
    ("BZR", Kind::Branch(when(ZERO, false))),
    ("BZS", Kind::Branch(when(ZERO, true))),
    ("BVR", Kind::Branch(when(OVERFLOW, false))),
    ("BVS", Kind::Branch(when(OVERFLOW, true))),
    ("BCH", Kind::Branch(when(0, false))),
    ("LOP", Kind::Loop),
    ("JMP", Kind::Jump),
    ("SJP", Kind::JumpSubroutine),
    ("RTN", Kind::Return),
    ("RTI", Kind::ReturnInterrupt),
    ("VCR", Kind::Vector(when(CARRY, false))),
    ("VCS", Kind::Vector(when(CARRY, true))),
    ("VHR", Kind::Vector(when(HALF, false))),
    ("VHS", Kind::Vector(when(HALF, true))),
    ("VZR", Kind::Vector(when(ZERO, false))),
    ("VZS", Kind::Vector(when(ZERO, true))),
    ("VVS", Kind::Vector(when(OVERFLOW, true))),
    ("VMJ", Kind::Vector(when(0, false))),
    ("VEJ", Kind::VectorDirect),
    ("SHL", Kind::Shift(Shift::Shl)),
    ("ROL", Kind::Shift(Shift::Rol)),
    ("SHR", Kind::Shift(Shift::Shr)),
    ("ROR", Kind::Shift(Shift::Ror)),
    ("DRL", Kind::DigitsLeft),
    ("DRR", Kind::DigitsRight),
    ("AEX", Kind::ExchangeDigits),
    ("TIN", Kind::Transfer),
    ("CIN", Kind::CompareNext),
    ("SPU", Kind::SetLine(Line::Pu, true)),
    ("RPU", Kind::SetLine(Line::Pu, false)),
    ("SPV", Kind::SetLine(Line::Pv, true)),
    ("RPV", Kind::SetLine(Line::Pv, false)),
    ("SDP", Kind::SetLine(Line::Disp, true)),
    ("RDP", Kind::SetLine(Line::Disp, false)),
    ("OFF", Kind::SetLine(Line::Bf, false)),
    ("HLT", Kind::SetLine(Line::Halted, true)),
    ("SEC", Kind::SetFlag(CARRY, true)),
    ("REC", Kind::SetFlag(CARRY, false)),
    ("SIE", Kind::SetFlag(INTERRUPT_ENABLE, true)),
    ("RIE", Kind::SetFlag(INTERRUPT_ENABLE, false)),
    ("LDX", Kind::ToX),
    ("STX", Kind::FromX),
    ("PSH", Kind::Push),
    ("POP", Kind::Pop),
    ("ADR", Kind::AddToPair),
    ("TTA", Kind::StatusToA),
    ("ATT", Kind::AToStatus),
    ("ITA", Kind::InputToA),
    ("CDV", Kind::ClearDivider),
    ("AM0", Kind::LoadTimer(0x000)),
    ("AM1", Kind::LoadTimer(0x100)),
];

const PLACES: &[(&str, Place)] = &[
    (".", Place::None),
    ("V", Place::Missing),
    ("A", Place::A),
    ("XH", Place::High(Pair::X)),
    ("YH", Place::High(Pair::Y)),
    ("UH", Place::High(Pair::U)),
    ("XL", Place::Low(Pair::X)),
    ("YL", Place::Low(Pair::Y)),
    ("UL", Place::Low(Pair::U)),
    ("X", Place::Whole(Pair::X)),
    ("Y", Place::Whole(Pair::Y)),
    ("U", Place::Whole(Pair::U)),
    ("S", Place::Whole(Pair::S)),
    ("P", Place::Whole(Pair::P)),
    ("(X)", Place::At(Pair::X, 0)),
    ("(Y)", Place::At(Pair::Y, 0)),
    ("(U)", Place::At(Pair::U, 0)),
    ("#(X)", Place::At(Pair::X, 1)),
    ("#(Y)", Place::At(Pair::Y, 1)),
    ("#(U)", Place::At(Pair::U, 1)),
    ("(w)", Place::Fixed(0)),
    ("#(w)", Place::Fixed(1)),
    ("i", Place::Code),
    ("w", Place::CodeWord),
    ("+i", Place::Forward),
    ("-i", Place::Backward),
];

/// The first bytes' entries, then those after FD. Nothing stands at an unlisted byte.
pub type Table = [[Option<Entry>; 256]; 2];

/// The table, read once.
pub fn table() -> &'static Table {
    static TABLE: OnceLock<Table> = OnceLock::new();
    TABLE.get_or_init(|| {
        let mut table = [[None; 256]; 2];
        let lines = include_str!("opcodes.txt").lines();
        for line in lines.filter(|line| !line.starts_with('#')) {
            let (page, byte, entry) = parse(line).unwrap_or_else(|| panic!("opcodes.txt: {line}"));
            assert!(table[page][byte].is_none(), "opcodes.txt, twice: {line}");
            table[page][byte] = Some(entry);
        }
        table
    })
}

fn parse(line: &str) -> Option<(usize, usize, Entry)> {
    let words: Vec<&str> = line.split_whitespace().collect();
    let [byte, mnemonic, place, states] = words[..] else {
        return None;
    };
    let after_fd = byte.len() == 4;
    let digits = if after_fd { byte.strip_prefix("FD")? } else { byte };
    let entry = Entry {
        kind: find(KINDS, mnemonic)?,
        place: find(PLACES, place)?,
        states: states.parse().ok()?,
    };
    let byte = usize::from_str_radix(digits, 16).ok().filter(|byte| *byte < 256)?;
    Some((usize::from(after_fd), byte, entry))
}

fn find<T: Copy>(names: &[(&str, T)], name: &str) -> Option<T> {
    names.iter().find(|(known, _)| *known == name).map(|(_, value)| *value)
}

#[cfg(test)]
mod tests {
    use super::{table, Kind};

    /// Document 01, "Opcodes": the unlisted first bytes, and how many are listed after FD.
    #[test]
    fn listed_bytes_are_those_of_document_01() {
        let mut unlisted = vec![0x31, 0x33, 0x35, 0x37, 0x39];
        unlisted.extend(0x3A..=0x3F);
        unlisted.extend([0x70, 0x71]);
        unlisted.extend(0x73..=0x7F);
        unlisted.extend([0x98, 0xB0, 0xB2, 0xB4, 0xB6, 0xBC, 0xE5, 0xE7, 0xF3, 0xF8, 0xFA, 0xFC]);
        unlisted.extend([0xFE, 0xFF]);
        let found: Vec<usize> = (0..256).filter(|byte| table()[0][*byte].is_none()).collect();
        assert_eq!(found, unlisted);
        assert_eq!(found.len(), 40);
        assert_eq!(table()[1].iter().flatten().count(), 101);
    }

    /// Document 01: "Each executed instruction adds 4 to 23 states."
    #[test]
    fn states_lie_between_4_and_23() {
        let listed = table().iter().flatten().flatten();
        let states = listed.filter(|entry| entry.kind != Kind::Prefix).flat_map(|entry| {
            let more = match entry.kind {
                Kind::Vector(_) | Kind::VectorDirect => 13,
                Kind::Branch(_) | Kind::Loop => 3,
                _ => 0,
            };
            [entry.states, entry.states + more]
        });
        let states: Vec<u64> = states.collect();
        assert_eq!((states.iter().min(), states.iter().max()), (Some(&4), Some(&23)));
    }
}
