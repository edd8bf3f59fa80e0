//! Our log beside an analyser's list, and what document 02, F-3, says of the two: the oracle's own
//! writing. The original has no such comparison.

#![forbid(unsafe_code)]

use std::cmp::Ordering;
use std::fmt::{self, Write};

use crate::call::Access;

/// The bit of an entry that marks a write in our log. In an analyser's list it means nothing.
pub const MARK: u32 = 1 << 25;
/// An entry's address and byte.
pub const LOW: u32 = MARK - 1;

/// The numbers of a verdict.
pub const EQUAL: u8 = 0;
pub const DIFFER: u8 = 1;
pub const LOG_ENDED: u8 = 2;
pub const ANALYSER_ENDED: u8 = 3;

/// What a comparison says: its number, and the place, counted in writes from 0. As in C: struct
/// lh5801_comparison.
#[repr(C)]
#[derive(Clone, Copy, Debug, PartialEq, Eq)]
pub struct Verdict {
    pub place: usize,
    pub number: u8,
}

impl Verdict {
    pub fn new(number: u8, place: usize) -> Verdict {
        Verdict { place, number }
    }
}

impl fmt::Display for Verdict {
    fn fmt(&self, f: &mut fmt::Formatter<'_>) -> fmt::Result {
        let Verdict { place, number } = self;
        match *number {
            EQUAL if *place == 0 => f.write_str("equal"),
            DIFFER => write!(f, "they differ at write {place}"),
            LOG_ENDED => write!(f, "our log ended at write {place}"),
            ANALYSER_ENDED => write!(f, "the analyser's list ended at write {place}"),
            _ => write!(f, "number {number} with place {place}"),
        }
    }
}

/// Two lists: the used entries of our log, and the analyser's entries.
#[derive(Clone, Debug, Default, PartialEq, Eq)]
pub struct Pair {
    pub log: Vec<u32>,
    pub analyser: Vec<u32>,
}

/// Page, the address's two bytes, and the byte: an entry without what is ignored.
fn address_and_byte(entry: u32) -> [u8; 4] {
    let [above, high, low, byte] = entry.to_be_bytes();
    [above & 1, high, low, byte]
}

/// Whether an entry of our log is a write.
pub fn is_write(entry: u32) -> bool {
    let [above, ..] = entry.to_be_bytes();
    above & 2 != 0
}

impl Pair {
    /// What document 02 says: the writes of both are collected first, then the first place is
    /// looked for where two of them are not the same, and then come the lengths.
    pub fn by_text(&self) -> Verdict {
        let writes = self.log.iter().filter(|entry| is_write(**entry));
        let ours: Vec<[u8; 4]> = writes.map(|entry| address_and_byte(*entry)).collect();
        let theirs: Vec<_> = self.analyser.iter().map(|entry| address_and_byte(*entry)).collect();
        let unequal = ours.iter().zip(&theirs).position(|(own, caught)| own != caught);
        match (unequal, ours.len().cmp(&theirs.len())) {
            (Some(place), _) => Verdict::new(DIFFER, place),
            (None, Ordering::Equal) => Verdict::new(EQUAL, 0),
            (None, Ordering::Less) => Verdict::new(LOG_ENDED, ours.len()),
            (None, Ordering::Greater) => Verdict::new(ANALYSER_ENDED, theirs.len()),
        }
    }

    /// The pair with another log.
    pub fn with_log(&self, log: Vec<u32>) -> Pair {
        Pair { log, analyser: self.analyser.clone() }
    }

    /// The pair with all reads taken out of our log.
    pub fn without_reads(&self) -> Pair {
        self.with_log(self.log.iter().copied().filter(|entry| is_write(*entry)).collect())
    }

    /// The pair with this entry put into our log.
    pub fn with_entry(&self, place: usize, entry: u32) -> Pair {
        let (before, behind) = self.log.split_at(place);
        self.with_log([before, &[entry], behind].concat())
    }

    /// How many entries both lists have.
    pub fn entries(&self) -> usize {
        self.log.len() + self.analyser.len()
    }
}

/// A list's entries, as they are and in words, those of an analyser as writes; the same one many
/// times is told once.
fn describe_list(name: &str, list: &[u32], mark: u32) -> String {
    let mut text = format!("{name}, length {}:", list.len());
    for same in list.chunk_by(|left, right| left == right).take(40) {
        let _ = write!(text, " {:08X} ({})", same[0], Access::of_entry(same[0] | mark));
        if same.len() > 1 {
            let _ = write!(text, " {} times", same.len());
        }
    }
    text + "\n"
}

/// A pair in words.
pub fn describe(pair: &Pair) -> String {
    let log = describe_list("our log", &pair.log, 0);
    log + &describe_list("the analyser's list", &pair.analyser, MARK)
}

#[cfg(test)]
mod tests {
    use super::{describe, Pair, Verdict, ANALYSER_ENDED, DIFFER, EQUAL, LOG_ENDED};

    fn verdict(log: &[u32], analyser: &[u32]) -> Verdict {
        Pair { log: log.to_vec(), analyser: analyser.to_vec() }.by_text()
    }

    /// Document 02: "'Equal' is given precisely for the same sequence of writes; reads between them
    /// never matter. Two empty lists are equal."
    #[test]
    fn the_text_of_document_02() {
        let equal = Verdict::new(EQUAL, 0);
        assert_eq!(verdict(&[], &[]), equal);
        assert_eq!(verdict(&[0x0000_0427, 0xFD00_0428], &[]), equal);
        let log = [0x0000_0015, 0x0200_0427, 0x0000_0115, 0x0310_0028];
        assert_eq!(verdict(&log, &[0x0000_0427, 0x0110_0028]), equal);
        assert_eq!(verdict(&log, &[0x0200_0427, 0xFF10_0028]), equal);
        assert_eq!(verdict(&log, &[0x0000_0427, 0x0110_0029]), Verdict::new(DIFFER, 1));
        assert_eq!(verdict(&log, &[0x0000_0527, 0x0110_0028]), Verdict::new(DIFFER, 0));
        assert_eq!(verdict(&log, &[0x0000_0427]), Verdict::new(ANALYSER_ENDED, 1));
        assert_eq!(verdict(&log[..3], &[0x0000_0427, 0x0110_0028]), Verdict::new(LOG_ENDED, 1));
        assert_eq!(verdict(&log[..1], &[0x0000_0427]), Verdict::new(LOG_ENDED, 0));
    }

    #[test]
    fn a_pair_in_words() {
        let pair = Pair { log: vec![0x0000_0427, 0x0200_0427], analyser: vec![0x0000_0427; 3] };
        let log = "our log, length 2: 00000427 (R 0004 27) 02000427 (W 0004 27)\n";
        let analyser = "the analyser's list, length 3: 00000427 (W 0004 27) 3 times\n";
        assert_eq!(describe(&pair), log.to_string() + analyser);
        assert_eq!(Verdict::new(LOG_ENDED, 3).to_string(), "our log ended at write 3");
        assert_eq!(Verdict::new(EQUAL, 1).to_string(), "number 0 with place 1");
    }
}
