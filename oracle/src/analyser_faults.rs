//! Comparisons that are wrong on purpose: `oracle analyser` has to find each of them, among its
//! directed pairs and among its random ones, and to make a small pair of it.

#![forbid(unsafe_code)]

use crate::analyser::{difference, smallest};
use crate::pair::{
    describe, is_write, Pair, Verdict, ANALYSER_ENDED, DIFFER, EQUAL, LOG_ENDED, LOW, MARK,
};
use crate::pairs;
use crate::pairs_directed;
use crate::random::Random;

#[derive(Clone, Copy, Debug, PartialEq, Eq)]
enum Fault {
    Nothing,
    /// The place is counted in entries of our log; it is one more, or one less; it is the last
    /// place where they differ; it is 0 always; equal has a place.
    PlaceInEntries,
    PlaceOneMore,
    PlaceOneLess,
    LastPlace,
    NoPlace,
    PlaceOfEqual,
    /// Bit 25 of the analyser's is compared; or it selects the writes there too.
    TheirMarkCompared,
    TheirMarkSelects,
    /// Bits above 25 are compared, of ours or of the analyser's; any of ours marks a write.
    OurHighBitsCompared,
    TheirHighBitsCompared,
    HighBitsMarkWrites,
    /// A shorter list is equal: ours, theirs, either.
    ShorterLogIsEqual,
    ShorterAnalyserIsEqual,
    ShorterIsEqual,
    /// A list of another length differs at once, as its end is looked for first.
    LengthsFirst,
    /// Which list ended is told the wrong way round; or an end is told as a difference.
    SidesExchanged,
    EndsDiffer,
    /// Reads are compared too; or an empty log of writes is not equal to an empty list.
    ReadsCompared,
    ReadsAloneDiffer,
    /// Of a write the address alone is compared, or the byte alone, or all but the page.
    AddressAlone,
    ByteAlone,
    PageIsLost,
    /// The order does not matter; a repeated write is one.
    Unordered,
    RepeatedIsOne,
    /// The first write alone is compared, or the last; the first seven alone.
    FirstAlone,
    LastAlone,
    SevenAlone,
    AlwaysEqual,
}

use Fault::*;

const FAULTS: [Fault; 28] = [
    PlaceInEntries,
    PlaceOneMore,
    PlaceOneLess,
    LastPlace,
    NoPlace,
    PlaceOfEqual,
    TheirMarkCompared,
    TheirMarkSelects,
    OurHighBitsCompared,
    TheirHighBitsCompared,
    HighBitsMarkWrites,
    ShorterLogIsEqual,
    ShorterAnalyserIsEqual,
    ShorterIsEqual,
    LengthsFirst,
    SidesExchanged,
    EndsDiffer,
    ReadsCompared,
    ReadsAloneDiffer,
    AddressAlone,
    ByteAlone,
    PageIsLost,
    Unordered,
    RepeatedIsOne,
    FirstAlone,
    LastAlone,
    SevenAlone,
    AlwaysEqual,
];

/// A wrong comparison.
struct Wrong(Fault);

impl Wrong {
    fn said(&self, pair: &Pair) -> Verdict {
        let (mut ours, mut theirs) = (self.ours(pair), self.theirs(pair));
        self.choose(&mut ours);
        self.choose(&mut theirs);
        if self.0 == ReadsAloneDiffer && !pair.log.is_empty() && ours.is_empty() {
            return Verdict::new(DIFFER, 0);
        }
        if self.0 == LengthsFirst && ours.len() != theirs.len() {
            return end(&ours, &theirs);
        }
        let mut unequal = (0..ours.len().min(theirs.len())).filter(|i| ours[*i] != theirs[*i]);
        let unequal = if self.0 == LastPlace { unequal.next_back() } else { unequal.next() };
        let verdict = unequal.map_or(end(&ours, &theirs), |place| Verdict::new(DIFFER, place));
        self.changed(verdict, pair, ours.len())
    }

    /// What is compared of our writes, or of all entries.
    fn ours(&self, pair: &Pair) -> Vec<u32> {
        let is_taken = |entry: &u32| match self.0 {
            ReadsCompared => true,
            HighBitsMarkWrites => *entry > LOW,
            _ => is_write(*entry),
        };
        let mask = match self.0 {
            OurHighBitsCompared => !MARK,
            TheirMarkCompared => LOW | MARK,
            _ => self.mask(),
        };
        let taken = pair.log.iter().copied().filter(is_taken);
        taken.map(|entry| entry & mask).collect()
    }

    /// What is compared of the analyser's.
    fn theirs(&self, pair: &Pair) -> Vec<u32> {
        let is_taken = |entry: &u32| self.0 != TheirMarkSelects || is_write(*entry);
        let mask = match self.0 {
            TheirHighBitsCompared => !MARK,
            TheirMarkCompared => LOW | MARK,
            _ => self.mask(),
        };
        let taken = pair.analyser.iter().copied().filter(is_taken);
        taken.map(|entry| entry & mask).collect()
    }

    /// The bits that are compared on both sides.
    fn mask(&self) -> u32 {
        match self.0 {
            AddressAlone => 0x01FF_FF00,
            ByteAlone => 0xFF,
            PageIsLost => 0x00FF_FFFF,
            _ => LOW,
        }
    }

    /// Which of the writes are compared, and in which order.
    fn choose(&self, writes: &mut Vec<u32>) {
        match self.0 {
            Unordered => writes.sort_unstable(),
            RepeatedIsOne => writes.dedup(),
            FirstAlone => writes.truncate(1),
            LastAlone => *writes = writes.split_off(writes.len().saturating_sub(1)),
            SevenAlone => writes.truncate(7),
            _ => {}
        }
    }

    /// The verdict as it is told.
    fn changed(&self, verdict: Verdict, pair: &Pair, ours: usize) -> Verdict {
        let Verdict { place, number } = verdict;
        let equal = Verdict::new(EQUAL, 0);
        match (self.0, number) {
            (PlaceInEntries, DIFFER | ANALYSER_ENDED) => {
                let mut writes = (0..pair.log.len()).filter(|i| is_write(pair.log[*i]));
                Verdict::new(number, writes.nth(place).unwrap_or(place))
            }
            (PlaceInEntries, LOG_ENDED) => Verdict::new(number, pair.log.len()),
            (PlaceOneMore, 1..) => Verdict::new(number, place + 1),
            (PlaceOneLess, 1..) => Verdict::new(number, place.saturating_sub(1)),
            (NoPlace, _) => Verdict::new(number, 0),
            (PlaceOfEqual, EQUAL) => Verdict::new(EQUAL, ours),
            (ShorterLogIsEqual | ShorterIsEqual, LOG_ENDED) => equal,
            (ShorterAnalyserIsEqual | ShorterIsEqual, ANALYSER_ENDED) => equal,
            (SidesExchanged, LOG_ENDED) => Verdict::new(ANALYSER_ENDED, place),
            (SidesExchanged, ANALYSER_ENDED) => Verdict::new(LOG_ENDED, place),
            (EndsDiffer, LOG_ENDED | ANALYSER_ENDED) => Verdict::new(DIFFER, place),
            (AlwaysEqual, _) => equal,
            _ => verdict,
        }
    }
}

/// What is said where the shorter list is the other's beginning.
fn end(ours: &[u32], theirs: &[u32]) -> Verdict {
    match (ours.len(), theirs.len()) {
        (own, caught) if own < caught => Verdict::new(LOG_ENDED, own),
        (own, caught) if own > caught => Verdict::new(ANALYSER_ENDED, caught),
        _ => Verdict::new(EQUAL, 0),
    }
}

fn is_found(fault: Fault, pair: &Pair) -> bool {
    difference(&|pair| Ok(Wrong(fault).said(pair)), pair).is_some()
}

fn first(fault: Fault, mut pairs: impl Iterator<Item = Pair>) -> Option<Pair> {
    pairs.find(|pair| is_found(fault, pair))
}

fn directed() -> impl Iterator<Item = Pair> {
    pairs_directed::groups().into_iter().flat_map(|(_, pairs)| pairs)
}

fn random() -> impl Iterator<Item = Pair> {
    (0..3000).map(|index| pairs::made(&mut Random::new(1, index)).pair)
}

#[test]
fn without_a_fault_nothing_is_found() {
    assert_eq!(first(Nothing, directed()), None);
    assert_eq!(first(Nothing, random()), None);
}

#[test]
fn each_fault_is_found_by_the_directed_pairs() {
    for fault in FAULTS {
        assert!(first(fault, directed()).is_some(), "{fault:?}");
    }
}

#[test]
fn each_fault_is_found_by_the_random_pairs() {
    for fault in FAULTS {
        assert!(first(fault, random()).is_some(), "{fault:?}");
    }
}

/// At most four entries in both lists together, and sixteen where the eighth write is wanted; and
/// at most two bits beside the marks.
#[test]
fn each_fault_is_made_small() {
    for fault in FAULTS {
        let failing = first(fault, random()).unwrap();
        let small = smallest(&|pair| Ok(Wrong(fault).said(pair)), &failing);
        assert_ne!(Wrong(fault).said(&small), small.by_text(), "{fault:?}");
        let bits =
            small.log.iter().chain(&small.analyser).map(|entry| (entry & !MARK).count_ones());
        let most = if fault == SevenAlone { 16 } else { 4 };
        let is_small = small.entries() <= most && bits.sum::<u32>() <= 2;
        assert!(is_small, "{fault:?}\n{}", describe(&small));
    }
}
