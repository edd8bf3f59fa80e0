//! Random pairs of our log and an analyser's list: faithful ones, and such as are cut, turned in
//! one bit, or changed otherwise.

#![forbid(unsafe_code)]

use crate::pair::{is_write, Pair, Verdict, LOW, MARK};
use crate::random::Random;

/// What a pair is.
#[derive(Clone, Copy, Debug, PartialEq, Eq)]
pub enum Kind {
    BothEmpty,
    ReadsAlone,
    Faithful,
    OursCutBefore,
    OursCutWithin,
    OursCutBehind,
    TheirsCutBefore,
    TheirsCutWithin,
    TheirsCutBehind,
    BitOfWrite,
    BitOfRead,
    BitOfTheirs,
    Doubled,
    Dropped,
    Exchanged,
    SameWrite,
    LastDiffers,
    Unrelated,
    RealFaithful,
    RealChanged,
    RealDropped,
    RealAdded,
}

use Kind::*;

/// All kinds in their order, with what they are in words.
pub const KINDS: [(Kind, &str); 22] = [
    (BothEmpty, "both empty"),
    (ReadsAlone, "reads alone against an empty list"),
    (Faithful, "the same writes"),
    (OursCutBefore, "our log cut at the beginning"),
    (OursCutWithin, "our log cut within"),
    (OursCutBehind, "our log cut at the end"),
    (TheirsCutBefore, "the analyser's list cut at the beginning"),
    (TheirsCutWithin, "the analyser's list cut within"),
    (TheirsCutBehind, "the analyser's list cut at the end"),
    (BitOfWrite, "one bit of a write of ours"),
    (BitOfRead, "one bit of a read of ours"),
    (BitOfTheirs, "one bit of the analyser's"),
    (Doubled, "an entry doubled"),
    (Dropped, "an entry dropped"),
    (Exchanged, "two neighbours exchanged"),
    (SameWrite, "the same write again and again"),
    (LastDiffers, "the last write alone differs"),
    (Unrelated, "two lists of their own"),
    (RealFaithful, "a real log"),
    (RealChanged, "a real log, one write changed"),
    (RealDropped, "a real log, one write dropped"),
    (RealAdded, "a real log, one write added"),
];

impl Kind {
    pub fn title(self) -> &'static str {
        KINDS[self as usize].1
    }
}

/// The kinds without a real log, those more often of which more is to be met.
const OFTEN: [Kind; 27] = [
    BothEmpty,
    ReadsAlone,
    Faithful,
    Faithful,
    Faithful,
    OursCutBefore,
    OursCutWithin,
    OursCutBehind,
    OursCutBehind,
    TheirsCutBefore,
    TheirsCutWithin,
    TheirsCutBehind,
    TheirsCutBehind,
    BitOfWrite,
    BitOfWrite,
    BitOfRead,
    BitOfRead,
    BitOfTheirs,
    BitOfTheirs,
    Doubled,
    Dropped,
    Exchanged,
    SameWrite,
    SameWrite,
    LastDiffers,
    LastDiffers,
    Unrelated,
];

/// A pair as it was made.
pub struct Made {
    pub kind: Kind,
    pub pair: Pair,
    /// The bit that was turned, where it is one.
    pub bit: Option<u32>,
    /// What has to be said of it, where its making tells that.
    pub wanted: Option<Verdict>,
}

/// A random pair without a real log.
pub fn made(random: &mut Random) -> Made {
    let kind = random.pick(&OFTEN);
    let bit = random.below(32) as u32;
    let is_bit = matches!(kind, BitOfWrite | BitOfRead | BitOfTheirs);
    let mut pair = match kind {
        BothEmpty => Pair::default(),
        ReadsAlone => Pair { log: reads(random, 12, &[]), analyser: vec![] },
        SameWrite => same_write(random),
        Unrelated => unrelated(random),
        _ => {
            let length = length(random).max(usize::from(kind != Faithful));
            let writes = writes(random, length);
            Pair { log: with_reads(random, &writes), analyser: writes }
        }
    };
    add_marks(random, &mut pair);
    if is_bit {
        turn_bit(random, kind, bit, &mut pair);
    } else {
        alter(random, kind, &mut pair);
    }
    Made { kind, pair, bit: is_bit.then_some(bit), wanted: None }
}

/// A number of writes: mostly few, sometimes thousands.
fn length(random: &mut Random) -> usize {
    let end = match random.below(200) {
        0 => 4000,
        1..=9 => 300,
        10..=79 => 40,
        _ => 9,
    };
    random.below(end) as usize
}

/// Any address and byte.
fn any(random: &mut Random) -> u32 {
    random.next() as u32 & LOW
}

/// Writes without a mark: any ones, of three alone, of such as differ from one in one bit, or at
/// addresses one after another.
fn writes(random: &mut Random, length: usize) -> Vec<u32> {
    let few = [any(random), any(random), any(random)];
    let style = random.below(4);
    let write = |i: usize| match style {
        0 => any(random),
        1 => random.pick(&few),
        2 => few[0] ^ 1 << random.below(25),
        _ => few[0].wrapping_add((i as u32) << 8) & LOW,
    };
    (0..length).map(write).collect()
}

/// Reads, less than this number and at least one: any ones, or such as are like these writes.
fn reads(random: &mut Random, end: u64, writes: &[u32]) -> Vec<u32> {
    let count = 1 + random.below(end - 1);
    let read = |_| {
        let is_like = !writes.is_empty() && random.chance(50);
        if is_like {
            random.pick(writes)
        } else {
            any(random)
        }
    };
    (0..count).map(read).collect()
}

/// Our log of these writes: without reads, or with some before, behind and between them, here and
/// there or many in a row.
fn with_reads(random: &mut Random, writes: &[u32]) -> Vec<u32> {
    let [before, between, behind] =
        random.pick(&[[0, 0, 0], [0, 30, 0], [100, 0, 0], [0, 0, 100], [50, 30, 50], [70, 90, 70]]);
    let end = random.pick(&[2, 2, 9]);
    let mut log = vec![];
    for (i, write) in writes.iter().enumerate() {
        let percent = if i == 0 { before } else { between };
        if random.chance(percent) {
            let near = &writes[i.saturating_sub(1)..=i];
            log.extend(reads(random, end, near));
        }
        log.push(write | MARK);
    }
    if random.chance(behind) {
        log.extend(reads(random, end, writes));
    }
    log
}

/// The bits that mean nothing: in half of the pairs any, in both lists. In the others the
/// analyser's bit 25 is clear, or set as in our log.
fn add_marks(random: &mut Random, pair: &mut Pair) {
    if random.chance(50) {
        let Pair { log, analyser } = pair;
        log.iter_mut().for_each(|entry| *entry |= random.next() as u32 & !(LOW | MARK));
        analyser.iter_mut().for_each(|entry| *entry |= random.next() as u32 & !LOW);
    } else if random.chance(50) {
        pair.analyser.iter_mut().for_each(|entry| *entry |= MARK);
    }
}

/// One write so many times in our log, and as often, once more, once less or otherwise often in the
/// analyser's list.
fn same_write(random: &mut Random) -> Pair {
    let (write, ours) = (any(random), length(random));
    let theirs = match random.below(4) {
        0 => ours,
        1 => ours + 1,
        2 => ours.saturating_sub(1),
        _ => length(random),
    };
    Pair { log: with_reads(random, &vec![write; ours]), analyser: vec![write; theirs] }
}

/// Two lists, each of its own writes, which are often of the same few.
fn unrelated(random: &mut Random) -> Pair {
    let few = [any(random), any(random)];
    let is_few = random.chance(70);
    let [ours, theirs] = [(); 2].map(|()| {
        let length = length(random);
        let of_few = (0..length).map(|_| random.pick(&few)).collect();
        if is_few {
            of_few
        } else {
            writes(random, length)
        }
    });
    Pair { log: with_reads(random, &ours), analyser: theirs }
}

/// Turns this bit in one entry. A log without a read gets one.
fn turn_bit(random: &mut Random, kind: Kind, bit: u32, pair: &mut Pair) {
    let Pair { log, analyser } = pair;
    if kind == BitOfRead && log.iter().all(|entry| is_write(*entry)) {
        let (place, read) = (place(random, log.len() + 1), any(random));
        log.insert(place, read);
    }
    let list = if kind == BitOfTheirs { analyser } else { log };
    let is_wanted = |i: &usize| kind == BitOfTheirs || is_write(list[*i]) == (kind == BitOfWrite);
    let places: Vec<usize> = (0..list.len()).filter(is_wanted).collect();
    list[random.pick(&places)] ^= 1 << bit;
}

/// A place of so many.
fn place(random: &mut Random, places: usize) -> usize {
    random.below(places as u64) as usize
}

/// Changes a faithful pair as its kind says.
fn alter(random: &mut Random, kind: Kind, pair: &mut Pair) {
    let is_ours = match kind {
        OursCutBefore | OursCutWithin | OursCutBehind => true,
        TheirsCutBefore | TheirsCutWithin | TheirsCutBehind => false,
        _ => random.chance(50),
    };
    let list = if is_ours { &mut pair.log } else { &mut pair.analyser };
    match kind {
        OursCutBefore | TheirsCutBefore => cut(random, list, |_, _| 0),
        OursCutWithin | TheirsCutWithin => {
            cut(random, list, |random, left| place(random, left + 1))
        }
        OursCutBehind | TheirsCutBehind => cut(random, list, |_, left| left),
        Doubled => {
            let place = place(random, list.len());
            list.insert(place, list[place]);
        }
        Dropped => {
            list.remove(place(random, list.len()));
        }
        Exchanged => exchange(random, list),
        LastDiffers => change_last(random, list, is_ours),
        _ => {}
    }
}

/// Takes out one entry, or many; from where, is told for the number of those left.
fn cut(random: &mut Random, list: &mut Vec<u32>, from: fn(&mut Random, usize) -> usize) {
    let count = if random.chance(50) { 1 } else { 1 + place(random, list.len()) };
    let from = from(random, list.len() - count);
    list.drain(from..from + count);
}

/// Exchanges two neighbours. A single entry is left as it is.
fn exchange(random: &mut Random, list: &mut [u32]) {
    if list.len() > 1 {
        let place = place(random, list.len() - 1);
        list.swap(place, place + 1);
    }
}

/// Changes address or byte of the last write.
fn change_last(random: &mut Random, list: &mut [u32], is_ours: bool) {
    let mut writes = list.iter_mut().rev().filter(|entry| !is_ours || is_write(**entry));
    if let Some(last) = writes.next() {
        *last ^= 1 << random.below(25);
    }
}

#[cfg(test)]
mod tests {
    use super::{made, Kind, KINDS};
    use crate::pair::{is_write, Pair, DIFFER, EQUAL};
    use crate::random::Random;

    fn all() -> impl Iterator<Item = super::Made> {
        (0..20_000).map(|index| made(&mut Random::new(3, index)))
    }

    #[test]
    fn each_kind_is_at_its_place() {
        for (place, (kind, _)) in KINDS.into_iter().enumerate() {
            assert_eq!(kind as usize, place);
        }
    }

    #[test]
    fn a_pair_depends_on_seed_and_index_alone() {
        for index in 0..200 {
            let [first, second] = [(); 2].map(|()| made(&mut Random::new(5, index)).pair);
            assert_eq!(first, second);
        }
    }

    #[test]
    fn the_kinds_are_what_they_say() {
        for made in all() {
            let verdict = made.pair.by_text();
            let Pair { log, analyser } = &made.pair;
            match made.kind {
                Kind::BothEmpty => assert!(log.is_empty() && analyser.is_empty()),
                Kind::ReadsAlone => {
                    assert!(!log.is_empty() && analyser.is_empty());
                    assert!(!log.iter().any(|entry| is_write(*entry)));
                }
                Kind::Faithful => assert_eq!(verdict.number, EQUAL),
                Kind::LastDiffers => {
                    assert_eq!((verdict.number, verdict.place), (DIFFER, analyser.len() - 1));
                }
                _ => {}
            }
        }
    }

    /// Bits 0 to 24 of a write are found, those of a read and the bits above mean nothing, and bit
    /// 25 of ours makes the one of the other.
    #[test]
    fn a_turned_bit_is_found_where_it_means_something() {
        for made in all() {
            let Some(bit) = made.bit else { continue };
            let number = made.pair.by_text().number;
            match (made.kind, bit) {
                (Kind::BitOfWrite | Kind::BitOfTheirs, 0..=24) => assert_eq!(number, DIFFER),
                (Kind::BitOfWrite | Kind::BitOfRead, 25) => assert_ne!(number, EQUAL),
                _ => assert_eq!(number, EQUAL),
            }
        }
    }
}
