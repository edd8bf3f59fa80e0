//! Directed pairs of our log and an analyser's list: every bit of an entry on each side, every
//! split of short lists, and every entry doubled, dropped or exchanged.

#![forbid(unsafe_code)]

use crate::pair::{Pair, LOW, MARK};

/// Directed pairs in the order in which they are made.
pub type Pairs = Box<dyn Iterator<Item = Pair>>;

/// All groups, with a title each.
pub fn groups() -> Vec<(&'static str, Pairs)> {
    vec![
        ("one bit turned", Box::new(bits())),
        ("lists of every length", Box::new(lengths())),
        ("the same write again and again", Box::new(same_writes())),
        ("an entry changed", Box::new(changes())),
    ]
}

/// The write number i, without a mark: a page, an address and a byte of its own.
fn write(i: usize) -> u32 {
    0x0012_3456_u32.wrapping_add(i as u32 * 0x0071_1F15) & LOW
}

/// Where the reads are.
#[derive(Clone, Copy, PartialEq, Eq)]
enum Reads {
    Nowhere,
    Before,
    Behind,
    Everywhere,
}

const READS: [Reads; 4] = [Reads::Nowhere, Reads::Before, Reads::Behind, Reads::Everywhere];

/// Our log of these writes, with two reads at each place where they are: the next write without its
/// mark, and nothing at address 0.
fn log(writes: &[u32], reads: Reads) -> Vec<u32> {
    let mut log = vec![];
    for (i, write) in writes.iter().enumerate() {
        if reads == Reads::Everywhere || reads == Reads::Before && i == 0 {
            log.extend([*write, 0]);
        }
        log.push(write | MARK);
    }
    if reads == Reads::Everywhere || reads == Reads::Behind {
        log.extend([writes.last().copied().unwrap_or(write(0)), 0]);
    }
    log
}

/// The pair with every bit that means nothing clear, with the analyser's bit 25 set as in our log,
/// and with all of them set.
fn with_marks(pair: &Pair) -> [Pair; 3] {
    let with = |ours: u32, theirs: u32| Pair {
        log: pair.log.iter().map(|entry| entry | ours).collect(),
        analyser: pair.analyser.iter().map(|entry| entry | theirs).collect(),
    };
    [with(0, 0), with(0, MARK), with(!(LOW | MARK), !LOW)]
}

/// Each of the 32 bits of each entry of five writes, on each side, with and without reads.
fn bits() -> impl Iterator<Item = Pair> {
    let writes: Vec<u32> = (0..5).map(write).collect();
    let faithful = READS.into_iter().map(move |reads| {
        let log = log(&writes, reads);
        Pair { log, analyser: writes.clone() }
    });
    let marked = faithful.flat_map(|pair| with_marks(&pair));
    marked.flat_map(|pair| (0..32).flat_map(move |bit| turned(&pair, bit)))
}

/// The pairs with this bit of one entry turned.
fn turned(pair: &Pair, bit: u32) -> Vec<Pair> {
    let ours = (0..pair.log.len()).map(|place| {
        let mut pair = pair.clone();
        pair.log[place] ^= 1 << bit;
        pair
    });
    let theirs = (0..pair.analyser.len()).map(|place| {
        let mut pair = pair.clone();
        pair.analyser[place] ^= 1 << bit;
        pair
    });
    ours.chain(theirs).collect()
}

/// So many writes on each side, of which so many are the same from the beginning on.
fn split(ours: usize, theirs: usize, same: usize, reads: Reads) -> Pair {
    let writes: Vec<u32> = (0..ours).map(write).collect();
    let caught = |i: usize| if i < same { write(i) } else { write(i + 100) };
    Pair { log: log(&writes, reads), analyser: (0..theirs).map(caught).collect() }
}

/// 0 to 8 writes on each side, with every common beginning that they may have.
fn lengths() -> impl Iterator<Item = Pair> {
    let lengths = (0..=8).flat_map(|ours| (0..=8).map(move |theirs: usize| (ours, theirs)));
    let splits = lengths
        .flat_map(|(ours, theirs)| (0..=theirs.min(ours)).map(move |same| [ours, theirs, same]));
    splits.flat_map(|[ours, theirs, same]| {
        READS.into_iter().flat_map(move |reads| with_marks(&split(ours, theirs, same, reads)))
    })
}

/// One write 0 to 8 times on each side.
fn same_writes() -> impl Iterator<Item = Pair> {
    let lengths = (0..=8).flat_map(|ours| (0..=8).map(move |theirs| (ours, theirs)));
    lengths.flat_map(|(ours, theirs)| {
        READS.into_iter().map(move |reads| {
            let log = log(&vec![write(3); ours], reads);
            Pair { log, analyser: vec![write(3); theirs] }
        })
    })
}

/// Each entry of a list, here the only one, changed in some way.
type Change = fn(&mut Vec<u32>, usize);

const CHANGES: [Change; 6] = [
    |list, place| list.insert(place, list[place]),
    |list, place| {
        list.remove(place);
    },
    |list, place| {
        let next = (place + 1) % list.len();
        list.swap(place, next);
    },
    |list, place| list[place] = list[place] & !LOW | write(99),
    |list, place| list.insert(place, MARK | write(99)),
    |list, place| list.truncate(place),
];

/// One to six writes with each entry doubled, dropped, exchanged with the next one, or changed,
/// with another one before it, and the list cut there, on each side.
fn changes() -> impl Iterator<Item = Pair> {
    let lengths = (1..=6).flat_map(|length| READS.into_iter().map(move |reads| (length, reads)));
    let pairs = lengths.map(|(length, reads)| split(length, length, length, reads));
    pairs.flat_map(|pair| CHANGES.into_iter().flat_map(move |change| changed(&pair, change)))
}

fn changed(pair: &Pair, change: Change) -> Vec<Pair> {
    let ours = (0..pair.log.len()).map(|place| {
        let mut pair = pair.clone();
        change(&mut pair.log, place);
        pair
    });
    let theirs = (0..pair.analyser.len()).map(|place| {
        let mut pair = pair.clone();
        change(&mut pair.analyser, place);
        pair
    });
    ours.chain(theirs).collect()
}
