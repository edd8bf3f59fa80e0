//! Makes a failing pair of lists smaller: fewer entries first, then fewer bits.

#![forbid(unsafe_code)]

use std::ops::Range;

use crate::pair::{is_write, Pair, LOW, MARK};

/// Up to so many entries, the bits of single entries are cleared too.
const FEW: usize = 64;

/// The smallest pair found for which `fails` still holds.
pub fn shrink(pair: Pair, fails: &dyn Fn(&Pair) -> bool) -> Pair {
    let mut best = pair;
    loop {
        let found = shorter(&best).find(|candidate| fails(candidate));
        match found.or_else(|| plainer(&best).find(|candidate| fails(candidate))) {
            Some(smaller) => best = smaller,
            None => return best,
        }
    }
}

/// The pairs with a run of entries less, long runs first: the same writes in both lists, or a run
/// of one list.
fn shorter(pair: &Pair) -> impl Iterator<Item = Pair> + '_ {
    let longest = pair.log.len().max(pair.analyser.len());
    let powers = (0..usize::BITS).rev().map(|power| 1 << power);
    let runs = powers.filter(move |run| *run <= longest);
    let ranges = runs.flat_map(move |run| (0..longest).step_by(run).map(move |at| at..at + run));
    let ways = [both_less, ours_less, theirs_less];
    let pairs = ranges.flat_map(move |range| ways.map(|way| way(pair, &range)));
    pairs.filter(|candidate| candidate.entries() < pair.entries())
}

fn less(list: &[u32], range: &Range<usize>) -> Vec<u32> {
    let [begin, end] = [range.start, range.end].map(|place| place.min(list.len()));
    [&list[..begin], &list[end..]].concat()
}

fn ours_less(pair: &Pair, range: &Range<usize>) -> Pair {
    pair.with_log(less(&pair.log, range))
}

fn theirs_less(pair: &Pair, range: &Range<usize>) -> Pair {
    Pair { log: pair.log.clone(), analyser: less(&pair.analyser, range) }
}

/// Without the writes of these numbers.
fn both_less(pair: &Pair, range: &Range<usize>) -> Pair {
    let mut writes = 0;
    let mut log = vec![];
    for entry in &pair.log {
        let is_among = is_write(*entry) && range.contains(&writes);
        writes += usize::from(is_write(*entry));
        if !is_among {
            log.push(*entry);
        }
    }
    Pair { log, analyser: less(&pair.analyser, range) }
}

/// The pairs with bits cleared: of all entries, or of one, or of the same write in both lists.
fn plainer(pair: &Pair) -> impl Iterator<Item = Pair> + '_ {
    let many = [LOW, !(LOW | MARK)];
    let bits = (0..32).map(|bit| 1 << bit);
    let masks = many.into_iter().chain(bits);
    let pairs = masks.flat_map(move |mask| {
        let places = places(pair).into_iter();
        places.map(move |[ours, theirs]| cleared(pair, ours, theirs, mask))
    });
    pairs.filter(move |candidate| candidate != pair)
}

/// Runs of both lists whose bits are cleared together.
fn places(pair: &Pair) -> Vec<[Range<usize>; 2]> {
    let (ours, theirs) = (pair.log.len(), pair.analyser.len());
    let mut places = vec![[0..ours, 0..theirs], [0..ours, 0..0], [0..0, 0..theirs]];
    if pair.entries() > FEW {
        return places;
    }
    let writes = (0..ours).filter(|i| is_write(pair.log[*i]));
    places.extend(writes.zip(0..theirs).map(|(i, k)| [i..i + 1, k..k + 1]));
    places.extend((0..ours).map(|i| [i..i + 1, 0..0]));
    places.extend((0..theirs).map(|k| [0..0, k..k + 1]));
    places
}

fn cleared(pair: &Pair, ours: Range<usize>, theirs: Range<usize>, mask: u32) -> Pair {
    let mut pair = pair.clone();
    pair.log[ours].iter_mut().for_each(|entry| *entry &= !mask);
    pair.analyser[theirs].iter_mut().for_each(|entry| *entry &= !mask);
    pair
}

#[cfg(test)]
mod tests {
    use super::shrink;
    use crate::pair::{Pair, MARK};

    /// Two thousand writes, with as many reads, that differ in the last one.
    #[test]
    fn a_long_pair_becomes_short() {
        let caught = (0..2000).map(|i| i << 6 | 0x20);
        let log: Vec<u32> = caught.clone().flat_map(|write| [0xFC00_0000, write | MARK]).collect();
        let mut analyser: Vec<u32> = caught.collect();
        analyser[1999] ^= 0x11;
        let pair = Pair { log, analyser };
        assert_eq!(pair.by_text().place, 1999);
        let last = shrink(pair.clone(), &|pair| pair.by_text().place > 0);
        assert_eq!((last.log, last.analyser), (vec![MARK], vec![0, 0]));
        let wanted = pair.by_text().number;
        let differing = shrink(pair, &|pair| pair.by_text().number == wanted);
        assert_eq!(differing.entries(), 2);
    }
}
