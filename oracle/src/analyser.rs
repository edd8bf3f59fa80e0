//! Pairs of our log and an analyser's list (document 02, F-3): the port's comparison against the
//! oracle's own.

#![forbid(unsafe_code)]

use std::fmt::Write;

use crate::pair::{describe, is_write, Pair, Verdict, LOW, MARK};
use crate::pairs::{self, Kind, Made, KINDS};
use crate::pairs_directed;
use crate::port;
use crate::progress::Progress;
use crate::random::Random;
use crate::real_logs;
use crate::shrink_pair::shrink;

/// A comparison: what it says of a pair, or what is wrong with its call.
pub type Compare<'a> = &'a dyn Fn(&Pair) -> Result<Verdict, String>;

/// A run of so many pairs has to meet everything that is counted.
const ENOUGH: u64 = 10_000;
/// One pair of so many has a real log.
const REAL: u64 = 16;

/// Pair number `index`, from the seed and this number alone.
fn made(seed: u64, index: u64) -> Made {
    let mut random = Random::new(seed, index);
    if index % REAL == REAL - 1 {
        real_logs::made(&mut random)
    } else {
        pairs::made(&mut random)
    }
}

/// The pair, and pairs of which the same has to be said: without the reads of our log, and with one
/// more read at its beginning, at its end and somewhere within.
fn alike(pair: &Pair) -> Vec<(String, Pair)> {
    let length = pair.log.len();
    let mut random = Random::new(length as u64, pair.analyser.len() as u64);
    let within = random.below(length as u64 + 1) as usize;
    let read = random.next() as u32 & !MARK;
    let mut alike = vec![(String::new(), pair.clone())];
    alike.push(("without reads: ".to_string(), pair.without_reads()));
    for place in [0, length, within] {
        let what = format!("with the read {read:08X} put in at entry {place}: ");
        alike.push((what, pair.with_entry(place, read)));
    }
    alike
}

/// The first thing that a comparison says wrongly, of the pair or of one of which the same has to
/// be said.
pub fn difference(compare: Compare, pair: &Pair) -> Option<String> {
    let wanted = pair.by_text();
    alike(pair).into_iter().find_map(|(what, pair)| match compare(&pair) {
        Ok(said) if said == wanted => None,
        Ok(said) => Some(format!("{what}{said}, and not: {wanted}")),
        Err(message) => Some(format!("{what}{message}")),
    })
}

/// The smallest failing pair found; the pair itself where nothing but its making tells that what is
/// said is wrong.
pub fn smallest(compare: Compare, pair: &Pair) -> Pair {
    let is_wrong = |pair: &Pair| compare(pair) != Ok(pair.by_text());
    let mut pairs = alike(pair).into_iter().map(|(_, pair)| pair);
    match pairs.find(is_wrong) {
        Some(failing) => shrink(failing, &is_wrong),
        None => pair.clone(),
    }
}

/// Where the making of a pair tells what has to be said, and something else is said.
fn unwanted(compare: Compare, made: &Made) -> Option<String> {
    let wanted = made.wanted?;
    let said = compare(&made.pair);
    let wrong = said != Ok(wanted);
    wrong.then(|| format!("said is {said:?}, and made is a pair of which this is true: {wanted}"))
}

/// Something about a pair that is counted.
type Feature = (&'static str, fn(&Pair) -> bool);

const FEATURES: [Feature; 10] = [
    ("an empty log", |pair| pair.log.is_empty()),
    ("an empty analyser's list", |pair| pair.analyser.is_empty()),
    ("writes alone", |pair| !pair.log.is_empty() && pair.log.iter().all(|entry| is_write(*entry))),
    ("a read first", |pair| pair.log.first().is_some_and(|entry| !is_write(*entry))),
    ("a read last", |pair| pair.log.last().is_some_and(|entry| !is_write(*entry))),
    ("three reads in a row", |pair| {
        pair.log.windows(3).any(|three| !three.iter().any(|entry| is_write(*entry)))
    }),
    ("bits 26 to 31 of ours set", |pair| pair.log.iter().any(|entry| entry >> 26 != 0)),
    ("bits 26 to 31 of the analyser's set", |pair| {
        pair.analyser.iter().any(|entry| entry >> 26 != 0)
    }),
    ("bit 25 of each of the analyser's set, and no bit above", |pair| {
        !pair.analyser.is_empty() && pair.analyser.iter().all(|entry| entry & !LOW == MARK)
    }),
    ("1,000 entries or more", |pair| pair.entries() >= 1000),
];

const ANSWERS: [&str; 4] = ["equal", "differ", "log ended", "analyser ended"];

/// The kinds whose bits are counted.
const BITS: [Kind; 3] = [Kind::BitOfWrite, Kind::BitOfRead, Kind::BitOfTheirs];

/// What the pairs have reached.
#[derive(Default)]
struct Counts {
    pairs: u64,
    entries: u64,
    answers: [u64; ANSWERS.len()],
    kinds: [u64; KINDS.len()],
    features: [u64; FEATURES.len()],
    /// How often each bit was turned, by the kind of the entry.
    bits: [[u64; 32]; BITS.len()],
}

impl Counts {
    /// A pair that was compared, and what is true of it.
    fn add(&mut self, pair: &Pair) {
        self.pairs += 1;
        self.entries += pair.entries() as u64;
        self.answers[usize::from(pair.by_text().number)] += 1;
        for (count, (_, is_met)) in self.features.iter_mut().zip(FEATURES) {
            *count += u64::from(is_met(pair));
        }
    }

    fn add_made(&mut self, made: &Made) {
        self.add(&made.pair);
        self.kinds[made.kind as usize] += 1;
        let row = BITS.iter().position(|kind| *kind == made.kind);
        if let (Some(row), Some(bit)) = (row, made.bit) {
            self.bits[row][bit as usize] += 1;
        }
    }

    /// What was never met.
    fn unmet(&self) -> Vec<String> {
        let titles = KINDS.map(|(_, title)| title);
        let features = FEATURES.map(|(name, _)| name);
        let named = ANSWERS.iter().zip(&self.answers);
        let named = named.chain(titles.iter().zip(&self.kinds));
        let named = named.chain(features.iter().zip(&self.features));
        let mut unmet: Vec<String> =
            named.filter(|(_, count)| **count == 0).map(|(name, _)| name.to_string()).collect();
        for (kind, counts) in BITS.into_iter().zip(&self.bits) {
            let bits = (0..32).filter(|bit| counts[*bit] == 0);
            unmet.extend(bits.map(|bit| format!("{}: bit {bit}", kind.title())));
        }
        unmet
    }

    fn answers(&self) -> String {
        let named = ANSWERS.iter().zip(self.answers);
        let named: Vec<String> = named.map(|(name, count)| format!("{name} {count}")).collect();
        named.join(", ")
    }

    fn report(&self) -> String {
        let mut text = format!("answers: {}\nkinds:\n", self.answers());
        for ((_, title), count) in KINDS.iter().zip(self.kinds) {
            let _ = writeln!(text, "{count:>10}  {title}");
        }
        for (kind, counts) in BITS.into_iter().zip(&self.bits) {
            let met = counts.iter().filter(|count| **count > 0).count();
            let least = counts.iter().min().unwrap_or(&0);
            let title = kind.title();
            let _ = writeln!(text, "{title}: {met} of 32 bits, each at least {least} times");
        }
        text.push_str("pairs with:\n");
        for ((name, _), count) in FEATURES.iter().zip(self.features) {
            let _ = writeln!(text, "{count:>10}  {name}");
        }
        text
    }
}

/// Prints the smallest failing pair found, with both answers.
fn report_smallest(compare: Compare, pair: &Pair) {
    let smallest = smallest(compare, pair);
    println!("smallest failing pair found:");
    print!("{}", describe(&smallest));
    println!("document 02: {}", smallest.by_text());
    match compare(&smallest) {
        Ok(said) => println!("port: {said}"),
        Err(message) => println!("port: {message}"),
    }
}

/// Runs the directed pairs; true where no difference was found, and every answer was met.
fn run_directed(compare: Compare) -> bool {
    let mut counts = Counts::default();
    for (what, pairs) in pairs_directed::groups() {
        for pair in pairs {
            if let Some(how) = difference(compare, &pair) {
                println!("a directed pair, {what}, differs: {how}; making it smaller");
                report_smallest(compare, &pair);
                return false;
            }
            counts.add(&pair);
        }
    }
    let Counts { pairs, entries, .. } = counts;
    println!("{pairs} directed pairs, {entries} entries: {}", counts.answers());
    counts.answers.iter().all(|count| *count > 0)
}

/// Runs the random pairs; what they have reached, or nothing at a difference, which is printed.
fn run_random(compare: Compare, pairs: u64, seed: u64) -> Option<Counts> {
    let mut counts = Counts::default();
    let mut progress = Progress::new("pair", pairs);
    for index in 0..pairs {
        let made = made(seed, index);
        let found = difference(compare, &made.pair).or_else(|| unwanted(compare, &made));
        if let Some(how) = found {
            progress.wipe();
            let title = made.kind.title();
            println!("pair {index}, {title}, differs: {how}; making it smaller");
            report_smallest(compare, &made.pair);
            return None;
        }
        counts.add_made(&made);
        progress.show(index);
    }
    progress.wipe();
    Some(counts)
}

/// Compares the port with document 02's text; true where no difference was found and, in a run of
/// enough pairs, everything was met.
pub fn run(pairs: u64, seed: u64) -> bool {
    println!("seed {seed}, document 02's text against port");
    let compare = &port::compare_kept;
    if !run_directed(compare) {
        return false;
    }
    let Some(counts) = run_random(compare, pairs, seed) else { return false };
    print!("{}", counts.report());
    let unmet = counts.unmet();
    let is_met = pairs < ENOUGH || unmet.is_empty();
    if !is_met {
        println!("never met: {}", unmet.join("; "));
    }
    println!("{pairs} pairs, {} entries, 0 differences", counts.entries);
    is_met
}

#[cfg(test)]
mod tests {
    use super::{unwanted, Counts};
    use crate::pair::{Pair, Verdict, DIFFER, EQUAL};
    use crate::pairs::{self, Kind, Made};
    use crate::random::Random;

    /// The pairs without a real log meet everything but the real logs.
    #[test]
    fn enough_pairs_meet_everything() {
        let mut counts = Counts::default();
        for index in 0..10_000 {
            counts.add_made(&pairs::made(&mut Random::new(1, index)));
        }
        let real = [Kind::RealFaithful, Kind::RealChanged, Kind::RealDropped, Kind::RealAdded];
        assert_eq!(counts.unmet(), real.map(Kind::title));
    }

    /// A wrong answer is seen where document 02's text is read as wrongly.
    #[test]
    fn the_making_of_a_pair_tells() {
        let said = |wanted: Option<Verdict>| {
            let made = Made { kind: Kind::RealFaithful, pair: Pair::default(), bit: None, wanted };
            unwanted(&|pair| Ok(pair.by_text()), &made)
        };
        assert_eq!(said(None), None);
        assert_eq!(said(Some(Verdict::new(EQUAL, 0))), None);
        assert!(said(Some(Verdict::new(DIFFER, 0))).is_some());
    }
}
