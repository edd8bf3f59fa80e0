//! The speed of the port's comparison of a log with an analyser's list, beside two plain walks over
//! the same memory.

#![forbid(unsafe_code)]

use std::hint::black_box;
use std::time::Instant;

use crate::call::{BusLog, Call};
use crate::pair::{is_write, Pair, Verdict, EQUAL, LOW, MARK};
use crate::port;
use crate::random::Random;
use crate::real_logs::{logged_by_port, written_by_original};
use crate::speed::{ratio, spread, Spread};

/// The entries of our log.
const ENTRIES: usize = 65_536;
/// How often a list is gone through in one measurement.
const REPEATS: u32 = 20;

/// The three ways, in the table's order.
const PORT: usize = 0;
const WALK: usize = 1;

/// A walk that the compiler can neither remove nor do for many entries at once: each entry is added
/// to the turned number of the last one.
#[inline(never)]
fn walk(list: &[u32]) -> u32 {
    list.iter().fold(0_u32, |sum, entry| sum.rotate_left(5).wrapping_add(*entry))
}

/// A plain sum, which the compiler makes for several entries at once.
#[inline(never)]
fn sum(list: &[u32]) -> u32 {
    list.iter().fold(0_u32, |sum, entry| sum.wrapping_add(*entry))
}

fn once(way: usize, pair: &mut Pair) {
    let Pair { log, analyser } = pair;
    match way {
        PORT => {
            black_box(port::compare(black_box(log), black_box(analyser)));
        }
        WALK => {
            black_box(walk(black_box(log)) ^ walk(black_box(analyser)));
        }
        _ => {
            black_box(sum(black_box(log)) ^ sum(black_box(analyser)));
        }
    }
}

/// Nanoseconds for an entry of our log.
fn cost(way: usize, pair: &mut Pair) -> f64 {
    let begin = Instant::now();
    for _ in 0..REPEATS {
        once(way, pair);
    }
    begin.elapsed().as_nanos() as f64 / f64::from(REPEATS) / pair.log.len() as f64
}

/// The costs of the ways, in interleaved rounds. The first round is not counted.
fn measure(pair: &mut Pair, rounds: u64) -> [Spread; 3] {
    let mut costs = [vec![], vec![], vec![]];
    for round in 0..=rounds {
        for turn in 0..3 {
            let way = (round as usize + turn) % 3;
            let cost = cost(way, pair);
            if round > 0 {
                costs[way].push(cost);
            }
        }
    }
    costs.map(spread)
}

/// The log of a program until it is full, and the writes of the original.
fn real(call: &Call) -> Pair {
    let bus_log = Some(BusLog { entries: vec![0; ENTRIES], used: 0 });
    let call = Call { bus_log, ..call.clone() };
    Pair { log: logged_by_port(&call), analyser: written_by_original(&call) }
}

/// Random writes, of which so many percent are reads in our log.
fn random(reads: u64) -> Pair {
    let mut random = Random::new(0xF3, reads);
    let mut entry = |_| {
        let entry = random.next() as u32 & LOW;
        entry | if random.chance(reads) { 0 } else { MARK }
    };
    let log: Vec<u32> = (0..ENTRIES).map(&mut entry).collect();
    let writes = log.iter().copied().filter(|entry| is_write(*entry));
    Pair { analyser: writes.map(|entry| entry & LOW).collect(), log }
}

/// A pair's title. The comparison has to go through both lists: they are equal.
fn title(name: &str, pair: &Pair) -> Result<String, String> {
    let equal = Verdict::new(EQUAL, 0);
    let (said, wanted) = (port::compare_kept(pair)?, pair.by_text());
    if said != equal || wanted != equal {
        return Err(format!("{name}, a comparison: port: {said}; document 02: {wanted}"));
    }
    Ok(format!("{name}: {} writes", pair.analyser.len()))
}

/// Measures and prints the comparison on the programs' logs and on random ones.
pub fn run(programs: &[(&'static str, Call)], rounds: u64) -> Result<(), String> {
    println!("\nOur log of some {ENTRIES} entries against an analyser's list of the same writes;");
    println!("walk: each entry of both lists added to the last sum turned by 5 bits, one by one;");
    println!(
        "sum: a plain sum of the same entries, several at once; nanoseconds an entry of our log"
    );
    println!(
        "{:<28} {:>24} {:>24} {:>24} {:>13}",
        "", "port, comparing", "walk", "sum", "walk/port"
    );
    let mut pairs: Vec<(&str, Pair)> =
        programs.iter().map(|(name, call)| (*name, real(call))).collect();
    pairs.extend([("one half reads", random(50)), ("a tenth writes", random(90))]);
    pairs.push(("writes alone", random(0)));
    for (name, pair) in &mut pairs {
        let title = title(name, pair)?;
        let costs = measure(pair, rounds);
        let [port, walk, sum] = costs.each_ref().map(Spread::to_string);
        let ratio = ratio(&costs[WALK], &costs[PORT]);
        println!("{title:<28} {port:>24} {walk:>24} {sum:>24} {ratio:>13}");
    }
    Ok(())
}
