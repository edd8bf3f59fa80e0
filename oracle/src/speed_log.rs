//! The speed with a bus log: the port with a log lent, beside the original's bare steps over a
//! memory that records its accesses as the same entries.
//!
//! A run is cut into calls, and the log is emptied after each of them. Record and pages are put
//! back outside of the time taken.

#![forbid(unsafe_code)]

use std::time::Instant;

use crate::call::{BusLog, Call};
use crate::compare::Comparison;
use crate::memory::Memory;
use crate::original;
use crate::port::{self, Lent, Port, Words};
use crate::speed::{ratio, spread, Spread};

/// The steps of a call.
const CUT: u32 = 10_000;
const STEPS: u32 = 1_000_000;

const ORIGINAL: usize = 0;
const PORT: usize = 1;

/// The original and the port, each with its own pages and its own log.
struct Sides {
    machine: original::Pc1500,
    words: Words,
    pages: [Vec<u8>; 2],
    log: BusLog,
}

impl Sides {
    fn new(call: &Call) -> Sides {
        let log = BusLog::for_steps(CUT);
        let mut memory = Memory::one_way(call.pages.clone());
        memory.accesses().reserve(log.entries.len());
        let machine = original::Pc1500::over(&call.record, call.inputs, memory);
        Sides { machine, words: port::words(&call.record), pages: call.pages.clone(), log }
    }

    /// Back to the run's start.
    fn reset(&mut self, way: usize, call: &Call) {
        if way == PORT {
            self.words = port::words(&call.record);
            self.pages.clone_from(&call.pages);
        } else {
            self.machine.begin(&call.record);
            self.machine.memory.pages().clone_from(&call.pages);
        }
    }

    /// One run; tells the number of its last call. Bare steps have none.
    fn run(&mut self, way: usize, call: &Call) -> u64 {
        for _ in 0..STEPS / CUT {
            if way == ORIGINAL {
                self.machine.memory.accesses().clear();
                self.machine.logged_steps(CUT);
            } else {
                let [page0, page1] = &mut self.pages;
                let lent = Lent { list: Some(&mut self.log.entries), used: 0 };
                let (words, inputs, read_only) = (&mut self.words, call.inputs, call.read_only);
                self.log.used = port::run(words, page0, page1, inputs, CUT, lent, read_only);
            }
        }
        if way == PORT {
            self.words[12]
        } else {
            0
        }
    }

    /// Nanoseconds for a step.
    fn cost(&mut self, way: usize, call: &Call) -> f64 {
        self.reset(way, call);
        let begin = Instant::now();
        self.run(way, call);
        begin.elapsed().as_nanos() as f64 / f64::from(STEPS)
    }

    /// Whether the first call's log is the same, and both ways end with the same record and pages
    /// and as many entries of the last call.
    fn check(&mut self, name: &str, call: &Call) -> Result<(), String> {
        let bus_log = Some(BusLog::for_steps(CUT));
        let first = Call { limit: CUT, bus_log, ..call.clone() };
        if let (.., Some(how)) = Comparison::new(Box::new(Port)).both(&first) {
            return Err(format!("{name} with a log: {how}"));
        }
        for way in [ORIGINAL, PORT] {
            self.reset(way, call);
            let number = self.run(way, call);
            if number != 0 {
                return Err(format!("{name} with a log: the run stops with {number}"));
            }
        }
        let entries = self.machine.memory.accesses().len();
        let same = port::record(&self.words)? == self.machine.lh5801.record()
            && self.pages == *self.machine.memory.pages()
            && self.log.used == entries;
        same.then_some(()).ok_or_else(|| format!("{name} with a log: the ways end differently"))
    }
}

/// The costs of both ways, in interleaved rounds. The first round is not counted.
fn measure(name: &str, call: &Call, rounds: u64) -> Result<[Spread; 2], String> {
    let mut sides = Sides::new(call);
    sides.check(name, call)?;
    let mut costs = [vec![], vec![]];
    for round in 0..=rounds {
        for turn in 0..2 {
            let way = (round as usize + turn) % 2;
            let cost = sides.cost(way, call);
            if round > 0 {
                costs[way].push(cost);
            }
        }
    }
    Ok(costs.map(spread))
}

/// Measures and prints the programs.
pub fn run(programs: &[(&'static str, Call)], rounds: u64) -> Result<(), String> {
    println!("\nWith a log: {STEPS} steps in calls of {CUT}, the log emptied after each;");
    println!("the original's bare steps record the same entries; nanoseconds a step");
    println!("{:<27} {:>28} {:>28} {:>13}", "", "bare, recording", "port, logging", "bare/port");
    for (name, call) in programs {
        let costs = measure(name, call, rounds)?;
        let [original, port] = costs.each_ref().map(Spread::to_string);
        let ratio = ratio(&costs[ORIGINAL], &costs[PORT]);
        println!("{name:<27} {original:>28} {port:>28} {ratio:>13}");
    }
    Ok(())
}
