//! The speed of the original and of the port, from one driver, in interleaved rounds.
//!
//! Three ways do the same work: the original's bare `step_cpu` loop, the original under a run call
//! with its stop checks, and the port's run call. Every measured run begins from the same record
//! and pages, which are put back outside of the time taken, and its end is compared.

#![forbid(unsafe_code)]

use std::fmt;
use std::fs;
use std::panic::{catch_unwind, AssertUnwindSafe};
use std::path::{Path, PathBuf};
use std::time::Instant;

use bare::{Pc1500, Returned};

use crate::call::{Answer, BusLog, Call, Inputs, Record};
use crate::campaign;
use crate::port::{self, Lent, Words};
use crate::speed_analyser;
use crate::speed_log;

pub struct Settings {
    pub rounds: u64,
    pub bench: PathBuf,
}

/// The three ways, in the table's order.
pub const WAYS: [&str; 3] = ["bare", "original", "port"];
const BARE: usize = 0;
const ORIGINAL: usize = 1;
const PORT: usize = 2;

/// A run cut into calls of equal limits, made again from its start some times in a round.
struct Work {
    title: String,
    call: Call,
    /// Each call's limit; the run has `call.limit` steps.
    cut: u32,
    repeats: u32,
    /// What one unit of the printed cost is: a step or a call.
    per_call: bool,
}

impl Work {
    /// The run as one call, made again up to a million steps.
    fn steps(title: &str, call: &Call, steps: u32) -> Work {
        let call = Call { limit: steps, ..call.clone() };
        let repeats = (1_000_000 / steps).max(1);
        Work { title: title.to_string(), call, cut: steps, repeats, per_call: false }
    }

    /// A run of 1,000 or 10,000 calls of this limit, made ten times.
    fn calls(title: &str, call: &Call, cut: u32) -> Work {
        let calls = if cut < 100 { 10_000 } else { 1000 };
        let call = Call { limit: cut * calls, ..call.clone() };
        Work { title: title.to_string(), call, cut, repeats: 10, per_call: true }
    }

    /// How many steps, or calls, a run has.
    fn units(&self) -> f64 {
        f64::from(if self.per_call { self.call.limit / self.cut } else { self.call.limit })
    }
}

/// The original and the port, each with its own pages, made ready for a run.
struct Sides {
    machine: Pc1500,
    words: Words,
    pages: [Vec<u8>; 2],
}

impl Sides {
    fn new(call: &Call) -> Sides {
        Sides {
            machine: Pc1500::new(&call.record, call.inputs, call.pages.clone()),
            words: port::words(&call.record),
            pages: call.pages.clone(),
        }
    }

    /// Back to the run's start.
    fn reset(&mut self, way: usize, call: &Call) {
        if way == PORT {
            self.words = port::words(&call.record);
            self.pages[0].copy_from_slice(&call.pages[0]);
            self.pages[1].copy_from_slice(&call.pages[1]);
        } else {
            self.machine.begin(&call.record, call.inputs);
            self.machine.page0.copy_from_slice(&call.pages[0]);
            self.machine.page1.copy_from_slice(&call.pages[1]);
        }
    }

    /// One run, cut into calls. Tells the last call's stop; bare steps have none.
    fn run(&mut self, way: usize, work: &Work) -> u64 {
        let calls = work.call.limit / work.cut;
        let mut number = 0;
        for _ in 0..calls {
            match way {
                BARE => self.machine.bare_steps(work.cut),
                ORIGINAL => number = self.machine.original_run(work.cut, &mut ()).number.into(),
                _ => {
                    let [page0, page1] = &mut self.pages;
                    let Call { inputs, read_only, .. } = work.call;
                    let (words, lent) = (&mut self.words, Lent::default());
                    port::run(words, page0, page1, inputs, work.cut, lent, read_only);
                    number = self.words[12];
                }
            }
        }
        number
    }

    /// Nanoseconds for a step or a call: the median of the repeats. A repeat of less than a
    /// millisecond is seldom cut into by another process.
    fn cost(&mut self, way: usize, work: &Work) -> f64 {
        let mut costs = vec![];
        for _ in 0..work.repeats {
            self.reset(way, &work.call);
            let begin = Instant::now();
            self.run(way, work);
            costs.push(begin.elapsed().as_nanos() as f64 / work.units());
        }
        spread(costs).median
    }

    /// Whether all three ways end with the same record and pages, and stop nowhere.
    fn check(&mut self, work: &Work) -> Result<(), String> {
        let mut ends: Vec<(Record, [Vec<u8>; 2])> = vec![];
        for way in [ORIGINAL, BARE, PORT] {
            self.reset(way, &work.call);
            let number = self.run(way, work);
            if number != 0 {
                return Err(format!("{}: the run stops with {number}", work.title));
            }
            ends.push(if way == PORT {
                (port::record(&self.words)?, self.pages.clone())
            } else {
                let pages = [self.machine.page0.clone(), self.machine.page1.clone()];
                (self.machine.lh5801.record(), pages)
            });
        }
        let same = ends.iter().all(|end| *end == ends[0]);
        same.then_some(()).ok_or_else(|| format!("{}: the three ways end differently", work.title))
    }
}

/// The middle, the least and the greatest of some costs in nanoseconds.
pub struct Spread {
    median: f64,
    least: f64,
    greatest: f64,
}

impl fmt::Display for Spread {
    fn fmt(&self, f: &mut fmt::Formatter<'_>) -> fmt::Result {
        let Spread { median, least, greatest } = self;
        f.pad(&format!("{median:.2} ({least:.2} to {greatest:.2})"))
    }
}

pub fn spread(mut costs: Vec<f64>) -> Spread {
    costs.sort_by(f64::total_cmp);
    let last = costs.len() - 1;
    Spread { median: costs[last / 2], least: costs[0], greatest: costs[last] }
}

/// The costs of the three ways, in interleaved rounds. The first round is not counted.
fn measure(work: &Work, rounds: u64) -> Result<[Spread; 3], String> {
    let mut sides = Sides::new(&work.call);
    sides.check(work)?;
    let mut costs = [vec![], vec![], vec![]];
    for round in 0..=rounds {
        for turn in 0..3 {
            let way = (round as usize + turn) % 3;
            let cost = sides.cost(way, work);
            if round > 0 {
                costs[way].push(cost);
            }
        }
    }
    Ok(costs.map(spread))
}

fn print_head(title: &str, unit: &str) {
    println!("\n{title}; nanoseconds {unit}: median (least to greatest)");
    let [bare, original, port] = WAYS;
    println!(
        "{:<27} {bare:>28} {original:>28} {port:>28} {:>13} {:>13}",
        "", "bare/port", "original/port"
    );
}

/// The ratio of the medians, and of the least costs, which other load on the machine moves less.
pub fn ratio(left: &Spread, right: &Spread) -> String {
    format!("{:.2} ({:.2})", left.median / right.median, left.least / right.least)
}

/// Measures, prints, and tells how many times as fast as the bare original the port is.
fn print_row(work: &Work, rounds: u64) -> Result<f64, String> {
    let costs = measure(work, rounds)?;
    let [bare, original, port] = &costs;
    println!(
        "{:<27} {bare:>28} {original:>28} {port:>28} {:>13} {:>13}",
        work.title,
        ratio(&costs[BARE], &costs[PORT]),
        ratio(&costs[ORIGINAL], &costs[PORT])
    );
    Ok(costs[BARE].median / costs[PORT].median)
}

/// A campaign file's call.
fn load(file: &Path) -> Result<Call, String> {
    let bytes = fs::read(file).map_err(|error| format!("{}: {error}", file.display()))?;
    campaign::read(&bytes).map_err(|defect| format!("{}: {}", file.display(), defect.line()))
}

const PROGRAMS: [&str; 3] = ["lop", "dca", "mixed"];

fn programs(bench: &Path) -> Result<Vec<(&'static str, Call)>, String> {
    let load = |name| Ok((name, load(&bench.join(format!("{name}.bin")))?));
    PROGRAMS.into_iter().map(load).collect()
}

/// The lop program on pages of these lengths; with an empty page 0, steps with BF clear.
fn on_pages(lop: &Call, lengths: [usize; 2]) -> Call {
    let mut call = lop.clone();
    for (page, length) in call.pages.iter_mut().zip(lengths) {
        page.resize(length, 0x00);
    }
    call.record.bf = lengths[0] > 0;
    call
}

const LENGTHS: [[usize; 2]; 6] =
    [[0, 0], [6, 0], [6, 65_536], [4096, 4096], [16_384, 16_384], [65_536, 65_536]];

fn pages_title(lengths: [usize; 2]) -> String {
    let [length0, length1] = lengths;
    let off = if length0 == 0 { ", BF clear" } else { "" };
    format!("pages of {length0} and {length1}{off}")
}

/// Measures and prints everything, and tells the least ratio of the whole runs to the bare
/// original.
pub fn run(settings: &Settings) -> Result<f64, String> {
    let rounds = settings.rounds;
    let programs = programs(&settings.bench)?;
    println!("{rounds} interleaved rounds after one that is not counted, one thread, one process");
    println!("ratios: of the medians (of the least); above 1 the port is faster");
    print_head("Whole runs of 1,000,000 steps", "a step");
    let mut least = f64::INFINITY;
    for (name, call) in &programs {
        least = least.min(print_row(&Work::steps(name, call, 1_000_000), rounds)?);
    }
    print_head("Short calls, cut from one run", "a call");
    for (name, call) in &programs {
        for cut in [1, 10, 100] {
            print_row(&Work::calls(&format!("{name}, limit {cut}"), call, cut), rounds)?;
        }
    }
    print_head("Runs of different lengths", "a step");
    for (name, call) in &programs {
        for steps in [1000, 10_000, 100_000, 1_000_000] {
            print_row(&Work::steps(&format!("{name}, {steps} steps"), call, steps), rounds)?;
        }
    }
    print_head("From empty to full pages: the program lop, 1,000,000 steps", "a step");
    for lengths in LENGTHS {
        let call = on_pages(&programs[0].1, lengths);
        print_row(&Work::steps(&pages_title(lengths), &call, 1_000_000), rounds)?;
    }
    print_head("From empty to full pages: the program lop, limit 1", "a call");
    for lengths in LENGTHS {
        let call = on_pages(&programs[0].1, lengths);
        print_row(&Work::calls(&pages_title(lengths), &call, 1), rounds)?;
    }
    print_settings(&programs, rounds)?;
    speed_log::run(&programs, rounds)?;
    speed_analyser::run(&programs, rounds)?;
    Ok(least)
}

/// The tables of an idle figure and of a stop address.
fn print_settings(programs: &[(&'static str, Call)], rounds: u64) -> Result<(), String> {
    print_head("Waiting steps, IE clear: a run of 1,000,000", "a step");
    for idle in [2, 255] {
        print_row(&Work::steps(&format!("idle figure {idle}"), &parked(idle), 1_000_000), rounds)?;
    }
    print_head("With a stop address that is never met (the port alone): 1,000,000 steps", "a step");
    for (name, call) in programs {
        print_row(&Work::steps(name, &never_met(call), 1_000_000), rounds)?;
    }
    Ok(())
}

/// With a stop address that none of the programs comes to: a run that stops is no row.
fn never_met(call: &Call) -> Call {
    let inputs = Inputs { stop_address: Some(0xFFFF), ..call.inputs };
    Call { inputs, ..call.clone() }
}

/// A unit that nothing wakes, with its timer running, on empty pages.
fn parked(idle: u8) -> Call {
    let record = Record { is_halted: true, bf: true, tm: 1, ..Record::default() };
    Call { record, inputs: Inputs { idle, ..Inputs::default() }, ..Call::default() }
}

/// Runs a campaign file exactly once, one of the three ways, and tells document 01's line. The port
/// may be lent a log, with room for every step.
pub fn once(way: &str, file: &Path, is_logged: bool) -> Result<String, String> {
    let mut call = load(file)?;
    if way == WAYS[PORT] {
        let mut log = is_logged.then(|| BusLog::for_steps(call.limit));
        let Call { record, inputs, limit, pages, read_only, .. } = &mut call;
        let answer = port::call(record, *inputs, *limit, pages, log.as_mut(), *read_only);
        return answer.failure.clone().map_or_else(|| Ok(answer.line()), Err);
    }
    if call.record.enters_ir0() {
        return Err("with BF and IR0 set the first step is none of the original".to_string());
    }
    let mut machine = Pc1500::new(&call.record, call.inputs, call.pages);
    if way == WAYS[ORIGINAL] {
        let returned = machine.original_run(call.limit, &mut ());
        return Ok(line(returned, machine.lh5801.record()));
    }
    let panicked = catch_unwind(AssertUnwindSafe(|| machine.bare_steps(call.limit)));
    panicked.map_err(|_| "the run stops, and the bare steps have no stops".to_string())?;
    let record = machine.lh5801.record();
    let states = record.timer_state.wrapping_sub(call.record.timer_state);
    Ok(line(Returned { steps: call.limit.into(), states, ..Returned::default() }, record))
}

fn line(returned: Returned, record: Record) -> String {
    let Returned { number, byte, steps, states } = returned;
    Answer { number, byte, steps, states, record, ..Answer::default() }.line()
}
