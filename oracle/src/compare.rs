//! Random calls, the original against another side.

#![forbid(unsafe_code)]

use std::fmt::{self, Write};

use bare::Returned;

use crate::call::{Access, Answer, BusLog, Call, Log, Record, Side};
use crate::drops::Drops;
use crate::halted;
use crate::ir0;
use crate::ir0_counts::Ir0Counts;
use crate::logs;
use crate::model::Model;
use crate::opcodes::table;
use crate::original::Original;
use crate::progress::Progress;
use crate::random::Random;
use crate::read_only;
use crate::shrink;
use crate::stop_addresses;
use crate::stop_counts::Stops;
use crate::stop_law;
use crate::stops;
use crate::traces::Traces;
use crate::waits::Waits;

/// The original, the model that marks the vectors, and the side under comparison.
pub struct Comparison {
    original: Original,
    model: Model,
    side: Box<dyn Side>,
}

impl Comparison {
    pub fn new(side: Box<dyn Side>) -> Comparison {
        Comparison { original: Original, model: Model::default(), side }
    }

    /// The original's answer with its vector reads in document 01's order, the side's answer, and
    /// the first difference: between these two, or else between the original and the model, or else
    /// between the call and the same call without its stop address.
    pub fn both(&mut self, call: &Call) -> (Answer, Answer, Option<String>) {
        let mut original = self.original.call(call);
        let model = self.model.call(call);
        order_vectors(&mut original, call, &model);
        let other = self.side.call(call);
        let difference = difference(&original, &other).or_else(|| {
            let model = difference(&original, &model);
            model.map(|how| format!("original and model: {how}"))
        });
        let difference = difference.or_else(|| self.broken(call, &original, &other));
        (original, other, difference)
    }

    /// What is wrong beside the run without the stop address: of the original, then of the side.
    fn broken(&mut self, call: &Call, original: &Answer, other: &Answer) -> Option<String> {
        let own = stop_law::broken(call, original, &mut Ordered);
        let own = own.map(|how| format!("original: {how}"));
        own.or_else(|| stop_law::broken(call, other, self.side.as_mut()))
    }

    pub fn differs(&mut self, call: &Call) -> bool {
        self.both(call).2.is_some()
    }
}

/// The original with its vector reads in document 01's order.
struct Ordered;

impl Side for Ordered {
    fn name(&self) -> &'static str {
        "original"
    }

    fn call(&mut self, call: &Call) -> Answer {
        ordered_original(call)
    }
}

/// The original's answer with its vector reads in document 01's order.
pub fn ordered_original(call: &Call) -> Answer {
    let mut original = Original.call(call);
    order_vectors(&mut original, call, &Model::default().call(call));
    original
}

/// The original's `get_mem16` reads the low byte of a vector first; document 01 has the high byte
/// first. Nothing in the original's log tells a vector's reads from others, so the places come from
/// the model's marks: exactly the accesses that the model marks as a vector's are exchanged, and
/// their entries of the bus log with them. Those of a first step that the model has made
/// (`first_step.rs`) have a mark of their own, and are in order.
fn order_vectors(original: &mut Answer, call: &Call, model: &Answer) {
    let (Some(log), Some(marked)) = (&mut original.log, &model.log) else { return };
    let own = &log.vectors;
    for place in marked.vectors.iter().filter(|place| !own.contains(place)) {
        if place + 1 < log.accesses.len() {
            log.accesses.swap(*place, place + 1);
        }
    }
    if let (Some(own), Some(given)) = (&mut original.bus_log, &call.bus_log) {
        let appended = own.entries.iter_mut().skip(given.used).take(log.completed);
        for (entry, access) in appended.zip(&log.accesses) {
            *entry = access.entry();
        }
    }
}

/// The first difference between two answers, in words.
pub fn difference(left: &Answer, right: &Answer) -> Option<String> {
    for answer in [left, right] {
        if let Some(message) = &answer.failure {
            return Some(format!("failure: {message}"));
        }
    }
    let (number, byte, steps, states) = (left.number, left.byte, left.steps, left.states);
    returned_difference(&Returned { number, byte, steps, states }, &left.record, right)
        .or_else(|| pages_difference(slices(&left.pages), slices(&right.pages)))
        .or_else(|| access_difference(left.log.as_ref()?, right.log.as_ref()?))
        .or_else(|| bus_log_difference(left.bus_log.as_ref(), right.bus_log.as_ref()))
}

/// The first difference of two bus logs: the used counts, then every entry of the lists.
pub fn bus_log_difference(left: Option<&BusLog>, right: Option<&BusLog>) -> Option<String> {
    let (left, right) = match (left, right) {
        (Some(left), Some(right)) => (left, right),
        (None, None) => return None,
        _ => return Some("a bus log on one side only".to_string()),
    };
    let numbers = [
        ("used entries", left.used, right.used),
        ("length of the list", left.entries.len(), right.entries.len()),
    ];
    if let Some((name, left, right)) = numbers.iter().find(|(_, left, right)| left != right) {
        return Some(format!("{name}: {left} and {right}"));
    }
    let place = (0..left.entries.len()).find(|i| left.entries[*i] != right.entries[*i])?;
    let (left, right) = (left.entries[place], right.entries[place]);
    Some(format!("entry {place} of the bus log: {left:08X} and {right:08X}"))
}

/// The first difference of what is returned and of the end record.
pub fn returned_difference(returned: &Returned, record: &Record, right: &Answer) -> Option<String> {
    if let Some(message) = &right.failure {
        return Some(format!("failure: {message}"));
    }
    let numbers = [
        ("number", u64::from(returned.number), u64::from(right.number)),
        ("byte", u64::from(returned.byte), u64::from(right.byte)),
        ("steps", returned.steps, right.steps),
        ("states", returned.states, right.states),
    ];
    if let Some((name, left, right)) = numbers.iter().find(|(_, left, right)| left != right) {
        return Some(format!("{name}: {left} and {right}"));
    }
    (*record != right.record).then(|| format!("end record: {record} and {}", right.record))
}

pub fn slices(pages: &[Vec<u8>; 2]) -> [&[u8]; 2] {
    [&pages[0], &pages[1]]
}

/// The first difference of two pairs of pages.
pub fn pages_difference(left: [&[u8]; 2], right: [&[u8]; 2]) -> Option<String> {
    (0..2).find_map(|page| page_difference(page, left[page], right[page]))
}

fn page_difference(page: usize, left: &[u8], right: &[u8]) -> Option<String> {
    if left.len() != right.len() {
        return Some(format!("length of page {page}: {} and {}", left.len(), right.len()));
    }
    if left == right {
        return None;
    }
    let offset = (0..left.len()).find(|i| left[*i] != right[*i])?;
    let (left, right) = (left[offset], right[offset]);
    Some(format!("page {page} at {offset:04X}: {left:02X} and {right:02X}"))
}

fn access_difference(left: &Log, right: &Log) -> Option<String> {
    let pairs = left.accesses.iter().zip(&right.accesses).enumerate();
    for (i, (left, right)) in pairs {
        if left != right {
            return Some(format!("access {i}: {left} and {right}"));
        }
    }
    let counts = (left.accesses.len(), right.accesses.len());
    if counts.0 != counts.1 {
        return Some(format!("number of accesses: {} and {}", counts.0, counts.1));
    }
    let completed = (left.completed, right.completed);
    (completed.0 != completed.1)
        .then(|| format!("accesses of completed steps: {} and {}", completed.0, completed.1))
}

/// What the calls with a log have reached.
#[derive(Clone, Default)]
pub struct Logs {
    pub calls: u64,
    pub steps: u64,
    /// Steps with an access: an instruction or an entry.
    pub busy: u64,
    pub entries: u64,
    /// By their number.
    pub ends: [u64; 13],
}

impl Logs {
    pub fn add(&mut self, call: &Call, answer: &Answer) {
        let (Some(given), Some(log)) = (&call.bus_log, &answer.bus_log) else { return };
        self.calls += 1;
        self.steps += answer.steps;
        self.entries += (log.used - given.used) as u64;
        if let Some(log) = &answer.log {
            let busy = |index: &u64| !log.step(*index as usize).is_empty();
            self.busy += (0..answer.steps).filter(busy).count() as u64;
        }
        self.ends[usize::from(answer.number)] += 1;
    }

    pub fn join(&mut self, other: &Logs) {
        self.calls += other.calls;
        self.steps += other.steps;
        self.busy += other.busy;
        self.entries += other.entries;
        self.ends.iter_mut().zip(other.ends).for_each(|(left, right)| *left += right);
    }

    /// Whether calls with a log have ended with every number that a call without a stop address has.
    pub fn has_every_end(&self) -> bool {
        CALL_NUMBERS.iter().all(|number| self.ends[*number] > 0 || *number == 12)
    }
}

impl fmt::Display for Logs {
    fn fmt(&self, f: &mut fmt::Formatter<'_>) -> fmt::Result {
        let Logs { calls, steps, busy, entries, ends } = self;
        let ends = ends_in_words(ends);
        write!(
            f,
            "{calls} calls with a log: {steps} steps, {busy} of them with an access, {entries} \
             entries, ends{ends}"
        )
    }
}

/// The numbers that a call may end with; 8 to 10 are the campaign file's.
const CALL_NUMBERS: [usize; 10] = [0, 1, 2, 3, 4, 5, 6, 7, 11, 12];

/// How many calls ended with each number.
pub fn ends_in_words(ends: &[u64; 13]) -> String {
    CALL_NUMBERS.iter().map(|number| format!(" {number}: {}", ends[*number])).collect()
}

/// What the calls of a comparison have reached.
struct Counts {
    steps: u64,
    stops: [u64; 13],
    logs: Logs,
    /// How often each byte was executed, by page.
    executed: [[u64; 256]; 2],
    /// How often each unlisted byte stopped a call.
    unlisted: [[u64; 256]; 2],
    interrupts: u64,
    most_accesses: usize,
    waits: Waits,
    drops: Drops,
    stop_addresses: Stops,
    ir0: Ir0Counts,
}

impl Counts {
    fn new() -> Counts {
        Counts {
            steps: 0,
            stops: [0; 13],
            logs: Logs::default(),
            executed: [[0; 256]; 2],
            unlisted: [[0; 256]; 2],
            interrupts: 0,
            most_accesses: 0,
            waits: Waits::default(),
            drops: Drops::default(),
            stop_addresses: Stops::default(),
            ir0: Ir0Counts::default(),
        }
    }

    fn add(&mut self, call: &Call, answer: &Answer) {
        self.steps += answer.steps;
        self.waits.add(call.inputs.idle, answer.waits);
        self.stops[usize::from(answer.number)] += 1;
        self.logs.add(call, answer);
        self.drops.add(call, answer);
        self.stop_addresses.add(call, answer);
        self.ir0.add(call, answer);
        if let 5 | 6 = answer.number {
            self.unlisted[usize::from(answer.number - 5)][usize::from(answer.byte)] += 1;
        }
        let Some(log) = &answer.log else { return };
        for index in 0..answer.steps as usize {
            self.add_step(log.step(index));
        }
    }

    /// An instruction begins with a read of its opcode, an interrupt with a write; a step with BF
    /// clear has no access, and a waiting one has none.
    fn add_step(&mut self, step: &[Access]) {
        self.most_accesses = self.most_accesses.max(step.len());
        match step {
            [first, ..] if first.is_write() => self.interrupts += 1,
            [first, second, ..] if first.byte() == 0xFD => {
                self.executed[0][0xFD] += 1;
                self.executed[1][usize::from(second.byte())] += 1;
            }
            [first, ..] => self.executed[0][usize::from(first.byte())] += 1,
            [] => {}
        }
    }

    fn report(&self) -> String {
        let mut text = format!("stops:{}", ends_in_words(&self.stops));
        let (interrupts, most) = (self.interrupts, self.most_accesses);
        let _ =
            writeln!(text, "\ninterrupts accepted: {interrupts}; most accesses in a step: {most}");
        let _ = writeln!(text, "{}\n{}\n{}", self.waits, self.logs, self.drops);
        let _ = writeln!(text, "{}\n{}", self.stop_addresses, self.ir0);
        for (page, name) in ["first page", "after FD"].into_iter().enumerate() {
            let reached = |counts: &[u64; 256]| counts.iter().filter(|count| **count > 0).count();
            let listed = table()[page].iter().flatten().count();
            let rarest = (0..256).filter(|byte| table()[page][*byte].is_some());
            let rarest = rarest.min_by_key(|byte| self.executed[page][*byte]).unwrap_or(0);
            let _ = writeln!(
                text,
                "{name}: {} of {listed} listed opcodes executed (rarest {rarest:02X}, {} times), \
                 {} of {} unlisted met",
                reached(&self.executed[page]),
                self.executed[page][rarest],
                reached(&self.unlisted[page]),
                256 - listed,
            );
        }
        text
    }
}

/// In a run of so many calls read-only parts, stop addresses and IR0 have to have done all that they
/// can do.
const MANY: u64 = 5000;

/// Runs the comparison; true where no difference was found, and read-only parts, stop addresses and
/// IR0 came as they have to.
pub fn run(calls: u64, seed: u64, side: Box<dyn Side>) -> bool {
    println!("seed {seed}, original against {}", side.name());
    let mut comparison = Comparison::new(side);
    let directed = [run_halted, run_logs, run_read_only, run_stops, run_ir0];
    if !directed.into_iter().all(|run| run(&mut comparison)) {
        return false;
    }
    let mut counts = Counts::new();
    let mut progress = Progress::new("call", calls);
    for index in 0..calls {
        let call = stop_addresses::call(&mut Random::new(seed, index));
        let (original, _, difference) = comparison.both(&call);
        if difference.is_some() {
            progress.wipe();
            println!("call {index} differs; making it smaller");
            report_smallest(&mut comparison, call);
            return false;
        }
        counts.add(&call, &original);
        progress.show(index);
    }
    progress.wipe();
    print!("{}", counts.report());
    println!("{calls} calls, {} steps, 0 differences", counts.steps);
    calls < MANY || have_all(&counts.drops, &counts.stop_addresses, &counts.ir0)
}

/// Whether read-only parts, stop addresses and IR0 have done all that they can do; says where not.
pub fn have_all(drops: &Drops, stops: &Stops, ir0: &Ir0Counts) -> bool {
    let all = [
        (drops.have_all(), "the read-only parts"),
        (stops.have_all(), "the stop addresses"),
        (ir0.have_all(), "the calls with IR0 set"),
    ];
    for (_, what) in all.iter().filter(|(done, _)| !done) {
        println!("{what} did not do all that they have to");
    }
    all.iter().all(|(done, _)| *done)
}

/// Compares a directed call; at a difference prints the smallest one and tells nothing.
fn directed(comparison: &mut Comparison, call: Call, what: &str) -> Option<Answer> {
    let (original, _, difference) = comparison.both(&call);
    if difference.is_none() {
        return Some(original);
    }
    println!("a directed call of {what} differs; making it smaller");
    report_smallest(comparison, call);
    None
}

/// Runs the directed calls of a halted unit; true where no difference was found.
fn run_halted(comparison: &mut Comparison) -> bool {
    let mut calls = 0;
    let mut waits = Waits::default();
    for call in halted::calls() {
        let idle = call.inputs.idle;
        let Some(original) = directed(comparison, call, "a halted unit") else { return false };
        waits.add(idle, original.waits);
        calls += 1;
    }
    println!("{calls} directed calls of a halted unit: {waits}");
    true
}

/// Runs the directed calls with a log; true where no difference was found, and where they reached
/// every end and as many kinds of traces as they have to.
fn run_logs(comparison: &mut Comparison) -> bool {
    let mut counts = Logs::default();
    let mut traces = Traces::default();
    for (what, calls) in logs::groups() {
        for call in calls {
            let Some(original) = directed(comparison, call.clone(), what) else { return false };
            counts.add(&call, &original);
            traces.add(&call, &original);
        }
    }
    println!("directed: {counts}");
    println!("{traces}");
    let reached = counts.has_every_end() && traces.are_enough();
    if !reached {
        println!("the directed calls with a log do not reach all that they have to");
    }
    reached
}

/// Runs the directed calls with a read-only part; true where no difference was found, and where the
/// parts did all that they have to.
fn run_read_only(comparison: &mut Comparison) -> bool {
    let mut drops = Drops::default();
    for (what, calls) in read_only::groups() {
        for call in calls {
            let Some(original) = directed(comparison, call.clone(), what) else { return false };
            drops.add(&call, &original);
        }
    }
    println!("directed: {drops}");
    let reached = drops.have_all();
    if !reached {
        println!("the directed calls with a read-only part do not reach all that they have to");
    }
    reached
}

/// Runs the directed calls with a stop address, each one without it besides; true where no difference
/// was found, and where they did all that they have to.
fn run_stops(comparison: &mut Comparison) -> bool {
    let mut counts = Stops::default();
    for (what, calls) in stops::groups() {
        for call in calls {
            let Some(original) = directed(comparison, call.clone(), what) else { return false };
            counts.add(&call, &original);
        }
    }
    println!("directed: {counts}");
    let reached = counts.have_all();
    if !reached {
        println!("the directed calls with a stop address do not reach all that they have to");
    }
    reached
}

/// Runs the directed calls with IR0 set; true where no difference was found, and where they met all
/// that they have to.
fn run_ir0(comparison: &mut Comparison) -> bool {
    let mut counts = Ir0Counts::default();
    for (what, calls) in ir0::groups() {
        for call in calls {
            let Some(original) = directed(comparison, call.clone(), what) else { return false };
            counts.add(&call, &original);
        }
    }
    println!("directed: {counts}");
    let reached = counts.have_all();
    if !reached {
        println!("the directed calls with IR0 set do not reach all that they have to");
    }
    reached
}

/// Makes a failing call smaller and prints what is left of it, with both answers.
pub fn report_smallest(comparison: &mut Comparison, call: Call) {
    let smallest = shrink::shrink(call, &mut |call| comparison.differs(call));
    let (original, other, difference) = comparison.both(&smallest);
    println!("smallest failing input found:");
    print!("{}", shrink::describe(&smallest));
    println!("original: {}", returned(&smallest, &original));
    println!("{}: {}", comparison.side.name(), returned(&smallest, &other));
    println!("first difference: {}", difference.unwrap_or_default());
}

/// An answer in one line: document 01's line, the byte, the bus log's used count and what was
/// appended, where a log was lent, and the accesses, where the side tells them.
fn returned(call: &Call, answer: &Answer) -> String {
    let mut line = format!("{} byte {:02X}", answer.line(), answer.byte);
    let mut list = |what: &str, accesses: &mut dyn Iterator<Item = Access>| {
        let accesses: Vec<String> = accesses.take(40).map(|access| access.to_string()).collect();
        let _ = write!(line, " {what} {}", accesses.join(", "));
    };
    if let (Some(given), Some(log)) = (&call.bus_log, &answer.bus_log) {
        let appended = log.entries.iter().take(log.used).skip(given.used);
        let mut appended = appended.map(|entry| Access::of_entry(*entry));
        list(&format!("used {} appended", log.used), &mut appended);
    }
    if let Some(log) = &answer.log {
        list("accesses", &mut log.accesses.iter().copied());
    }
    line
}
