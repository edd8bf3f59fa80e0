//! Many steps of random programs, the original against the port, compared after every call.
//!
//! The work is cut into sessions. A session has two pages of its own, the same on both sides, and
//! starts the unit on them again and again; between two calls the record is sometimes changed, as a
//! host may do. Each start has an idle figure, 0 for about half of them; with another one the unit
//! waits where it is halted. In three of eight starts each call of the port is lent a log, which is
//! compared with the original's accesses and with the model's log. In half of the starts a part of
//! page 0 is read-only. Half of the starts have a stop address; after a stop it is often taken away or
//! another one given, as a host does that steps through a routine. A host sets IR0 too, at a start and
//! between two calls: with BF set too the call's first step is the model's (`first_step.rs`), and the
//! original goes on from it. Every session depends on the seed and its own index only.

#![forbid(unsafe_code)]

use std::mem;
use std::panic::{catch_unwind, AssertUnwindSafe};
use std::sync::atomic::{AtomicBool, AtomicU64, Ordering};
use std::thread;
use std::time::{Duration, Instant};

use bare::{Pc1500, Returned, Watch};

use crate::call::{
    Access, Answer, BusLog, Call, Inputs, Log, ReadOnly, Record, GREATEST_LIMIT, MOST_ACCESSES,
};
use crate::compare::{self, ends_in_words, have_all, report_smallest, slices, Comparison, Logs};
use crate::drops::Drops;
use crate::ir0_counts::Ir0Counts;
use crate::opcodes::table;
use crate::port::{self, Port};
use crate::progress::Progress;
use crate::protect;
use crate::random::{self, Random};
use crate::shrink;
use crate::stop_addresses;
use crate::stop_counts::Stops;
use crate::waits::Waits;

/// How often each listed byte has to be executed in a run of 100 million steps, and how many steps
/// have to wait with each idle figure but 0.
const LEAST: u64 = 10_000;
const LEAST_WAITS: u64 = 100;
/// Steps after which a session ends.
const SESSION: u64 = 30_000;
/// Of a hundred starts with an idle figure above 0, so many are parked.
const PARKED: u64 = 40;
/// A session's kind goes round in so many. Its starts have, by the kind: a log, and half of them a
/// read-only part; half of them such a part, and no log; all of them such a part, and half a log;
/// neither. Calls with a log or a read-only part, or that begin with BF and IR0 set, run through the
/// original's own panics and the model too; the others run on the original without its log.
const KINDS: u64 = 4;
/// Of a hundred steps that make an access at least so many have a log.
const LEAST_LOGGED: u64 = 10;
/// The greatest limit of a call with a log or a read-only part, or that begins with BF and IR0 set. A
/// call of a greater one has no log; of the others there is none but such as is refused.
const LOGGED_LIMIT: u32 = 20_000;
/// Of a hundred stops with 12, after so many the stop address is taken away or another one comes.
const STOPPED: u64 = 75;
/// A new stop address is looked for in so many steps that come next.
const AHEAD: u32 = 300;
/// Of a hundred cases between two calls, in so many IR0 is set, whatever else is changed.
const REQUESTED: u64 = 4;
/// In a run of so many steps read-only parts, stop addresses and IR0 have to have done all that they
/// can do.
const MANY: u64 = 1_000_000;

pub struct Settings {
    pub steps: u64,
    pub seed: u64,
    pub threads: u64,
}

/// What the calls have reached.
#[derive(Clone)]
struct Counts {
    calls: u64,
    steps: u64,
    logs: Logs,
    stops: [u64; 13],
    executed: [[u64; 256]; 2],
    unlisted: [[u64; 256]; 2],
    off: u64,
    waits: Waits,
    drops: Drops,
    stop_addresses: Stops,
    ir0: Ir0Counts,
    /// Where the next run of the original without its log stops.
    stop_address: Option<u16>,
    interrupts: u64,
    /// Interrupts that a halted unit accepts.
    wakes: u64,
    code_edges: u64,
    stack_edges: u64,
    /// Calls by the lengths of the pages: empty, whole, between.
    lengths: [[u64; 3]; 2],
    /// Calls by their completed steps: 0, 1, to 20, to 1,000, more.
    sizes: [u64; 5],
}

impl Counts {
    fn new() -> Counts {
        Counts {
            calls: 0,
            steps: 0,
            logs: Logs::default(),
            stops: [0; 13],
            executed: [[0; 256]; 2],
            unlisted: [[0; 256]; 2],
            off: 0,
            waits: Waits::default(),
            drops: Drops::default(),
            stop_addresses: Stops::default(),
            ir0: Ir0Counts::default(),
            stop_address: None,
            interrupts: 0,
            wakes: 0,
            code_edges: 0,
            stack_edges: 0,
            lengths: [[0; 3]; 2],
            sizes: [0; 5],
        }
    }

    fn call(&mut self, record: &Record, returned: &Returned, lengths: [usize; 2]) {
        self.calls += 1;
        self.steps += returned.steps;
        self.stops[usize::from(returned.number)] += 1;
        if let 5 | 6 = returned.number {
            self.unlisted[usize::from(returned.number - 5)][usize::from(returned.byte)] += 1;
        }
        self.code_edges += u64::from(at_edge(record.p, lengths[0]));
        self.stack_edges += u64::from(at_edge(record.s, lengths[0]));
        for (counts, length) in self.lengths.iter_mut().zip(lengths) {
            counts[[0, 65_536].iter().position(|edge| length == *edge).unwrap_or(2)] += 1;
        }
        self.sizes[[0, 1, 20, 1000].iter().filter(|most| returned.steps > **most).count()] += 1;
    }

    /// What `Watch` counts, of the steps of a call that the original with its panics has made.
    fn watch(&mut self, call: &Call, answer: &Answer) {
        let Some(log) = &answer.log else { return };
        self.waits.add(call.inputs.idle, answer.waits);
        let quiet = self.watch_accesses(call.record.is_halted, log, answer.steps as usize);
        self.off += quiet - answer.waits;
    }

    /// Counts entries and executed bytes; tells how many steps had no access.
    fn watch_accesses(&mut self, halted: bool, log: &Log, steps: usize) -> u64 {
        let (mut halted, mut quiet) = (halted, 0);
        for step in (0..steps).map(|index| log.step(index)) {
            match step.first().map(Access::is_write) {
                None => quiet += 1,
                Some(true) => self.interrupt(mem::take(&mut halted)),
                Some(false) => halted |= self.watch_instruction(step),
            }
        }
        quiet
    }

    /// Counts an instruction; true where it is HLT.
    fn watch_instruction(&mut self, step: &[Access]) -> bool {
        let first = step[0].byte();
        self.executed(0, first);
        if first != 0xFD {
            return false;
        }
        self.executed(1, step[1].byte());
        step[1].byte() == 0xB1
    }

    /// Steps that are neither with BF clear nor waiting: an instruction or an interrupt.
    fn busy(&self) -> u64 {
        self.steps - self.off - self.waits.total()
    }

    fn join(&mut self, other: &Counts) {
        fn add(left: &mut [u64], right: &[u64]) {
            left.iter_mut().zip(right).for_each(|(left, right)| *left += right);
        }
        self.calls += other.calls;
        self.steps += other.steps;
        self.logs.join(&other.logs);
        self.off += other.off;
        self.waits.join(&other.waits);
        self.drops.join(&other.drops);
        self.stop_addresses.join(&other.stop_addresses);
        self.ir0.join(&other.ir0);
        self.interrupts += other.interrupts;
        self.wakes += other.wakes;
        self.code_edges += other.code_edges;
        self.stack_edges += other.stack_edges;
        add(&mut self.stops, &other.stops);
        add(&mut self.sizes, &other.sizes);
        for page in 0..2 {
            add(&mut self.executed[page], &other.executed[page]);
            add(&mut self.unlisted[page], &other.unlisted[page]);
            add(&mut self.lengths[page], &other.lengths[page]);
        }
    }

    /// The listed byte of a page that was executed least often, and how often.
    fn rarest(&self, page: usize) -> (usize, u64) {
        let listed = (0..256).filter(|byte| table()[page][*byte].is_some());
        let counted = listed.map(|byte| (byte, self.executed[page][byte]));
        counted.min_by_key(|(_, count)| *count).unwrap_or((0, 0))
    }

    fn print(&self) {
        println!("stops:{}", ends_in_words(&self.stops));
        let [none, one, few, many, more] = self.sizes;
        println!(
            "calls by completed steps: none {none}, one {one}, to 20 {few}, to 1,000 {many}, \
             above {more}"
        );
        println!("{}", self.logs);
        println!(
            "  compared with the original's accesses, in runs through its panics, and the model"
        );
        println!("{}", self.drops);
        println!("{}\n{}", self.stop_addresses, self.ir0);
        println!(
            "steps with an interrupt {} (of a halted unit {}), with BF clear {}",
            self.interrupts, self.wakes, self.off
        );
        println!("{}", self.waits);
        for (page, [empty, whole, between]) in self.lengths.iter().enumerate() {
            println!("calls by page {page}: empty {empty}, whole {whole}, between {between}");
        }
        println!(
            "calls that begin within 8 bytes of an edge: code {}, stack {}",
            self.code_edges, self.stack_edges
        );
        for (page, name) in ["first page", "after FD"].into_iter().enumerate() {
            let reached = |counts: &[u64; 256]| counts.iter().filter(|count| **count > 0).count();
            let (rarest, times) = self.rarest(page);
            let listed = table()[page].iter().flatten().count();
            println!(
                "{name}: {} of {listed} listed opcodes executed, rarest {rarest:02X} with {times} \
                 times; {} of {} unlisted met",
                reached(&self.executed[page]),
                reached(&self.unlisted[page]),
                256 - listed
            );
        }
    }
}

/// Within 8 bytes of 0 (or FFFF) or of the page's end.
fn at_edge(address: u16, length: usize) -> bool {
    let near = |edge: u16| address.wrapping_sub(edge).wrapping_add(8) <= 16;
    near(0) || near(length as u16)
}

impl Watch for Counts {
    fn off(&mut self) {
        self.off += 1;
    }
    fn interrupt(&mut self, halted: bool) {
        self.interrupts += 1;
        self.wakes += u64::from(halted);
    }
    fn waiting(&mut self, idle: u8) {
        self.waits.add(idle, 1);
    }
    fn executed(&mut self, page: usize, byte: u8) {
        self.executed[page][usize::from(byte)] += 1;
    }
    fn stop_address(&self) -> Option<u16> {
        self.stop_address
    }
}

/// Why a session ended early.
enum Ended {
    /// The call with this number differs, and how.
    Differs(u64, String),
    /// The call that was asked for.
    Reached(Box<Call>),
}

struct Session<'a> {
    random: Random,
    counts: &'a mut Counts,
    /// The original's machine, with the pages of its side.
    machine: Pc1500,
    /// The port's pages.
    pages: [Vec<u8>; 2],
    lengths: [usize; 2],
    record: Record,
    inputs: Inputs,
    read_only: ReadOnly,
    /// The session's kind: below `KINDS`.
    kind: u64,
    /// The idle figure that came last of those that come in turn.
    figure: u64,
    /// Calls and steps of this session.
    calls: u64,
    steps: u64,
    /// The log of the next call, in a start with logs.
    bus_log: Option<BusLog>,
    /// The original with its panics, the model and the port, for calls with a log.
    comparison: Comparison,
    /// The number of the call that is wanted, in place of a comparison.
    wanted: Option<u64>,
}

impl Session<'_> {
    fn new(seed: u64, index: u64, counts: &mut Counts, wanted: Option<u64>) -> Session<'_> {
        let mut random = Random::new(seed, index);
        let pages = random::world(&mut random);
        let lengths = [pages[0].len(), pages[1].len()];
        let inputs = Inputs::of_keyboard(random.byte());
        Session {
            machine: Pc1500::new(&Record::default(), inputs, pages.clone()),
            random,
            counts,
            pages,
            lengths,
            record: Record::default(),
            inputs,
            read_only: ReadOnly::default(),
            // Two sessions in turn, so that two threads have as many of a kind.
            kind: index / 2 % KINDS,
            // Sessions begin at different figures.
            figure: index.wrapping_mul(97),
            calls: 0,
            steps: 0,
            bus_log: None,
            comparison: Comparison::new(Box::new(Port)),
            wanted,
        }
    }

    /// Starts the unit again and again, until enough steps were made.
    fn run(&mut self) -> Result<(), Ended> {
        let starts = 10 + self.random.below(190);
        for _ in 0..starts {
            self.start();
            while self.steps < SESSION && self.next()? {
                self.change();
            }
        }
        Ok(())
    }

    /// A new record, idle figure, log, read-only part and stop address, and often a program where it
    /// begins.
    fn start(&mut self) {
        self.record = random::record(&mut self.random, self.lengths);
        self.inputs.idle = self.idle();
        self.new_log();
        if self.inputs.idle != 0 && self.random.chance(PARKED) {
            random::park(&mut self.random, &mut self.record);
        }
        if self.random.chance(60) {
            let size = self.random.pick(&[8, 40, 200]);
            let p = self.record.p;
            let mut code = random::program(&mut self.random, size, self.lengths, p);
            // HLT and OFF end a run, so no run meets many of them.
            match self.random.below(40) {
                0..=2 => code.splice(0..0, [0xFD, 0xB1]).for_each(drop),
                3 => code.splice(0..0, [0xFD, 0x4C]).for_each(drop),
                _ => {}
            }
            self.place(p, &code);
        }
        if self.record.ir0 && self.random.chance(40) {
            let routines = random::routines(&mut self.random);
            routines.iter().for_each(|(at, bytes)| self.place(*at, bytes));
        }
        self.new_read_only();
        self.new_stop();
    }

    /// Puts code into page 0 on both sides.
    fn place(&mut self, at: u16, code: &[u8]) {
        random::place(&mut self.pages[0], at, code);
        random::place(&mut self.machine.page0, at, code);
    }

    /// Another stop address, or none.
    fn new_stop(&mut self) {
        self.inputs.stop_address = None;
        if self.random.chance(50) {
            let (record, inputs, read_only) = (self.record, self.inputs, self.read_only);
            let pages = mem::take(&mut self.pages);
            let call = Call { record, inputs, limit: AHEAD, pages, read_only, bus_log: None };
            self.inputs.stop_address = Some(stop_addresses::stop_address(&mut self.random, &call));
            self.pages = call.pages;
        }
    }

    /// Another read-only part, or none.
    fn new_read_only(&mut self) {
        self.read_only = match self.kind {
            0 | 1 if self.random.chance(50) => ReadOnly::default(),
            0..=2 => protect::read_only(&mut self.random, &self.record, &self.pages[0]),
            _ => ReadOnly::default(),
        };
    }

    /// In a start with logs, another list: short at times, mostly long enough for hundreds of steps.
    fn new_log(&mut self) {
        let has_log = self.kind == 0 || self.kind == 2 && self.random.chance(50);
        self.bus_log = has_log.then(|| self.any_log());
    }

    fn any_log(&mut self) -> BusLog {
        let used = self.random.below(20) as usize;
        let free = match self.random.below(20) {
            0 => self.random.below(40) as usize,
            _ => 1000 + self.random.below(3000) as usize,
        };
        let length = used + MOST_ACCESSES + free;
        random::garbage(&mut self.random, length, used)
    }

    /// Between two calls: a full log is emptied, but for one of ten; any other one is handed on.
    fn empty_log(&mut self) {
        if self.is_full() && self.random.chance(90) {
            let few = self.random.below(4) as usize;
            self.bus_log.as_mut().unwrap().used = few;
        }
    }

    /// The next step has a log that is full.
    fn is_full(&self) -> bool {
        self.bus_log.as_ref().is_some_and(BusLog::is_full)
    }

    /// The idle figure of a start: 0 for half of them, now and then an edge, else the next one of
    /// 1 to 255, so that all of them come equally often.
    fn idle(&mut self) -> u8 {
        match self.random.below(10) {
            0..=4 => 0,
            5 => random::idle_edge(&mut self.random),
            _ => {
                self.figure = self.figure % 255 + 1;
                self.figure as u8
            }
        }
    }

    /// One call; false where it stopped otherwise than with a full log or before the stop address.
    fn next(&mut self) -> Result<bool, Ended> {
        let limit = match self.is_quiet() {
            true => 1 + self.random.below(40) as u32,
            false => limit(&mut self.random),
        };
        let limit = match self.is_bare() || limit > GREATEST_LIMIT {
            true => limit,
            false => limit.min(LOGGED_LIMIT),
        };
        if self.wanted == Some(self.calls) {
            return Err(Ended::Reached(Box::new(self.take_call(limit))));
        }
        let returned = self.compare(limit).map_err(|how| Ended::Differs(self.calls, how))?;
        self.calls += 1;
        self.steps += returned.steps;
        self.record = self.machine.lh5801.record();
        Ok(matches!(returned.number, 0 | 11 | 12))
    }

    /// The original without its log can make the next call's steps: nothing is read-only, and it does
    /// not begin with BF and IR0 set.
    fn is_bare(&self) -> bool {
        self.read_only == ReadOnly::default() && !self.record.enters_ir0()
    }

    /// A call of this limit has a log or a read-only part, or begins with BF and IR0 set.
    fn is_whole(&self, limit: u32) -> bool {
        (self.bus_log.is_some() || !self.is_bare()) && limit <= LOGGED_LIMIT
    }

    /// The call that comes next, with the port's pages, the start's idle figure and stop address and,
    /// where the session has them, its log and its read-only part.
    fn take_call(&mut self, limit: u32) -> Call {
        let (record, inputs) = (self.record, self.inputs);
        let (bus_log, read_only) = match self.is_whole(limit) {
            true => (self.bus_log.clone(), self.read_only),
            false => (None, ReadOnly::default()),
        };
        Call { record, inputs, limit, pages: mem::take(&mut self.pages), bus_log, read_only }
    }

    /// Runs a call on both sides; tells the first difference.
    fn compare(&mut self, limit: u32) -> Result<Returned, String> {
        if self.is_whole(limit) {
            return self.compare_whole(limit);
        }
        let returned = self.run_bare(limit);
        let (inputs, pages) = (self.inputs, &mut self.pages);
        let port = port::call(&self.record, inputs, limit, pages, None, ReadOnly::default());
        self.compare_bare(&returned, &port)?;
        self.counts.call(&self.record, &returned, self.lengths);
        self.counts.stop_addresses.add_end(inputs.stop_address, &port, &self.pages);
        Ok(returned)
    }

    /// The original without its log.
    fn run_bare(&mut self, limit: u32) -> Returned {
        self.machine.begin(&self.record, self.inputs);
        self.counts.stop_address = self.inputs.stop_address;
        self.machine.original_run(limit, self.counts)
    }

    /// Compares what the original without its log returned and left with the port's answer and
    /// pages.
    fn compare_bare(&self, returned: &Returned, port: &Answer) -> Result<(), String> {
        let record = self.machine.lh5801.record();
        let own = [&self.machine.page0[..], &self.machine.page1[..]];
        compare::returned_difference(returned, &record, port)
            .or_else(|| compare::pages_difference(own, slices(&self.pages)))
            .map_or(Ok(()), Err)
    }

    /// Runs a call with a log or a read-only part, or that begins with BF and IR0 set, on the original
    /// with its panics, the model and the port, and then, where that can be, as many steps on the
    /// original without its log.
    fn compare_whole(&mut self, limit: u32) -> Result<Returned, String> {
        let call = self.take_call(limit);
        let (original, mut port, difference) = self.comparison.both(&call);
        if let Some(how) = difference {
            return Err(how);
        }
        self.pages = mem::take(&mut port.pages);
        match self.is_bare() {
            true => self.follow_bare(limit, &port)?,
            false => self.take_over(&call, &original),
        }
        let Answer { number, byte, steps, states, .. } = original;
        let returned = Returned { number, byte, steps, states };
        self.counts.call(&self.record, &returned, self.lengths);
        self.counts.logs.add(&call, &original);
        self.counts.stop_addresses.add(&call, &original);
        self.counts.ir0.add(&call, &original);
        self.bus_log = port.bus_log;
        Ok(returned)
    }

    /// The original without its log makes the steps of a call that the port has answered so.
    fn follow_bare(&mut self, limit: u32, port: &Answer) -> Result<(), String> {
        let bare = match (port.number, port.steps) {
            (11, 0) => self.returned_at_once(),
            (11, steps) => Returned { number: 11, ..self.run_bare(steps as u32) },
            _ => self.run_bare(limit),
        };
        self.compare_bare(&bare, port)
            .map_err(|how| format!("the original without and with its panics: {how}"))
    }

    /// The original without its log knows no read-only part and does not enter IR0: it is given what
    /// came out.
    fn take_over(&mut self, call: &Call, original: &Answer) {
        self.machine.begin(&original.record, self.inputs);
        self.machine.page0.clone_from(&original.pages[0]);
        self.machine.page1.clone_from(&original.pages[1]);
        self.counts.watch(call, original);
        self.counts.drops.add(call, original);
    }

    /// A call of the original without its log that ends before its first step: 11 is not its own.
    fn returned_at_once(&mut self) -> Returned {
        self.machine.begin(&self.record, self.inputs);
        Returned { number: 11, ..Returned::default() }
    }

    /// The next step waits.
    fn is_parked(&self) -> bool {
        self.inputs.idle != 0 && self.record.begins_halted_step()
    }

    /// Nothing is executed, and nothing inside the unit will ever end that: BF clear, or parked with IE
    /// clear or with a timer that does not run.
    fn is_quiet(&self) -> bool {
        let r = &self.record;
        let sleeps_on = r.t & 0x02 == 0 || r.tm == 0;
        !r.bf || self.is_parked() && sleeps_on
    }

    /// The next step stops with 12.
    fn is_stopped(&self) -> bool {
        let is_there = self.inputs.stop_address == Some(self.record.p);
        is_there && self.record.is_instruction_due()
    }

    /// Between two calls: sometimes another record.
    fn change(&mut self) {
        self.empty_log();
        if self.is_quiet() && self.random.chance(60) {
            // A parked unit goes on. One that is off may be halted besides, and stays so.
            self.record.is_halted &= !self.is_parked();
            self.record.bf = true;
        }
        if self.random.chance(25) {
            random::change(&mut self.random, &mut self.record, self.lengths);
        }
        if self.random.chance(REQUESTED) {
            random::request_ir0(&mut self.random, &mut self.record);
        }
        if self.random.chance(5) {
            self.new_read_only();
        }
        let percent = if self.is_stopped() { STOPPED } else { 5 };
        if self.random.chance(percent) {
            self.new_stop();
        }
        if self.is_full() {
            // 11 comes before 12.
            self.inputs.stop_address = Some(self.record.p);
        }
    }
}

/// Many limits: one step, few, hundreds, thousands; now and then one that is refused.
fn limit(random: &mut Random) -> u32 {
    match random.below(10_000) {
        0..=9 => random.pick(&[0, 1_000_001, u32::MAX]),
        10..=3799 => 1,
        3800..=7599 => 2 + random.below(19) as u32,
        7600..=9699 => 21 + random.below(180) as u32,
        9700..=9989 => 1000 + random.below(3000) as u32,
        9990..=9998 => 10_000 + random.below(30_000) as u32,
        _ => random.pick(&[100_000, 1_000_000]),
    }
}

/// A difference: which session and call, and how.
struct Found {
    session: u64,
    call: u64,
    how: String,
}

/// Runs a session. A panic of the original that nothing foretold counts as a difference.
fn session(seed: u64, index: u64, counts: &mut Counts) -> Option<Found> {
    let before = counts.calls;
    let ended = catch_unwind(AssertUnwindSafe(|| Session::new(seed, index, counts, None).run()));
    match ended {
        Ok(Err(Ended::Differs(call, how))) => Some(Found { session: index, call, how }),
        Ok(_) => None,
        Err(_) => {
            let call = counts.calls - before;
            let how = "a panic that was not foretold".to_string();
            Some(Found { session: index, call, how })
        }
    }
}

/// What the threads share.
struct Shared {
    steps: AtomicU64,
    ended: AtomicBool,
}

/// The sessions of one thread: every so-manieth, until its share of the steps is made.
fn work(settings: &Settings, thread: u64, shared: &Shared) -> (Counts, Option<Found>) {
    let mut counts = Counts::new();
    let share = settings.steps.div_ceil(settings.threads);
    let mut index = thread;
    while counts.busy() < share && !shared.ended.load(Ordering::Relaxed) {
        let before = counts.busy();
        if let Some(found) = session(settings.seed, index, &mut counts) {
            shared.ended.store(true, Ordering::Relaxed);
            return (counts, Some(found));
        }
        shared.steps.fetch_add(counts.busy() - before, Ordering::Relaxed);
        index += settings.threads;
    }
    (counts, None)
}

/// Shows the progress until every thread has ended.
fn watch_progress<T>(workers: &[thread::ScopedJoinHandle<'_, T>], total: u64, shared: &Shared) {
    let mut progress = Progress::new("step", total);
    while workers.iter().any(|worker| !worker.is_finished()) {
        thread::sleep(Duration::from_millis(50));
        progress.show(shared.steps.load(Ordering::Relaxed));
    }
    progress.wipe();
}

fn run_threads(settings: &Settings) -> (Counts, Option<Found>) {
    let shared = Shared { steps: AtomicU64::new(0), ended: AtomicBool::new(false) };
    thread::scope(|scope| {
        let shared = &shared;
        let spawn = |thread| scope.spawn(move || work(settings, thread, shared));
        let workers: Vec<_> = (0..settings.threads).map(spawn).collect();
        watch_progress(&workers, settings.steps, shared);
        let mut counts = Counts::new();
        let mut found = None;
        for worker in workers {
            let (more, difference) = worker.join().expect("a worker ends");
            counts.join(&more);
            found = found.or(difference);
        }
        (counts, found)
    })
}

/// Runs the differential; true where nothing differs, every opcode, every idle figure and logs came
/// often enough, and read-only parts, stop addresses and IR0 did all that they have to.
pub fn run(settings: &Settings) -> bool {
    let Settings { steps, seed, threads } = settings;
    println!("seed {seed}, {threads} threads, original against port");
    println!("at least {steps} steps that execute an instruction or accept an interrupt");
    let begin = Instant::now();
    let (counts, found) = run_threads(settings);
    if let Some(found) = found {
        report(*seed, &found);
        return false;
    }
    counts.print();
    let seconds = begin.elapsed().as_secs_f64();
    let Logs { steps: logged, busy, entries, .. } = counts.logs;
    println!(
        "{logged} steps with a log, {busy} of them with an access: {entries} entries compared"
    );
    println!("{} calls, {} steps, 0 differences, {seconds:.1} s", counts.calls, counts.steps);
    came_often_enough(&counts, *steps)
}

/// What a count of a run of 100 million steps has to be in a shorter run.
fn share(least: u64, steps: u64) -> u64 {
    least.min(steps / (100_000_000 / least))
}

/// Whether every opcode was executed, every idle figure waited with, and steps made with a log, as
/// often as it has to be, and whether read-only parts, stop addresses and IR0 did all that they can do.
fn came_often_enough(counts: &Counts, steps: u64) -> bool {
    let least = share(LEAST, steps);
    let rarest = (0..2).map(|page| counts.rarest(page).1).min().unwrap_or(0);
    if rarest < least {
        println!("an opcode was executed {rarest} times only, less than {least}");
    }
    let least_waits = share(LEAST_WAITS, steps);
    let (idle, waits) = counts.waits.rarest();
    if waits < least_waits {
        println!("the idle figure {idle} had {waits} waiting steps only, less than {least_waits}");
    }
    let logged = counts.logs.busy;
    let least_logged = steps * LEAST_LOGGED / 100;
    if logged < least_logged {
        println!("{logged} steps with an access had a log only, less than {least_logged}");
    }
    let all = steps < MANY || have_all(&counts.drops, &counts.stop_addresses, &counts.ir0);
    rarest >= least && waits >= least_waits && logged >= least_logged && all
}

/// Prints the smallest input for a difference, from the session made once more up to that call.
fn report(seed: u64, found: &Found) {
    let Found { session, call, how } = found;
    println!("session {session}, call {call} differs: {how}; making it smaller");
    let mut counts = Counts::new();
    let Err(Ended::Reached(failing)) = Session::new(seed, *session, &mut counts, Some(*call)).run()
    else {
        println!("the session does not come to that call again");
        return;
    };
    let mut comparison = Comparison::new(Box::new(Port));
    if comparison.differs(&failing) {
        report_smallest(&mut comparison, *failing);
    } else {
        println!("the call by itself does not differ:");
        print!("{}", shrink::describe(&failing));
    }
}
