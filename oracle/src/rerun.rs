//! Demand 3 by running: a run through the port, cut into lists of calls in two ways, on pages that
//! differ wherever the run does not read a byte before it has stored a write there.
//!
//! Which bytes are read first, and what is written, comes from the original's log. In half of the
//! runs both sides have the same read-only part of page 0: what is dropped there stores nothing, and
//! each side's bytes in it have to stay, call by call. In half of the runs both sides have the same
//! stop address, and the run is made without it too. In half of the runs both sides are lent a bus log,
//! with equally many free entries and otherwise different.

#![forbid(unsafe_code)]

use crate::call::{
    Access, Answer, BusLog, Call, Inputs, Log, ReadOnly, Record, Side, GREATEST_LIMIT, GREATEST_TM,
    MOST_ACCESSES,
};
use crate::compare::{self, ends_in_words, have_all, ordered_original, slices};
use crate::drops::Drops;
use crate::ir0_counts::Ir0Counts;
use crate::opcodes::{table, Kind, Place};
use crate::original::Original;
use crate::port;
use crate::progress::Progress;
use crate::protect;
use crate::random::{self, Random};
use crate::shrink;
use crate::stop_addresses;
use crate::stop_counts::Stops;
use bare::Returned;

/// The first access to a byte of a lent page.
#[derive(Clone, Copy, PartialEq, Eq)]
enum First {
    None,
    Read,
    Written,
}

/// What the original does over a whole list of calls.
struct Course {
    returned: Returned,
    record: Record,
    read_only: ReadOnly,
    first: [Vec<First>; 2],
    /// The stored writes of completed steps, in order: page, offset, byte.
    writes: Vec<(usize, usize, u8)>,
    /// The entries that the bus log gains, where one is lent.
    entries: Vec<u32>,
    /// Reads of a byte that was written before it was ever read, and those of them inside a step.
    later_reads: u64,
    inside: u64,
    /// Steps that waited.
    waits: u64,
    drops: Drops,
    stops: Stops,
    ir0: Ir0Counts,
}

impl Course {
    /// A course on this call's pages that has not begun.
    fn new(call: &Call) -> Course {
        Course {
            returned: Returned::default(),
            record: call.record,
            read_only: call.read_only,
            first: [0, 1].map(|page: usize| vec![First::None; call.pages[page].len()]),
            writes: vec![],
            entries: vec![],
            later_reads: 0,
            inside: 0,
            waits: 0,
            drops: Drops::default(),
            stops: Stops::default(),
            ir0: Ir0Counts::default(),
        }
    }

    /// The byte of a lent page that an access reads or changes: none past the page's end, and none
    /// where a write is dropped by the read-only part.
    fn place(&self, access: &Access) -> Option<(usize, usize)> {
        let address = access.address();
        let (page, offset) = ((address >> 16) as usize, (address & 0xFFFF) as usize);
        let is_dropped = access.is_write() && self.read_only.has(address);
        (offset < self.first[page].len() && !is_dropped).then_some((page, offset))
    }

    /// Reads of a stopping step count, and so would its writes; writes that are kept are those of
    /// completed steps.
    fn add(&mut self, log: &Log) {
        for index in 0..log.starts.len() {
            let mut own = vec![];
            for access in log.step(index) {
                let Some((page, offset)) = self.place(access) else { continue };
                self.access(access, page, offset, &mut own);
            }
        }
        for write in log.writes() {
            if let Some((page, offset)) = self.place(write) {
                self.writes.push((page, offset, write.byte()));
            }
        }
    }

    /// `own` has the bytes that the present step was the first to write.
    fn access(
        &mut self,
        access: &Access,
        page: usize,
        offset: usize,
        own: &mut Vec<(usize, usize)>,
    ) {
        let first = &mut self.first[page][offset];
        match (access.is_write(), *first) {
            (true, First::None) => {
                *first = First::Written;
                own.push((page, offset));
            }
            (false, First::None) => *first = First::Read,
            (false, First::Written) => {
                self.later_reads += 1;
                self.inside += u64::from(own.contains(&(page, offset)));
            }
            _ => {}
        }
    }

    /// These pages with the writes stored.
    fn stored(&self, pages: &[Vec<u8>; 2]) -> [Vec<u8>; 2] {
        let mut pages = pages.clone();
        for (page, offset, byte) in &self.writes {
            pages[*page][*offset] = *byte;
        }
        pages
    }

    /// This log with the entries appended.
    fn appended(&self, given: &BusLog) -> BusLog {
        let mut log = given.clone();
        for (place, entry) in log.entries.iter_mut().skip(given.used).zip(&self.entries) {
            *place = *entry;
        }
        log.used += self.entries.len();
        log
    }

    /// The end of one more call of the list.
    fn end_call(&mut self, answer: &Answer) {
        let Returned { steps, states, .. } = self.returned;
        let (steps, states) = (steps + answer.steps, states + answer.states);
        self.returned = Returned { number: answer.number, byte: answer.byte, steps, states };
        self.record = answer.record;
        self.waits += answer.waits;
        if let Some(log) = &answer.log {
            self.add(log);
        }
    }
}

/// The original over a list of calls, which hand on the bus log. Its vector reads are put in
/// document 01's order where there is one.
fn course(call: &Call, limits: &[u32]) -> Result<Course, String> {
    let mut course = Course::new(call);
    let mut next = call.clone();
    for limit in limits {
        next.limit = *limit;
        let mut answer = match next.bus_log {
            Some(_) => ordered_original(&next),
            None => Original.call(&next),
        };
        if let Some(message) = answer.failure {
            return Err(format!("the original failed: {message}"));
        }
        course.end_call(&answer);
        course.drops.add(&next, &answer);
        course.stops.add(&next, &answer);
        course.ir0.add(&next, &answer);
        next.go_on(&mut answer);
    }
    if let (Some(given), Some(log)) = (&call.bus_log, &next.bus_log) {
        let used = log.entries.iter().take(log.used).skip(given.used);
        course.entries = used.copied().collect();
    }
    Ok(course)
}

/// One of the two sides: its pages, its bus log and its list of limits; what its calls are given, and
/// the number that the last one has to end with.
struct Lane<'a> {
    pages: &'a [Vec<u8>; 2],
    bus_log: Option<&'a BusLog>,
    limits: &'a [u32],
    inputs: Inputs,
    number: u8,
}

/// The port over a list of calls: its answers must sum up to the course. All calls have the call's
/// idle figure, read-only part and stop address, on both sides: only then are two runs comparable. The
/// used count is handed on. Tells how many calls that go on from the one before stop at once with 12.
fn follow(course: &Course, call: &Call, lane: &Lane) -> Result<u64, String> {
    let mut after = lane.pages.clone();
    let mut log = lane.bus_log.cloned();
    let (mut steps, mut states, mut at_once) = (0, 0, 0);
    let mut last: Option<Answer> = None;
    let mut record = call.record;
    for limit in lane.limits {
        let log = log.as_mut();
        let answer = port::call(&record, lane.inputs, *limit, &mut after, log, call.read_only);
        if let Some(message) = &answer.failure {
            return Err(format!("failure: {message}"));
        }
        protected_stays(call.read_only, &lane.pages[0], &after[0])?;
        let goes_on = last.is_some_and(|last| last.number == 0);
        at_once += u64::from(goes_on && answer.number == 12 && answer.steps == 0);
        record = answer.record;
        steps += answer.steps;
        states += answer.states;
        last = Some(answer);
    }
    let mut sum = last.ok_or("an empty list")?;
    (sum.steps, sum.states) = (steps, states);
    let expected = course.stored(lane.pages);
    let appended = lane.bus_log.map(|log| course.appended(log));
    let returned = Returned { number: lane.number, ..course.returned };
    compare::returned_difference(&returned, &course.record, &sum)
        .or_else(|| compare::pages_difference(slices(&expected), slices(&after)))
        .or_else(|| compare::bus_log_difference(appended.as_ref(), log.as_ref()))
        .map_or(Ok(at_once), Err)
}

/// The port without the stop address, on the given pages: the same run, where that did not end with
/// 12. Where it did, as many steps as it has completed end with 0 and leave the same.
fn follow_plain(course: &Course, call: &Call, limits: &[u32]) -> Result<(), String> {
    let Returned { number, steps, .. } = course.returned;
    let is_stop = number == 12;
    if call.inputs.stop_address.is_none() || is_stop && steps == 0 {
        return Ok(());
    }
    let greatest = u64::from(GREATEST_LIMIT);
    let whole = [steps.min(greatest), steps.saturating_sub(greatest)].map(|limit| limit as u32);
    let whole = if whole[1] == 0 { &whole[..1] } else { &whole };
    let (limits, number) = if is_stop { (whole, 0) } else { (limits, number) };
    let (inputs, bus_log) = (call.inputs.without_stop(), call.bus_log.as_ref());
    let plain = Lane { pages: &call.pages, bus_log, limits, inputs, number };
    follow(course, call, &plain).map(|_| ())
}

/// After every call, each byte of the read-only part is what it was.
fn protected_stays(read_only: ReadOnly, before: &[u8], after: &[u8]) -> Result<(), String> {
    let changed = read_only.offsets(before.len()).find(|i| before[*i] != after[*i]);
    changed.map_or(Ok(()), |offset| Err(format!("the read-only byte at {offset:04X} changed")))
}

/// Another value for every byte that is not read first.
fn other_pages(random: &mut Random, course: &Course, pages: &[Vec<u8>; 2]) -> [Vec<u8>; 2] {
    let mut other = pages.clone();
    for (page, first) in other.iter_mut().zip(&course.first) {
        for (byte, first) in page.iter_mut().zip(first) {
            if *first != First::Read {
                *byte ^= 1 + random.below(255) as u8;
            }
        }
    }
    other
}

/// Cuts a number of steps into limits of 1 to 1,000,000 each.
fn cut(random: &mut Random, total: u32) -> Vec<u32> {
    let most = match random.below(5) {
        0 => total,
        1 if total <= 400 => 1,
        2 => 1 + total / 2,
        _ => 1 + random.below(u64::from(total / 4 + 2)) as u32,
    };
    let most = most.max(total / 1000).min(GREATEST_LIMIT);
    let mut limits = vec![];
    let mut left = total;
    while left > 0 {
        let limit = if most == 1 { 1 } else { 1 + random.below(u64::from(most)) as u32 };
        let limit = if most == total { most } else { limit };
        limits.push(limit.min(left).min(GREATEST_LIMIT));
        left -= limits[limits.len() - 1];
    }
    limits
}

/// What the runs have reached.
#[derive(Default)]
struct Counts {
    calls: u64,
    steps: u64,
    stops: [u64; 13],
    above_one_call: u64,
    after_stop: u64,
    bytes: u64,
    other: u64,
    later_reads: u64,
    inside: u64,
    waits: u64,
    waiting_runs: u64,
    logged_runs: u64,
    logged_steps: u64,
    entries: u64,
    /// Runs with a read-only part, and what it did, call by call of the original.
    protected_runs: u64,
    drops: Drops,
    /// Runs with a stop address, and what it did; cuts between two calls that fall on it.
    stopping_runs: u64,
    stop_addresses: Stops,
    cuts: u64,
    /// Calls of the original that begin with IR0 set.
    ir0: Ir0Counts,
}

impl Counts {
    fn add(&mut self, course: &Course, lists: [&[u32]; 2], total: u32, logged: bool) {
        if logged {
            self.logged_runs += 1;
            self.logged_steps += course.returned.steps;
            self.entries += course.entries.len() as u64;
        }
        self.calls += lists.iter().map(|list| list.len() as u64).sum::<u64>();
        self.steps += course.returned.steps;
        self.stops[usize::from(course.returned.number)] += 1;
        self.above_one_call += u64::from(total > GREATEST_LIMIT);
        let last_begins = lists.map(|list| u64::from(total - list[list.len() - 1]));
        let stopped = course.returned.number != 0;
        let again = last_begins.iter().any(|begin| *begin > course.returned.steps);
        self.after_stop += u64::from(stopped && again);
        let first = || course.first.iter().flatten();
        self.bytes += first().count() as u64;
        self.other += first().filter(|first| **first != First::Read).count() as u64;
        self.later_reads += course.later_reads;
        self.inside += course.inside;
        self.waits += course.waits;
        self.waiting_runs += u64::from(course.waits > 0);
        self.protected_runs += u64::from(course.read_only != ReadOnly::default());
        self.drops.join(&course.drops);
        self.stop_addresses.join(&course.stops);
        self.ir0.join(&course.ir0);
    }

    fn print(&self) {
        println!("final stops:{}", ends_in_words(&self.stops));
        println!(
            "runs with calls after a stop: {}; of more than 1,000,000 steps: {}",
            self.after_stop, self.above_one_call
        );
        println!(
            "bytes of lent pages: {}, of them given another value: {}",
            self.bytes, self.other
        );
        println!(
            "reads of a byte that was written first: {}, inside the writing step: {}",
            self.later_reads, self.inside
        );
        println!("waiting steps: {} in {} runs", self.waits, self.waiting_runs);
        println!(
            "runs with a log: {}, of {} steps and {} entries",
            self.logged_runs, self.logged_steps, self.entries
        );
        println!("runs with a read-only part: {}; {}", self.protected_runs, self.drops);
        println!(
            "runs with a stop address: {}, {} of them end with 12, {} cuts fall on it;\n  {}",
            self.stopping_runs, self.stops[12], self.cuts, self.stop_addresses
        );
        println!("{}", self.ir0);
    }

    /// Whether read-only parts, stop addresses and IR0 have done all that they can do.
    fn have_all(&self) -> bool {
        let all = have_all(&self.drops, &self.stop_addresses, &self.ir0);
        if self.cuts == 0 {
            println!("no cut falls on a stop address");
        }
        all && self.cuts > 0
    }
}

/// A log with as many free entries as this one; length, used count and contents are others. With no
/// free entry the used count may be beyond the list.
fn other_log(random: &mut Random, log: &BusLog) -> BusLog {
    let (free, used) = (log.free(), random.below(40) as usize);
    match free {
        0 if random.chance(50) => random::garbage(random, used, used + 1),
        _ => random::garbage(random, used + free, used),
    }
}

/// A log for a run of this many steps: mostly enough for it, sometimes few free entries or none.
fn first_log(random: &mut Random, steps: u32) -> BusLog {
    let used = random.below(40) as usize;
    let enough = MOST_ACCESSES as u64 * u64::from(steps.min(30_000) + 1);
    let free = match random.below(10) {
        0 => random.below(8),
        1 | 2 => random.below(enough),
        _ => enough,
    };
    random::garbage(random, used + free as usize, used)
}

/// The two lists of limits of a case, and its second log.
fn second(call: &Call, random: &mut Random) -> ([Vec<u32>; 2], Option<BusLog>) {
    let lists = [cut(random, call.limit), cut(random, call.limit)];
    let bus_log = call.bus_log.as_ref().map(|log| other_log(random, log));
    (lists, bus_log)
}

/// Runs one case; tells the first difference. Cuts and values depend on the seed and index only.
fn check(call: &Call, seed: u64, index: u64, counts: &mut Counts) -> Result<(), String> {
    let mut random = Random::new(seed ^ 0x5EED, index);
    let ([first, second], bus_log) = second(call, &mut random);
    let course = course(call, &first)?;
    let other = other_pages(&mut random, &course, &call.pages);
    let (inputs, number, own) = (call.inputs, course.returned.number, call.bus_log.as_ref());
    let given = Lane { pages: &call.pages, bus_log: own, limits: &first, inputs, number };
    let cuts = follow(&course, call, &given).map_err(|how| format!("given pages: {how}"))?;
    let other = Lane { pages: &other, bus_log: bus_log.as_ref(), limits: &second, ..given };
    let more = follow(&course, call, &other).map_err(|how| format!("other pages: {how}"))?;
    follow_plain(&course, call, &first).map_err(|how| format!("no stop address: {how}"))?;
    counts.cuts += cuts + more;
    counts.stopping_runs += u64::from(inputs.stop_address.is_some());
    counts.add(&course, [&first, &second], call.limit, call.bus_log.is_some());
    Ok(())
}

/// A call that no condition of 1 to 4 turns down; its limit is the sum of a list's.
fn case(random: &mut Random) -> Call {
    let mut call = random::call(random);
    if random.chance(30) {
        call.pages = random::world(random);
        call.record = random::record(random, [call.pages[0].len(), call.pages[1].len()]);
    }
    call.pages.iter_mut().for_each(|page| page.truncate(65_536));
    call.record.tm &= GREATEST_TM;
    call.limit = match random.below(1500) {
        0 => 1_000_001 + random.below(200_000) as u32,
        1..=20 => 1000 + random.below(20_000) as u32,
        21..=400 => 1 + random.below(6) as u32,
        _ => 1 + random.below(400) as u32,
    };
    match random.below(100) {
        0..=3 => protect::stack_over_vectors(random, &mut call.record),
        4..=23 => near_stores(random, &mut call),
        24..=35 => random::enter_ir0(random, &mut call),
        _ => {}
    }
    let mut call = random::with_idle(random, call);
    if random.chance(50) {
        call.bus_log = Some(first_log(random, call.limit));
    }
    let call = protect::sometimes(random, call);
    stop_addresses::sometimes(random, call)
}

/// Code that stores and loads among a few bytes of both pages, so that many are written first.
fn near_stores(random: &mut Random, call: &mut Call) {
    call.pages = [vec![], vec![]];
    let code = (0..20 + random.below(80)).flat_map(|_| storing(random)).collect::<Vec<u8>>();
    let place = code.len() as u64 + 8;
    call.pages[0] = code;
    for page in &mut call.pages {
        page.resize(place as usize + random.below(24) as usize, 0x00);
        page.iter_mut().skip(place as usize - 8).for_each(|byte| *byte = random.byte());
    }
    let mut near = || (place + random.below(12)) as u16;
    let (x, y, u, s) = (near(), near(), near(), near());
    call.record =
        Record { x, y, u, s, p: 0, is_halted: false, bf: true, ir0: false, ..call.record };
}

/// A listed instruction that touches memory and has no operand in the code.
fn storing(random: &mut Random) -> Vec<u8> {
    loop {
        let (page, byte) = (random.below(2) as usize, random.byte());
        let Some(entry) = table()[page][usize::from(byte)] else { continue };
        let stack = matches!(entry.kind, Kind::Push | Kind::Pop);
        let walks = matches!(entry.kind, Kind::LoadWalking(_) | Kind::StoreWalking(_));
        let memory = stack || walks || matches!(entry.place, Place::At(..));
        if memory && entry.code_bytes() == 0 {
            return if page == 1 { vec![0xFD, byte] } else { vec![byte] };
        }
    }
}

/// In a run of so many cases read-only parts, stop addresses and IR0 have to have done all that they
/// can do.
const MANY: u64 = 2000;

/// Runs the cases; true where demand 3 held in each, and read-only parts, stop addresses and IR0 came
/// as they have to.
pub fn run(cases: u64, seed: u64) -> bool {
    println!("seed {seed}, lists of calls through the port");
    let mut counts = Counts::default();
    let mut progress = Progress::new("run", cases);
    for index in 0..cases {
        let call = case(&mut Random::new(seed, index));
        if let Err(how) = check(&call, seed, index, &mut counts) {
            progress.wipe();
            println!("run {index} differs: {how}; making it smaller");
            report(call, seed, index);
            return false;
        }
        progress.show(index);
    }
    progress.wipe();
    counts.print();
    println!("{cases} runs, {} calls, {} steps, 0 differences", counts.calls, counts.steps);
    cases < MANY || counts.have_all()
}

fn report(call: Call, seed: u64, index: u64) {
    let mut unused = Counts::default();
    let mut fails = |call: &Call| call.limit > 0 && check(call, seed, index, &mut unused).is_err();
    let smallest = shrink::shrink(call, &mut fails);
    let mut random = Random::new(seed ^ 0x5EED, index);
    let (lists, bus_log) = second(&smallest, &mut random);
    println!("smallest failing input found:");
    print!("{}", shrink::describe(&smallest));
    println!("limits on the given pages {:?}, on the other pages {:?}", lists[0], lists[1]);
    if let Some(log) = bus_log {
        println!("other log: length {}, used {}", log.entries.len(), log.used);
    }
    let how = check(&smallest, seed, index, &mut Counts::default());
    println!("first difference: {}", how.err().unwrap_or_default());
}

#[cfg(test)]
mod tests {
    use super::{course, cut, protected_stays, First};
    use crate::call::{Call, Inputs, ReadOnly, Record};
    use crate::random::Random;
    use bare::Returned;

    #[test]
    fn limits_add_up() {
        for index in 0..2000 {
            let mut random = Random::new(5, index);
            let total = 1 + random.below(1_300_000) as u32 / (1 + random.below(100_000) as u32);
            let limits = cut(&mut random, total);
            assert_eq!(limits.iter().sum::<u32>(), total);
            assert!(limits.iter().all(|limit| (1..=1_000_000).contains(limit)));
        }
    }

    /// An interrupt with S at FFFB writes FFFB and FFFA and then reads them as its vector.
    #[test]
    fn a_vector_under_the_stack_is_not_read_first() {
        let record = Record { s: 0xFFFB, t: 2, bf: true, ir1: true, ..Record::default() };
        let pages = [vec![0x38; 65_536], vec![]];
        let call = Call { record, limit: 1, pages, ..Call::default() };
        let course = course(&call, &[1]).unwrap();
        let first = |offset: usize| course.first[0][offset];
        assert!([0xFFF9, 0xFFFA, 0xFFFB].iter().all(|i| first(*i) == First::Written));
        assert_eq!((course.later_reads, course.inside), (2, 2));
        assert_eq!(course.writes.len(), 3);
        assert!(course.first[0].iter().all(|first| *first != First::Read));
    }

    /// The same with FFFA read-only: its write stores nothing, so that the vector reads it first.
    #[test]
    fn a_dropped_write_leaves_its_byte_unwritten() {
        let record = Record { s: 0xFFFB, t: 2, bf: true, ir1: true, ..Record::default() };
        let (pages, read_only) = ([vec![0x38; 65_536], vec![]], ReadOnly::new(0xFFFA, 0xFFFB));
        let call = Call { record, limit: 1, pages, read_only, ..Call::default() };
        let course = course(&call, &[1]).unwrap();
        let [written, read, later] = [0xFFF9, 0xFFFA, 0xFFFB].map(|i| course.first[0][i]);
        assert!(written == First::Written && read == First::Read && later == First::Written);
        assert_eq!((course.later_reads, course.inside), (1, 1));
        assert_eq!(course.writes.iter().map(|write| write.1).collect::<Vec<_>>(), [0xFFFB, 0xFFF9]);
        let whole = Call { read_only: ReadOnly::new(0, u32::MAX), ..call };
        let course = super::course(&whole, &[1]).unwrap();
        assert!(course.first[0][0xFFF9] == First::None && course.writes.is_empty());
        assert!(course.stored(&whole.pages) == whole.pages);
    }

    #[test]
    fn a_changed_byte_of_the_part_is_seen() {
        let part = ReadOnly::new(1, 3);
        assert_eq!(protected_stays(part, &[1, 2, 3, 4], &[9, 2, 3, 9]), Ok(()));
        assert!(protected_stays(part, &[1, 2, 3, 4], &[1, 9, 3, 4]).is_err());
        assert!(protected_stays(part, &[1, 2, 3, 4], &[1, 2, 9, 4]).is_err());
        assert_eq!(protected_stays(ReadOnly::new(4, 70_000), &[1], &[2]), Ok(()));
    }

    /// NOP, and the stop address at an unlisted byte behind it: that byte is not read, so that it may
    /// differ; each later call stops there again.
    #[test]
    fn a_stop_before_an_address_reads_nothing() {
        let record = Record { bf: true, ..Record::default() };
        let inputs = Inputs { stop_address: Some(1), ..Inputs::default() };
        let pages = [vec![0x38, 0x31], vec![]];
        let call = Call { record, inputs, limit: 9, pages, ..Call::default() };
        for limits in [&[9][..], &[1, 8], &[2, 3, 4]] {
            let course = course(&call, limits).unwrap();
            let Returned { number, byte, steps, states } = course.returned;
            assert_eq!((number, byte, steps, states), (12, 0, 1, 5));
            assert!(course.first[0][0] == First::Read && course.first[0][1] == First::None);
        }
    }

    /// A stopping step's reads count; a read past the end and a dropped write do not.
    #[test]
    fn reads_of_a_stopping_step_count() {
        let record = Record { x: 9, bf: true, ..Record::default() };
        let pages = [vec![0x0E, 0x05, 0xFD, 0x00], vec![]];
        let call = Call { record, limit: 5, pages, ..Call::default() };
        let course = course(&call, &[1, 4]).unwrap();
        assert_eq!(
            (course.returned.number, course.returned.byte, course.returned.steps),
            (6, 0, 2)
        );
        assert!(course.first[0].iter().all(|first| *first == First::Read));
        assert!(course.writes.is_empty());
    }
}
