//! Long parks (document 02, F-1): many waiting steps at every idle figure, the original against the
//! port and the model, compared after every call.
//!
//! Two runs, each cut into calls that go on from one another. With IE clear nothing wakes the unit.
//! With IE set the timer does: the routine at its vector counts the wake, loads the timer from that
//! count and returns, and the unit halts again.

#![forbid(unsafe_code)]

use bare::{Pc1500, Returned, Watch};

use crate::call::{Answer, Call, Inputs, Record, Side, GREATEST_LIMIT};
use crate::compare::{self, report_smallest, slices, Comparison};
use crate::model::Model;
use crate::port::Port;
use crate::progress::Progress;
use crate::random;
use crate::waits::Waits;

/// HLT, and a branch back to it.
const PARKING: [u8; 4] = [0xFD, 0xB1, 0x9E, 0x04];
/// LDA (0100), INC A, STA (0100), AM1, RTI: TM becomes one of 100 to 1FF, and so is not 0.
const ROUTINE: [u8; 10] = [0xA5, 0x01, 0x00, 0xDD, 0xAE, 0x01, 0x00, 0xFD, 0xDE, 0x8A];
const ROUTINE_AT: u16 = 0x0010;
const TIMER_VECTOR: u16 = 0xFFFA;

/// The limits of a figure's first calls; those after them are as long as they may be.
const SHORT: [u32; 4] = [1, 10, 100, 1000];
/// The figures of the long calls, in turn.
const LONG: [u8; 7] = [1, 2, 41, 42, 43, 84, 255];

/// What the calls of a run have reached.
#[derive(Default)]
struct Counts {
    calls: u64,
    steps: u64,
    longest: u64,
    waits: Waits,
    wakes: u64,
}

impl Watch for Counts {
    fn interrupt(&mut self, halted: bool) {
        self.wakes += u64::from(halted);
    }
    fn waiting(&mut self, idle: u8) {
        self.waits.add(idle, 1);
    }
}

/// A call to which this side answers otherwise than the original, and how.
struct Found {
    call: Call,
    side: Box<dyn Side>,
    how: String,
}

struct Run {
    /// The original's machine. The next call begins with its record and pages.
    machine: Pc1500,
    counts: Counts,
    progress: Progress,
}

impl Run {
    /// The unit before its first HLT, and so many waiting steps before the end.
    fn new(is_enabled: bool, waits: u64) -> Run {
        let t = if is_enabled { 0x02 } else { 0x00 };
        let record = Record { t, s: 0x0200, tm: 1, bf: true, ..Record::default() };
        let mut page = vec![0x00; 65_536];
        random::place(&mut page, 0, &PARKING);
        random::place(&mut page, ROUTINE_AT, &ROUTINE);
        random::place(&mut page, TIMER_VECTOR, &ROUTINE_AT.to_be_bytes());
        let machine = Pc1500::new(&record, Inputs::default(), [page, vec![]]);
        Run { machine, counts: Counts::default(), progress: Progress::new("waiting step", waits) }
    }

    /// Half of the waiting steps spread over the figures 1 to 255, the rest in long calls.
    fn wait(&mut self, waits: u64) -> Result<(), Box<Found>> {
        let each = (waits / 2).div_ceil(255);
        for idle in 1..=255 {
            self.wait_with(idle, self.counts.waits.total() + each, &SHORT)?;
        }
        for idle in LONG.into_iter().cycle() {
            let done = self.counts.waits.total();
            if done >= waits {
                break;
            }
            self.wait_with(idle, waits.min(done + u64::from(GREATEST_LIMIT)), &[])?;
        }
        Ok(())
    }

    /// Calls with one figure, until there are so many waiting steps in all: first those of these
    /// limits.
    fn wait_with(&mut self, idle: u8, end: u64, limits: &[u32]) -> Result<(), Box<Found>> {
        let mut limits = limits.iter().copied();
        while self.counts.waits.total() < end {
            let left = end - self.counts.waits.total();
            let most = limits.next().unwrap_or(GREATEST_LIMIT);
            self.call(idle, left.min(most.into()) as u32)?;
            self.progress.show(self.counts.waits.total());
        }
        Ok(())
    }

    /// One call on all three.
    fn call(&mut self, idle: u8, limit: u32) -> Result<(), Box<Found>> {
        let record = self.machine.lh5801.record();
        let inputs = Inputs { idle, ..Inputs::default() };
        let pages = [self.machine.page0.clone(), self.machine.page1.clone()];
        let call = Call { record, inputs, limit, pages, ..Call::default() };
        self.machine.begin(&record, inputs);
        let returned = self.machine.original_run(limit, &mut self.counts);
        let sides: [Box<dyn Side>; 2] = [Box::new(Port), Box::<Model>::default()];
        for mut side in sides {
            if let Some(how) = self.difference(&returned, &side.call(&call)) {
                return Err(Box::new(Found { call, side, how }));
            }
        }
        assert_eq!(returned.number, 0, "no call of a park stops");
        self.counts.calls += 1;
        self.counts.steps += returned.steps;
        self.counts.longest = self.counts.longest.max(returned.steps);
        Ok(())
    }

    /// How an answer differs from what the original has returned and left.
    fn difference(&self, returned: &Returned, answer: &Answer) -> Option<String> {
        let own = [&self.machine.page0[..], &self.machine.page1[..]];
        compare::returned_difference(returned, &self.machine.lh5801.record(), answer)
            .or_else(|| compare::pages_difference(own, slices(&answer.pages)))
    }
}

/// One of the two runs: what it has reached, or nothing where a call differs, which is printed.
fn park(is_enabled: bool, waits: u64) -> Option<Counts> {
    let title = if is_enabled { "IE set" } else { "IE clear" };
    let mut run = Run::new(is_enabled, waits);
    let ended = run.wait(waits);
    run.progress.wipe();
    if let Err(found) = ended {
        println!("{title}, call {} differs: {}; making it smaller", run.counts.calls, found.how);
        report_smallest(&mut Comparison::new(found.side), found.call);
        return None;
    }
    let Counts { calls, longest, waits, wakes, .. } = &run.counts;
    println!("{title}: {waits}; {wakes} wakes; {calls} calls, the longest of {longest} steps");
    Some(run.counts)
}

/// Runs both; true where no difference was found.
pub fn run(waits: u64) -> bool {
    println!("original against port and model");
    println!("{waits} waiting steps with IE clear, and as many with IE set");
    let mut sum = Counts::default();
    for is_enabled in [false, true] {
        let Some(counts) = park(is_enabled, waits) else { return false };
        sum.calls += counts.calls;
        sum.steps += counts.steps;
        sum.wakes += counts.wakes;
        sum.waits.join(&counts.waits);
    }
    let Counts { calls, steps, wakes, .. } = sum;
    let waits = sum.waits.total();
    println!("{calls} calls, {steps} steps, {waits} waiting steps, {wakes} wakes, 0 differences");
    true
}
