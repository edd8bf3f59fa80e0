//! The list that the port's program `replay` holds (`../crates/replay/data`), through the port's
//! two libraries: a call through `lh5801_call` with the idle figure 0, the item's log or none, its
//! read-only part and its stop address or none, a file that is turned down through `probe_report`.
//!
//! Each page, the words, each file, the line's buffer and each log's list are blocks of the heap that
//! are exactly as long as they have to be: valgrind tells an access past their ends (`../memcheck`).

#![forbid(unsafe_code)]

use std::fs;
use std::path::Path;

use crate::call::{Call, ReadOnly, Side};
use crate::campaign;
use crate::item::{sums, Item, Rest};
use crate::lines::Report;
use crate::port::Port;
use crate::progress::Progress;

/// What the items of a list have in them.
#[derive(Default)]
pub struct Tally {
    calls: u64,
    /// Calls with a log, and those of them that end with 11.
    logged: u64,
    full: u64,
    /// Calls with a read-only part.
    protected: u64,
    /// Calls with a stop address, and those of them that end with 12.
    stopping: u64,
    stopped: u64,
    /// Files that are turned down: nothing is run.
    refused: u64,
    steps: u64,
    most_steps: u64,
    /// Pages that are empty, of 65,536 and of 65,537 bytes.
    pages: [u64; 3],
    differing: Vec<u64>,
}

impl Tally {
    /// Replays an item; true where the side's answer is the list's.
    fn replay(&mut self, item: &Item, side: &mut dyn Side, report: Report) -> Result<bool, String> {
        // A block that ends where the file ends.
        let file = item.file.clone().into_boxed_slice();
        let Ok(read) = campaign::read(&file) else {
            self.refused += 1;
            return Ok(report(&file)? == item.line);
        };
        let call = item.call(read)?;
        self.add(&call);
        let answer = side.call(&call);
        self.full += u64::from(answer.number == 11);
        self.stopped += u64::from(answer.number == 12);
        self.steps += answer.steps;
        self.most_steps = self.most_steps.max(answer.steps);
        let line = format!("{}\n", answer.line()).into_bytes();
        Ok(answer.failure.is_none() && line == item.line && sums(&answer) == item.sums)
    }

    /// A call's log, read-only part, stop address and pages.
    fn add(&mut self, call: &Call) {
        self.calls += 1;
        self.logged += u64::from(call.bus_log.is_some());
        self.protected += u64::from(call.read_only != ReadOnly::default());
        self.stopping += u64::from(call.inputs.stop_address.is_some());
        for page in &call.pages {
            for (count, length) in self.pages.iter_mut().zip([0, 65_536, 65_537]) {
                *count += u64::from(page.len() == length);
            }
        }
    }

    /// Prints what there was; true where nothing differs.
    pub fn print(&self) -> bool {
        let Tally { calls, logged, full, protected, refused, steps, most_steps, .. } = self;
        for item in &self.differing {
            println!("item {item} differs");
        }
        let [empty, greatest, above] = self.pages;
        println!(
            "{calls} calls through lh5801_call: {steps} steps, at most {most_steps} in a call;"
        );
        println!("  {empty} pages empty, {greatest} of 65,536 bytes, {above} of 65,537;");
        println!("  {logged} with a log, {full} of them end with 11; {protected} read-only parts");
        let Tally { stopping, stopped, .. } = self;
        println!("  {stopping} with a stop address, {stopped} of them end with 12");
        println!("{refused} files turned down through probe_report");
        println!("{} items, {} differences", calls + refused, self.differing.len());
        self.differing.is_empty()
    }
}

/// Replays one file of the list.
pub fn replay_file(
    bytes: &[u8],
    side: &mut dyn Side,
    report: Report,
    tally: &mut Tally,
) -> Result<(), String> {
    let mut progress = Progress::new("byte", bytes.len() as u64);
    let mut rest = Rest(bytes);
    while !rest.0.is_empty() {
        let number = tally.calls + tally.refused + 1;
        let item = rest.item()?;
        if !tally.replay(&item, side, report)? {
            tally.differing.push(number);
        }
        progress.show((bytes.len() - rest.0.len()) as u64);
    }
    progress.wipe();
    Ok(())
}

/// Replays the files answers0.bin and on of a folder; true where every answer is the list's.
pub fn run(folder: &Path, report: Report) -> Result<bool, String> {
    let mut tally = Tally::default();
    let names = (0..).map(|index| folder.join(format!("answers{index}.bin")));
    for name in names.take_while(|name| name.exists()) {
        let failed = |message: String| format!("{}: {message}", name.display());
        let bytes = fs::read(&name).map_err(|error| failed(error.to_string()))?;
        replay_file(&bytes, &mut Port, report, &mut tally).map_err(failed)?;
    }
    if tally.calls + tally.refused == 0 {
        return Err(format!("{}: there is no list answers0.bin", folder.display()));
    }
    Ok(tally.print())
}
