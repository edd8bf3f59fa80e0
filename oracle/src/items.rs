//! The list that the port's program `replay` holds (`../crates/replay/data`), made: calls with the
//! original's answers, and files that are turned down, cut into files.

#![forbid(unsafe_code)]

use std::fs;
use std::path::Path;

use crate::call::{Answer, Call, ReadOnly, Record};
use crate::campaign::{self, number, GREATEST, WORKED};
use crate::compare::ordered_original;
use crate::directed::{self, code, flagged, ON};
use crate::drops::Drops;
use crate::ir0;
use crate::ir0_counts::Ir0Counts;
use crate::item::{sums, Given, Item, NO_LOG};
use crate::list::{self, Sparse};
use crate::progress::Progress;
use crate::random::Random;
use crate::read_only;
use crate::stop_counts::Stops;
use crate::stops;

/// The program reads so many bytes of a file.
const GREATEST_FILE: usize = 65_536;
/// How many files with random bytes changed are turned down.
const CHANGED: usize = 56;

/// Used counts up to the end of the list of 64 and beyond it: 57 leaves seven entries, 58 six.
const USED: [u16; 11] = [0, 1, 50, 55, 56, 57, 58, 63, 64, 65, 1000];

/// Used counts with room for a first step.
const ROOMY: [u16; 4] = [0, 3, 50, 57];

/// A random call's used count: every third call has a log.
fn random_used(random: &mut Random, index: u64) -> u16 {
    match random.below(10) {
        _ if index % 3 != 2 => NO_LOG,
        0..=3 => 0,
        4..=5 => random.below(50) as u16,
        6..=8 => 50 + random.below(8) as u16,
        _ => random.pick(&USED[6..]),
    }
}

/// The calls of `oracle list`: the directed ones without a log, then random ones.
fn listed(calls: u64, seed: u64) -> Vec<Given> {
    let directed = directed::groups().into_iter().flat_map(|(_, cases)| cases);
    let random = (0..calls).map(|index| {
        let used = random_used(&mut Random::new(!seed, index), index);
        (list::random_sparse(&mut Random::new(seed, index)), used)
    });
    directed.map(|sparse| (sparse, NO_LOG)).chain(random).map(Given::new).collect()
}

/// Short runs of every kind, for logs of every used count. Steps of one access; of seven; of two and
/// three with writes; with BF clear; the entry of IR0, of IR1; a vector; 5, 6 and 7 at once and after
/// steps; and 1 to 4.
fn courses() -> Vec<Sparse> {
    let (x, s, t) = (0x0010, 0x0011, 0x02);
    let on = flagged(ON);
    let seven = [0xFD, 0xEB, 0x00, 0x12, 0x5A, 0xFD, 0xEB, 0x00, 0x12, 0x01];
    let plain = code(on, 5, &[0x38; 8]);
    vec![
        plain.clone(),
        code(Record { x, ..on }, 5, &seven),
        code(Record { a: 0x5A, x, s, ..on }, 5, &[0x0E, 0xFD, 0xC8, 0x15, 0x41, 0x9E, 0x06]),
        code(Record::default(), 5, &[0x38]),
        code(Record { ir0: true, s, p: 0xABCD, ..on }, 2, &[0x38]),
        code(Record { ir1: true, t, s, p: 0xABCD, ..on }, 2, &[0x38]),
        code(Record { s, ..on }, 2, &[0xCD, 0xC0]),
        code(on, 5, &[0x31]),
        code(on, 5, &[0x38, 0x38, 0x31]),
        code(on, 5, &[0xFD, 0x00]),
        code(on, 5, &[0x38, 0xFD, 0x00]),
        code(flagged(ON + 1), 5, &[0x38]),
        code(on, 5, &[0x38, 0xFD, 0xB1]),
        Sparse { lengths: [65_537, 0], ..plain.clone() },
        Sparse { lengths: [8, 65_537], ..plain.clone() },
        Sparse { record: Record { tm: 512, ..on }, ..plain.clone() },
        Sparse { limit: 0, ..plain },
    ]
}

/// Directed calls with a log: every course with every used count; every listed opcode; and the
/// directed calls again, those of a million steps apart.
fn logged() -> Vec<Given> {
    let every_used = |course: Sparse| USED.map(|used| (course.clone(), used));
    let opcodes = directed::listed().into_iter().zip((0..58).step_by(7).cycle());
    let again = directed::cases().into_iter().flat_map(|(_, cases)| cases);
    let again = again.filter(|sparse| sparse.limit < 1_000_000).zip(ROOMY.into_iter().cycle());
    let all = courses().into_iter().flat_map(every_used).chain(opcodes).chain(again);
    all.map(Given::new).collect()
}

/// Directed calls with a read-only part, every other one with a log: mostly with room for all steps,
/// now and then for a few.
fn protected() -> Vec<Given> {
    let used = [NO_LOG, 0, NO_LOG, 3, NO_LOG, 50].into_iter().cycle();
    let calls = read_only::short().into_iter().zip(used);
    let given = |((sparse, read_only), used)| Given { read_only, ..Given::new((sparse, used)) };
    calls.map(given).collect()
}

/// Directed calls with a stop address: half of them with a log, which has room for all steps, for the
/// first one, or for none; two of seven with page 0 read-only.
fn stopping() -> Vec<Given> {
    let used = [NO_LOG, 0, NO_LOG, 57, NO_LOG, 3, NO_LOG, NO_LOG, 50, 58].into_iter().cycle();
    let calls = stops::short().into_iter().zip(used).enumerate();
    let given = |(index, ((sparse, address), used)): (usize, ((Sparse, u16), u16))| {
        let end = if index % 7 < 2 { 65_536 } else { 0 };
        let (read_only, stop_address) = (ReadOnly::new(0, end), Some(address));
        Given { sparse, used, read_only, stop_address }
    };
    calls.map(given).collect()
}

/// Document 01's input with another form of the number at this place.
fn changed_number(place: usize, form: &[u8]) -> Vec<u8> {
    [&WORKED[..place], form, &WORKED[place + 1..]].concat()
}

/// Document 01's input with one to three bytes changed, mostly to an edge.
fn changed(random: &mut Random) -> Vec<u8> {
    let mut file = WORKED.to_vec();
    for _ in 0..1 + random.below(3) {
        let place = random.below(file.len() as u64) as usize;
        let any = random.byte();
        file[place] = random.pick(&[0x00, 0x01, 0x7F, 0x80, 0xFF, any]);
    }
    file
}

/// Files that are turned down: document 01's input cut at every place, with bytes left over, with
/// each number too great, not shortest and too long, with a page cut short, and with random bytes
/// changed.
fn refused(seed: u64) -> Vec<Vec<u8>> {
    let mut files: Vec<_> = (0..WORKED.len()).map(|end| WORKED[..end].to_vec()).collect();
    files.extend([1, 2, 5].map(|left| [&WORKED[..], &vec![0; left]].concat()));
    for (place, greatest) in GREATEST.into_iter().take(15).enumerate() {
        let nine = [0xFF; 9];
        let above = match greatest.checked_add(1) {
            Some(above) => number(above),
            None => [&nine[..], &[0x02]].concat(),
        };
        files.push(changed_number(place, &above));
        files.push(changed_number(place, &[0x80, 0x00]));
        if greatest == u64::MAX {
            files.push(changed_number(place, &[&nine[..], &[0x81, 0x00]].concat()));
            files.push([&WORKED[..place], &nine].concat());
            files.push(changed_number(place, &[&[0x80; 9][..], &[0x00]].concat()));
        }
    }
    files.push(changed_number(14, &number(16_384)));
    let random = (0..).map(|index| changed(&mut Random::new(seed, index)));
    files.extend(random.filter(|file| campaign::read(file).is_err()).take(CHANGED));
    files
}

/// The item of a file that is turned down. Its line is the oracle's own reading.
fn refused_item(file: Vec<u8>) -> Result<Item, String> {
    let defect = campaign::read(&file).err().ok_or("a file is not turned down")?;
    let line = format!("{}\n", defect.line()).into_bytes();
    let (lengths, fill, set, sums) = ([0; 2], (0, 0), vec![], [0; 2]);
    let (used, read_only, stop_address) = (NO_LOG, ReadOnly::default(), None);
    Ok(Item { file, line, lengths, fill, set, used, read_only, stop_address, sums })
}

/// For each byte that is set: its offset in two bytes, its page, its value.
fn groups_of_four(sparse: &Sparse) -> Vec<u8> {
    let runs = sparse.set.iter().flat_map(|(address, bytes)| (*address..).zip(bytes));
    let four = |(address, value): (u32, &u8)| {
        let [low, high, page, _] = address.to_le_bytes();
        [low, high, page, *value]
    };
    runs.flat_map(four).collect()
}

/// A call's item, with this answer. Its file holds the pages where that is not the longer form, else
/// empty ones.
fn call_item(given: &Given, call: &Call, answer: &Answer) -> Item {
    let Given { sparse, used, read_only, stop_address } = given.clone();
    let set = groups_of_four(&sparse);
    let whole = sparse.lengths.iter().sum::<usize>() <= set.len();
    let empty = || Call { pages: [vec![], vec![]], ..call.clone() };
    let (file, fill, set) = match whole {
        true => (campaign::write(call), (0, 0), vec![]),
        false => (campaign::write(&empty()), sparse.fill, set),
    };
    let line = format!("{}\n", answer.line()).into_bytes();
    let (lengths, sums) = (sparse.lengths, sums(answer));
    Item { file, line, lengths, fill, set, used, read_only, stop_address, sums }
}

/// What a list has in it.
#[derive(Default)]
pub struct Counts {
    pub items: u64,
    pub logged: u64,
    /// Of the calls with a log: entries appended.
    pub entries: usize,
    /// Items by the number of their line, and those with a log.
    pub numbers: [[u64; 2]; 13],
    /// Calls that end with 11 after completed steps.
    pub full_later: u64,
    /// Calls with a read-only part, and what it did; those of them with a log.
    pub drops: Drops,
    pub protected: u64,
    pub protected_logged: u64,
    /// What the stop addresses did; the calls with one that have a log, and a read-only part.
    pub stops: Stops,
    pub stopping: [u64; 3],
    /// What the calls with IR0 set have met; how many have BF set and are not turned down, and how many
    /// of these end with 11 in place of the entry.
    pub ir0: Ir0Counts,
    pub ir0_with_bf: [u64; 2],
}

impl Counts {
    /// A call; its read-only part and its stop address besides.
    fn add_call(&mut self, given: &Given, call: &Call, answer: &Answer) {
        self.add(given.used, answer);
        self.drops.add(call, answer);
        self.stops.add(call, answer);
        self.ir0.add(call, answer);
        if call.record.enters_ir0() && !matches!(answer.number, 1..=4) {
            self.ir0_with_bf[0] += 1;
            self.ir0_with_bf[1] += u64::from(answer.number == 11 && answer.steps == 0);
        }
        let (is_logged, is_protected) =
            (call.bus_log.is_some(), call.read_only != ReadOnly::default());
        self.protected += u64::from(is_protected);
        self.protected_logged += u64::from(is_protected && is_logged);
        if call.inputs.stop_address.is_some() {
            for (count, has) in self.stopping.iter_mut().zip([true, is_logged, is_protected]) {
                *count += u64::from(has);
            }
        }
    }

    fn add(&mut self, used: u16, answer: &Answer) {
        let after = answer.bus_log.as_ref().map(|log| log.used);
        let is_logged = u64::from(after.is_some());
        self.items += 1;
        self.logged += is_logged;
        self.entries += after.map_or(0, |after| after - usize::from(used));
        self.numbers[usize::from(answer.number)][0] += 1;
        self.numbers[usize::from(answer.number)][1] += is_logged;
        self.full_later += u64::from(answer.number == 11 && answer.steps > 0);
    }

    pub fn print(&self, files: usize) {
        let Counts { items, logged, entries, numbers, full_later, .. } = self;
        println!("{items} items in {files} files; {logged} with a log, {entries} entries appended");
        let all: Vec<_> = (0..).zip(numbers).map(|(i, [all, _])| format!("{i}: {all}")).collect();
        let log: Vec<_> = (0..).zip(numbers).map(|(i, [_, log])| format!("{i}: {log}")).collect();
        println!("numbers: {}", all.join(" "));
        println!("with a log: {}; 11 after completed steps: {full_later}", log.join(" "));
        println!("{}; {} of these calls have a log", self.drops, self.protected_logged);
        let [_, logged, protected] = self.stopping;
        println!("{}; {logged} have a log, {protected} a read-only part", self.stops);
        let [with_bf, full] = self.ir0_with_bf;
        println!(
            "{}; {with_bf} with BF set and not turned down, {full} of them 11 at once",
            self.ir0
        );
    }
}

/// All items in order, and what they have in them.
fn items(calls: u64, seed: u64) -> Result<(Vec<Item>, Counts), String> {
    let mut counts = Counts::default();
    let mut items = vec![];
    let given = [listed(calls, seed), logged(), protected(), stopping(), ir0::short()].concat();
    let mut progress = Progress::new("call", given.len() as u64);
    for (index, given) in given.iter().enumerate() {
        let call = given.call()?;
        let answer = ordered_original(&call);
        if let Some(message) = answer.failure {
            return Err(format!("the original failed: {message}"));
        }
        counts.add_call(given, &call, &answer);
        items.push(call_item(given, &call, &answer));
        progress.show(index as u64);
    }
    progress.wipe();
    for file in refused(seed) {
        let number = campaign::read(&file).err().map_or(0, |defect| defect.number);
        counts.add(NO_LOG, &Answer { number, ..Answer::default() });
        items.push(refused_item(file)?);
    }
    Ok((items, counts))
}

/// The list's files, cut between items.
pub fn files(calls: u64, seed: u64) -> Result<(Vec<Vec<u8>>, Counts), String> {
    let (items, counts) = items(calls, seed)?;
    let mut files = vec![vec![]];
    for item in items {
        let bytes = item.bytes()?;
        if files.last().is_some_and(|file| file.len() + bytes.len() > GREATEST_FILE) {
            files.push(vec![]);
        }
        files.last_mut().expect("there is a first file").extend(bytes);
    }
    Ok((files, counts))
}

/// Writes the files answers0.bin and on. A file behind the last, of another list, is a fault.
pub fn write(calls: u64, seed: u64, folder: &Path) -> Result<(), String> {
    let (files, counts) = files(calls, seed)?;
    let name = |index: usize| folder.join(format!("answers{index}.bin"));
    let behind = name(files.len());
    if behind.exists() {
        return Err(format!("{} is of a longer list: remove it", behind.display()));
    }
    for (index, bytes) in files.iter().enumerate() {
        let failed = |error| format!("{}: {error}", name(index).display());
        fs::write(name(index), bytes).map_err(failed)?;
    }
    counts.print(files.len());
    Ok(())
}

#[cfg(test)]
mod tests {
    use super::{files, refused, Counts};
    use crate::call::Side;
    use crate::campaign;
    use crate::model::Model;
    #[cfg(feature = "port")]
    use crate::port::Port;
    use crate::replay::{replay_file, Tally};
    use std::fs;
    use std::path::Path;

    /// The list in the repository is the one that `oracle items 1500 --seed 7` makes, and the model, and
    /// the port's calls, answer as it says.
    #[test]
    fn the_list_of_the_repository() {
        let mut sides: Vec<Box<dyn Side>> = vec![
            Box::<Model>::default(),
            #[cfg(feature = "port")]
            Box::new(Port),
        ];
        let (files, counts) = files(1500, 7).unwrap();
        let folder = Path::new(crate::REPLAY);
        let name = |index: usize| folder.join(format!("answers{index}.bin"));
        assert!(!name(files.len()).exists());
        let mut tally = Tally::default();
        for (index, bytes) in files.iter().enumerate() {
            assert!(*bytes == fs::read(name(index)).unwrap(), "answers{index}.bin differs");
            for side in sides.iter_mut() {
                replay_file(bytes, side.as_mut(), read_here, &mut tally).unwrap();
            }
        }
        assert!(tally.print());
        assert!(counts.numbers.iter().all(|[all, _]| *all > 0));
        let mut of_calls = counts.numbers[..8].iter().chain(&counts.numbers[11..]);
        assert!(of_calls.all(|[_, logged]| *logged > 0));
        assert!(counts.drops.have_all());
        hold_numbers(files.len(), &counts);
    }

    /// The numbers that `README.md` and the head of the program `replay` give: files of the list, items,
    /// calls, files that are turned down; calls with a log, with a read-only part, with both; calls
    /// that end with 11, those of them after completed steps, and calls that end with 12; calls with
    /// a stop address, those of them with a log, and with a read-only part; calls that begin with BF and
    /// IR0 set and are not turned down, those of them that end with 11 in place of the entry.
    fn hold_numbers(files: usize, counts: &Counts) {
        let ends = counts.numbers.map(|[all, _]| all);
        let refused = ends[8..=10].iter().sum();
        assert_eq!((files, counts.items), (10, 3553));
        assert_eq!((counts.items - refused, refused), (3432, 121));
        assert_eq!((counts.logged, counts.protected, counts.protected_logged), (1303, 205, 101));
        assert_eq!((ends[11], counts.full_later, ends[12]), (280, 157, 79));
        assert_eq!((counts.stopping, counts.ir0_with_bf), ([163, 81, 45], [295, 13]));
    }

    /// The line of a file that is turned down, as the oracle's own reader has it.
    fn read_here(file: &[u8]) -> Result<Vec<u8>, String> {
        let defect = campaign::read(file).expect_err("the file is turned down");
        Ok(format!("{}\n", defect.line()).into_bytes())
    }

    #[test]
    fn refused_files_are_turned_down_with_8_9_and_10() {
        let mut reached = [0; 11];
        for file in refused(7) {
            reached[usize::from(campaign::read(&file).unwrap_err().number)] += 1;
        }
        assert!(reached[8..].iter().all(|count| *count >= 3), "{reached:?}");
    }
}
