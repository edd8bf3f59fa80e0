//! Campaign files, valid, cut, damaged and random, through the port's library or program and through
//! the oracle's own reader and the original: the same line each time.

#![forbid(unsafe_code)]

use std::sync::atomic::{AtomicBool, AtomicU64, Ordering};
use std::thread;
use std::time::{Duration, Instant};

use bare::Pc1500;

use crate::call::{Call, Side};
use crate::campaign::{self, number, numbers, GREATEST, WORKED};
use crate::lines::Source;
use crate::original::Original;
use crate::progress::Progress;
use crate::random::{self, Random};

/// Calls up to this limit run with the original's panics, longer ones without the log.
const LOGGED: u32 = 5000;
const THREADS: u64 = 2;
/// The numbers of a file by their place.
const TM: usize = 7;
const LIMIT: usize = 13;
const LENGTH_0: usize = 14;

pub struct Settings {
    pub files: u64,
    pub seed: u64,
    pub source: Source,
}

/// A file in parts: sixteen numbers as they are written, and the bytes of two pages.
#[derive(Clone)]
struct Draft {
    numbers: Vec<Vec<u8>>,
    pages: [Vec<u8>; 2],
    after: Vec<u8>,
}

impl Draft {
    fn of(call: &Call) -> Draft {
        let numbers = numbers(call).map(number).to_vec();
        Draft { numbers, pages: call.pages.clone(), after: vec![] }
    }

    fn bytes(&self) -> Vec<u8> {
        let mut bytes = self.numbers[..LENGTH_0].concat();
        for (length, page) in self.numbers[LENGTH_0..].iter().zip(&self.pages) {
            bytes.extend(length);
            bytes.extend(page);
        }
        bytes.extend(&self.after);
        bytes
    }

    /// Gives a page this length, with its bytes.
    fn resize(&mut self, page: usize, length: usize) {
        self.pages[page].resize(length, 0x38);
        self.numbers[LENGTH_0 + page] = number(length as u64);
    }
}

/// A valid call with short pages, mostly; runs are short.
fn valid(random: &mut Random) -> Call {
    let mut call = random::call(random);
    let most = if random.chance(10) { 16_384 } else { 300 };
    call.pages.iter_mut().for_each(|page| page.truncate(most));
    call.record.tm &= 0xFFF;
    call.limit = 1 + random.below(200) as u32;
    let length = call.pages[0].len();
    if usize::from(call.record.p) >= length && length > 0 && random.chance(80) {
        call.record.p %= length as u16;
    }
    call
}

/// A counted loop that runs off the page's end: some hundred steps under any limit.
fn short_loop(random: &mut Random) -> Call {
    let mut call = valid(random);
    call.record.set_flags(0x008);
    (call.record.p, call.record.tm) = (0, call.record.tm & 0x1FF);
    call.pages[0] = vec![0x6A, random.byte(), 0x38, 0x88, 0x03];
    call
}

/// The value of a number at or above its field's greatest, or small.
fn edge_value(random: &mut Random, field: usize) -> u64 {
    let greatest = GREATEST[field];
    match random.below(6) {
        0 | 1 => greatest,
        2 | 3 => greatest.saturating_add(1),
        4 => greatest.saturating_mul(2).max(random.next() >> random.below(60)),
        _ => 0,
    }
}

/// Ten groups: nine with their top bit set, then one of these.
fn ten_groups(random: &mut Random) -> Vec<u8> {
    let fill = random.pick(&[0x80, 0xFF, 0x81]);
    let last = random.pick(&[0x00, 0x01, 0x02, 0x7F, 0x80, 0x81, 0xFF]);
    [vec![fill; 9], vec![last]].concat()
}

/// The same value with groups of zeros after it: not shortest.
fn longer(shortest: &[u8], zeros: usize) -> Vec<u8> {
    let mut groups: Vec<u8> = shortest.iter().map(|group| group | 0x80).collect();
    groups.extend(vec![0x80; zeros]);
    groups.push(0x00);
    groups
}

/// One damage to a draft.
fn damage(random: &mut Random, draft: &mut Draft) {
    let field = random.below(16) as usize;
    match random.below(9) {
        0 | 1 => draft.numbers[field] = number(edge_value(random, field)),
        2 => draft.numbers[field] = ten_groups(random),
        3 => {
            let zeros = random.below(10) as usize;
            draft.numbers[field] = longer(&draft.numbers[field], zeros);
        }
        4 => draft.numbers[TM] = number(random.pick(&[511, 512, 4095, 4096])),
        5 => draft.numbers[LIMIT] = number(random.pick(&[0, 1, 1_000_000, 1_000_001])),
        6 => {
            let page = random.below(2) as usize;
            let length = random.pick(&[0, 1, 127, 128, 16_383, 16_384, 16_385]);
            draft.resize(page, length);
        }
        7 => {
            let length = draft.pages[0].len() as u64 + random.below(5);
            draft.numbers[LENGTH_0 + random.below(2) as usize] = number(length.saturating_sub(2));
        }
        _ => draft.after = vec![random.byte(); random.pick(&[1, 2, 9, 400, 33_000, 40_000])],
    }
}

/// A random file.
fn file(random: &mut Random) -> Vec<u8> {
    let call = if random.chance(40) { short_loop(random) } else { valid(random) };
    let mut draft = Draft::of(&call);
    match random.below(10) {
        0 | 1 => draft.bytes(),
        2 | 3 => {
            let mut bytes = draft.bytes();
            bytes.truncate(random.below(bytes.len() as u64 + 1) as usize);
            bytes
        }
        4 => flipped(random, draft.bytes()),
        5 => noise(random),
        _ => {
            for _ in 0..random.pick(&[1, 1, 1, 2, 3]) {
                damage(random, &mut draft);
            }
            draft.bytes()
        }
    }
}

/// Some bits turned, mostly among the numbers.
fn flipped(random: &mut Random, mut bytes: Vec<u8>) -> Vec<u8> {
    for _ in 0..1 + random.below(4) {
        let end = if random.chance(80) { bytes.len().min(60) } else { bytes.len() };
        let place = random.below(end as u64) as usize;
        bytes[place] ^= 1 << random.below(8);
    }
    bytes
}

/// Bytes without any form: mostly small, so that some numbers are passed.
fn noise(random: &mut Random) -> Vec<u8> {
    let length = random.pick(&[0, 1, 5, 16, 17, 20, 40, 90]) + random.below(3);
    let small = random.chance(60);
    let byte = |random: &mut Random| if small { random.byte() & 0x8F } else { random.byte() };
    (0..length).map(|_| byte(random)).collect()
}

/// Files that every campaign begins with: each prefix of document 01's worked input and of a file
/// with long numbers, and each number at its edges.
fn directed() -> Vec<Vec<u8>> {
    let mut random = Random::new(3, 0);
    let mut long = Draft::of(&short_loop(&mut random));
    for (form, greatest) in long.numbers.iter_mut().zip(GREATEST).take(LENGTH_0) {
        *form = number(greatest);
    }
    long.resize(1, 200);
    let long_bytes = long.bytes();
    let mut files: Vec<Vec<u8>> = (0..=WORKED.len()).map(|i| WORKED[..i].to_vec()).collect();
    files.extend((0..=long_bytes.len()).map(|i| long_bytes[..i].to_vec()));
    let base = Draft::of(&short_loop(&mut random));
    for field in 0..16 {
        files.extend(edges(&base, field));
    }
    files.extend(page_edges(&base));
    files
}

/// A number's edges: values, forms that are not shortest, ten groups.
fn edges(base: &Draft, field: usize) -> Vec<Vec<u8>> {
    let greatest = GREATEST[field];
    let near = [0, 1, greatest - 1, greatest, greatest.wrapping_add(1), u64::MAX];
    let mut forms: Vec<Vec<u8>> = near.into_iter().map(number).collect();
    let more = match field {
        TM => vec![511, 512, 4095, 4096],
        LIMIT => vec![0, 1, 1_000_000, 1_000_001],
        _ => vec![],
    };
    forms.extend(more.into_iter().map(number));
    forms.extend((0..10).map(|zeros| longer(&base.numbers[field], zeros)));
    for fill in [0x80, 0xFF] {
        for last in [0x00, 0x01, 0x02, 0x7F, 0x80, 0xFF] {
            forms.push([vec![fill; 9], vec![last]].concat());
        }
    }
    let put = |form: Vec<u8>| {
        let mut draft = base.clone();
        draft.numbers[field] = form;
        [draft.bytes(), draft.numbers[..=field.min(LENGTH_0)].concat()]
    };
    forms.into_iter().flat_map(put).collect()
}

/// Pages of 16,384 and 16,385 bytes, left-over bytes, and more than the program reads.
fn page_edges(base: &Draft) -> Vec<Vec<u8>> {
    let mut files = vec![];
    for lengths in [[16_384, 16_384], [16_385, 0], [5, 16_385], [16_384, 0], [5, 16_384]] {
        for after in [0, 1, 300, 40_000] {
            let mut draft = base.clone();
            draft.resize(0, lengths[0]);
            draft.resize(1, lengths[1]);
            draft.after = vec![0x00; after];
            files.push(draft.bytes());
            let mut cut = draft.bytes();
            cut.truncate(cut.len() - after - 1);
            files.push(cut);
        }
    }
    files
}

/// The line that the oracle has for a file.
fn expected(file: &[u8]) -> Result<String, String> {
    let call = match campaign::read(file) {
        Ok(call) => call,
        Err(defect) => return Ok(defect.line()),
    };
    if call.limit <= LOGGED || call.record.enters_ir0() {
        let answer = Original.call(&call);
        return answer.failure.clone().map_or_else(|| Ok(answer.line()), Err);
    }
    let mut machine = Pc1500::new(&call.record, call.inputs, call.pages);
    let returned = machine.original_run(call.limit, &mut ());
    let record = machine.lh5801.record();
    Ok(format!("{} {} {} {record}", returned.number, returned.steps, returned.states))
}

/// The number of a file's line, or how the port and the oracle differ on it.
fn check(source: &Source, file: &[u8]) -> Result<usize, String> {
    let line = expected(source.read(file));
    let line = line.map_err(|message| format!("the original failed: {message}"))?;
    match source.line(file) {
        Ok(text) if text.strip_suffix('\n') == Some(&line) => {
            let number = line.split(' ').next().and_then(|word| word.parse().ok());
            number.ok_or(format!("not a line: {line}"))
        }
        Ok(text) => Err(format!("oracle {line:?} and a newline, port {text:?}")),
        Err(message) => Err(format!("oracle {line:?}, port: {message}")),
    }
}

/// What the threads share.
#[derive(Default)]
struct Shared {
    done: AtomicU64,
    ended: AtomicBool,
    /// Files by the first number of their line.
    numbers: [AtomicU64; 11],
}

/// The files of one thread. Tells a file that differs.
fn work(settings: &Settings, thread: u64, shared: &Shared) -> Option<Vec<u8>> {
    let directed = directed();
    let total = directed.len() as u64 + settings.files;
    for index in (thread..total).step_by(THREADS as usize) {
        if shared.ended.load(Ordering::Relaxed) {
            break;
        }
        let random = || file(&mut Random::new(settings.seed, index - directed.len() as u64));
        let file = directed.get(index as usize).cloned().unwrap_or_else(random);
        let Ok(number) = check(&settings.source, &file) else {
            shared.ended.store(true, Ordering::Relaxed);
            return Some(file);
        };
        shared.numbers[number].fetch_add(1, Ordering::Relaxed);
        shared.done.fetch_add(1, Ordering::Relaxed);
    }
    None
}

/// Runs the files; true where every line is the same.
pub fn run(settings: &Settings) -> bool {
    let Settings { files, seed, source } = settings;
    println!("seed {seed}, {source} against the oracle");
    let shared = Shared::default();
    let begin = Instant::now();
    let failing = thread::scope(|scope| {
        let shared = &shared;
        let spawn = |thread| scope.spawn(move || work(settings, thread, shared));
        let workers: Vec<_> = (0..THREADS).map(spawn).collect();
        let mut progress = Progress::new("file", *files);
        while workers.iter().any(|worker| !worker.is_finished()) {
            thread::sleep(Duration::from_millis(20));
            progress.show(shared.done.load(Ordering::Relaxed));
        }
        progress.wipe();
        let ended = workers.into_iter().map(|worker| worker.join().expect("a worker ends"));
        ended.fold(None, |found, more| found.or(more))
    });
    if let Some(file) = failing {
        report(source, file);
        return false;
    }
    let numbers = shared.numbers.iter().map(|count| count.load(Ordering::Relaxed)).enumerate();
    let numbers: Vec<_> = numbers.map(|(i, count)| format!("{i}: {count}")).collect();
    println!("numbers: {}", numbers.join(" "));
    let done = shared.done.load(Ordering::Relaxed);
    let seconds = begin.elapsed().as_secs_f64();
    println!("{done} files ({} of them directed), 0 differences, {seconds:.1} s", done - files);
    true
}

/// Takes bytes out of a failing file, then turns bytes to zero, while it still fails.
fn smaller(source: &Source, mut file: Vec<u8>) -> Vec<u8> {
    let mut size = file.len().next_power_of_two();
    while size > 0 {
        let mut begin = 0;
        while begin < file.len() {
            let end = (begin + size).min(file.len());
            let shorter = [&file[..begin], &file[end..]].concat();
            let mut zeroed = file.clone();
            zeroed[begin..end].fill(0);
            if check(source, &shorter).is_err() {
                file = shorter;
            } else {
                if zeroed != file && check(source, &zeroed).is_err() {
                    file = zeroed;
                }
                begin = end;
            }
        }
        size /= 2;
    }
    file
}

fn report(source: &Source, file: Vec<u8>) {
    println!("a file of {} bytes differs; making it smaller", file.len());
    let file = smaller(source, file);
    let digits: Vec<String> = file.iter().map(|byte| format!("{byte:02X}")).collect();
    println!("smallest failing file found, {} bytes: {}", file.len(), digits.join(" "));
    println!("{}", check(source, &file).err().unwrap_or_default());
}

#[cfg(test)]
mod tests {
    use super::{directed, expected, file, longer, valid, Draft};
    use crate::campaign::{number, read};
    use crate::random::Random;

    #[test]
    fn a_draft_reads_back() {
        for index in 0..500 {
            let call = valid(&mut Random::new(2, index));
            assert_eq!(read(&Draft::of(&call).bytes()), Ok(call));
        }
    }

    #[test]
    fn longer_forms() {
        assert_eq!(number(0x3FFF), [0xFF, 0x7F]);
        assert_eq!(longer(&[0x05], 0), [0x85, 0x00]);
        assert_eq!(longer(&[0x05], 1), [0x85, 0x80, 0x00]);
    }

    /// The files reach every number but 1 and 2, whose pages no campaign file can hold.
    #[test]
    fn files_reach_every_number() {
        let random = (0..2000).map(|index| file(&mut Random::new(1, index)));
        let mut reached = [false; 11];
        for file in directed().into_iter().chain(random) {
            let line = expected(&file).unwrap();
            reached[line.split(' ').next().unwrap().parse::<usize>().unwrap()] = true;
        }
        assert!((0..11).all(|number| reached[number] != (1..=2).contains(&number)));
    }
}
