//! The C entry of the port's static library `liblh5801.a`, and the port as a side. Beside
//! `probe.rs` the only file with unsafe code.

#![allow(unsafe_code)]

use std::env;
use std::ops::Range;
use std::sync::OnceLock;

use crate::call::{Answer, BusLog, Call, Inputs, ReadOnly, Record, Side};
use crate::pair::{Pair, Verdict};

/// The sixteen words that pass: 0 to 11 the record, 12 to 15 number, byte, steps and states.
pub type Words = [u64; 16];

/// Whether this oracle was built with the feature `port`.
pub const LINKED: bool = cfg!(feature = "port");

#[cfg(feature = "port")]
mod entry {
    use super::Verdict;

    extern "C" {
        pub fn lh5801_call(
            words: *mut u64,
            page0: *mut u8,
            length0: usize,
            page1: *mut u8,
            length1: usize,
            limit: u32,
            keyboard: u8,
            idle: u8,
            logged: bool,
            log: *mut u32,
            log_length: usize,
            log_used: usize,
            read_only_first: u32,
            read_only_end: u32,
            stop_given: bool,
            stop_address: u16,
        ) -> usize;

        pub fn lh5801_compare(
            log: *const u32,
            log_used: usize,
            analyser: *const u32,
            analyser_length: usize,
        ) -> Verdict;
    }
}

/// A log as it passes: the list, and the used count. Without a list no log is lent.
#[derive(Default)]
#[cfg_attr(not(feature = "port"), allow(dead_code))]
pub struct Lent<'a> {
    pub list: Option<&'a mut [u32]>,
    pub used: usize,
}

/// One run call of the port. The record goes in and comes back in the words; the used count after
/// the call is returned.
#[cfg(feature = "port")]
pub fn run(
    words: &mut Words,
    page0: &mut [u8],
    page1: &mut [u8],
    inputs: Inputs,
    limit: u32,
    lent: Lent,
    read_only: ReadOnly,
) -> usize {
    let Inputs { keyboard, idle, stop_address } = inputs;
    // Where none is given, the address that passes is P: it must not matter.
    let (stop_given, at) = (stop_address.is_some(), stop_address.unwrap_or(words[P] as u16));
    let (length0, length1) = (page0.len(), page1.len());
    let (words, page0, page1) = (words.as_mut_ptr(), page0.as_mut_ptr(), page1.as_mut_ptr());
    let ReadOnly { first, end } = read_only;
    let logged = lent.list.is_some();
    let list = lent.list.unwrap_or_default();
    let (length, list) = (list.len(), list.as_mut_ptr());
    // SAFETY: the words, both pages and the list are lent for the whole call and do not overlap,
    // the pointers are aligned and not null, and each length is its page's, or the list's, own. The
    // entry asks for nothing more.
    unsafe {
        entry::lh5801_call(
            words, page0, length0, page1, length1, limit, keyboard, idle, logged, list, length,
            lent.used, first, end, stop_given, at,
        )
    }
}

/// Commands test `LINKED` before they come here.
#[cfg(not(feature = "port"))]
pub fn run(
    _: &mut Words,
    _: &mut [u8],
    _: &mut [u8],
    _: Inputs,
    _: u32,
    _: Lent,
    _: ReadOnly,
) -> usize {
    unreachable!("this oracle was built without the feature `port`");
}

/// The port's comparison of our log with an analyser's list. It reads both lists only; they are
/// lent as such that may be changed, so that a wrong change of them is seen.
#[cfg(feature = "port")]
pub fn compare(log: &mut [u32], analyser: &mut [u32]) -> Verdict {
    let (used, length) = (log.len(), analyser.len());
    let (log, analyser) = (log.as_mut_ptr(), analyser.as_mut_ptr());
    // SAFETY: both lists are lent for the whole call, the pointers are aligned and not null, those
    // of an empty list too, and each length is its list's own. The entry asks for nothing more.
    unsafe { entry::lh5801_compare(log, used, analyser, length) }
}

/// Commands test `LINKED` before they come here.
#[cfg(not(feature = "port"))]
pub fn compare(_: &mut [u32], _: &mut [u32]) -> Verdict {
    unreachable!("this oracle was built without the feature `port`");
}

/// The comparison on two blocks of the heap of exactly the lists' lengths, so that valgrind tells
/// an access past an end.
pub fn compare_kept(pair: &Pair) -> Result<Verdict, String> {
    watched(pair, compare)
}

/// What a comparison says of these lists, which have to stay as they are.
fn watched(
    pair: &Pair,
    compare: impl Fn(&mut [u32], &mut [u32]) -> Verdict,
) -> Result<Verdict, String> {
    let mut log = pair.log.clone().into_boxed_slice();
    let mut analyser = pair.analyser.clone().into_boxed_slice();
    let verdict = compare(&mut log, &mut analyser);
    if *log != *pair.log {
        return Err(format!("our log was changed; said is: {verdict}"));
    }
    if *analyser != *pair.analyser {
        return Err(format!("the analyser's list was changed; said is: {verdict}"));
    }
    Ok(verdict)
}

/// Widths of the words 0 to 8; the words after them have 64 bits.
const WIDTHS: [u32; 9] = [8, 8, 16, 16, 16, 16, 16, 16, 9];

/// The words of a record, with any numbers in the four that only come out.
pub fn words(r: &Record) -> Words {
    let flags = u64::from(r.flags());
    let [a, t] = [r.a, r.t].map(u64::from);
    let [x, y, u, s, p, tm] = [r.x, r.y, r.u, r.s, r.p, r.tm].map(u64::from);
    let (timer, previous, ticks) = (r.timer_state, r.step_previous_state, r.ticks);
    let any = ticks ^ timer.rotate_left(29) ^ 0x9E37_79B9_7F4A_7C15;
    [a, t, x, y, u, s, p, tm, flags, timer, previous, ticks, any, !any, any, !any]
}

/// The word of P.
#[cfg_attr(not(feature = "port"), allow(dead_code))]
const P: usize = 6;

/// The word of TM, which is not taken modulo its width: above 65,535 it counts as too large.
const TM: usize = 7;

/// Sets bits above the fields' widths: the entry takes a word modulo its width, but for TM.
fn add_noise(words: &mut Words, noise: u64) {
    for (i, width) in WIDTHS.into_iter().enumerate().filter(|(i, _)| *i != TM) {
        words[i] |= noise.rotate_left(7 * i as u32) >> width << width;
    }
}

/// The record in the words that came back, or which word is above its width.
pub fn record(words: &Words) -> Result<Record, String> {
    for (i, width) in WIDTHS.into_iter().enumerate() {
        if words[i] >> width != 0 {
            return Err(format!("word {i} came back above its width: {:X}", words[i]));
        }
    }
    let mut record = Record {
        a: words[0] as u8,
        t: words[1] as u8,
        x: words[2] as u16,
        y: words[3] as u16,
        u: words[4] as u16,
        s: words[5] as u16,
        p: words[6] as u16,
        tm: words[7] as u16,
        timer_state: words[9],
        step_previous_state: words[10],
        ticks: words[11],
        ..Record::default()
    };
    record.set_flags(words[8] as u16);
    Ok(record)
}

/// How many words stand before and behind a list in its block: eight, or none where the environment
/// variable `EXACT_LISTS` is set, so that valgrind tells an access past the list's ends (`memcheck`).
fn guard() -> usize {
    static GUARD: OnceLock<usize> = OnceLock::new();
    *GUARD.get_or_init(|| if env::var_os("EXACT_LISTS").is_some() { 0 } else { 8 })
}

/// A list in its block of the heap: before the call, and so many words before and behind it.
struct Block {
    before: Vec<u32>,
    guard: usize,
}

impl Block {
    fn new(entries: &[u32], guard: usize) -> Block {
        let words: Vec<u32> = (0..guard as u32).map(|i| 0xA5C3_0F69_u32.rotate_left(i)).collect();
        Block { before: [&words[..], entries, &words].concat(), guard }
    }

    fn length(&self) -> usize {
        self.before.len() - 2 * self.guard
    }

    fn list(&self) -> Range<usize> {
        self.guard..self.guard + self.length()
    }

    fn name(&self, place: usize) -> String {
        let list = self.list();
        match place {
            place if place < list.start => format!("word {} before the list", list.start - place),
            place if place < list.end => format!("entry {}", place - list.start),
            _ => format!("word {} behind the list", place - list.end + 1),
        }
    }

    /// What came back changed that was not appended, and a used count that cannot be.
    fn check(&self, after: &[u32], given: usize, used: usize) -> Result<(), String> {
        let length = self.length();
        if used != given && !(given..=length).contains(&used) {
            return Err(format!("a list of {length}: used {given} came back as {used}"));
        }
        let place = |used: usize| self.guard.saturating_add(used);
        let appended = place(given)..place(used);
        let is_changed = |i: &usize| self.before[*i] != after[*i] && !appended.contains(i);
        let Some(changed) = (0..after.len()).find(is_changed) else { return Ok(()) };
        let (name, before, after) = (self.name(changed), self.before[changed], after[changed]);
        Err(format!("{name} was not appended and changed: {before:08X} and {after:08X}"))
    }
}

/// Runs a call with a log. The list is a block of the heap, with so many words on each side that
/// have to stay as they are.
fn run_logged(
    log: &mut BusLog,
    guard: usize,
    run: impl FnOnce(Lent) -> usize,
) -> Result<(), String> {
    let given = log.used;
    let block = Block::new(&log.entries, guard);
    let mut after = block.before.clone().into_boxed_slice();
    log.used = run(Lent { list: Some(&mut after[block.list()]), used: given });
    log.entries.copy_from_slice(&after[block.list()]);
    block.check(&after, given, log.used)
}

/// Without a log the used count comes back as it is given, whatever it is.
fn run_without_log(used: usize, run: impl FnOnce(Lent) -> usize) -> Result<(), String> {
    match run(Lent { list: None, used }) {
        back if back == used => Ok(()),
        back => Err(format!("without a log the used count {used} came back as {back}")),
    }
}

/// Runs a call on these pages, with these inputs (a stop address among them or none), this log and
/// this read-only part. Half of the calls have bits set above the fields' widths. The words are a block
/// of the heap, so that valgrind tells an access past their end.
pub fn call(
    given: &Record,
    inputs: Inputs,
    limit: u32,
    pages: &mut [Vec<u8>; 2],
    log: Option<&mut BusLog>,
    read_only: ReadOnly,
) -> Answer {
    let mut words = Box::new(words(given));
    let noise = words[12].wrapping_mul(0xBF58_476D_1CE4_E5B9);
    if noise & 1 == 1 {
        add_noise(&mut words, noise);
    }
    let [page0, page1] = pages;
    let once = |lent: Lent| run(&mut words, page0, page1, inputs, limit, lent, read_only);
    let kept = match log {
        Some(log) => run_logged(log, guard(), once),
        None => run_without_log(noise as usize, once),
    };
    kept.and_then(|()| answer(&words))
        .unwrap_or_else(|message| Answer { failure: Some(message), ..Answer::default() })
}

/// What the words tell that came back, or what is wrong with them.
fn answer(words: &Words) -> Result<Answer, String> {
    let small = |word: u64| u8::try_from(word).map_err(|_| format!("not a byte: {word:X}"));
    let (number, byte) = (small(words[12])?, small(words[13])?);
    let (steps, states) = (words[14], words[15]);
    Ok(Answer { number, byte, steps, states, record: record(words)?, ..Answer::default() })
}

/// The port. It tells its accesses in the log alone, where one is lent.
pub struct Port;

impl Side for Port {
    fn name(&self) -> &'static str {
        "port"
    }

    /// The cloned pages are blocks of the heap of exactly their length.
    fn call(&mut self, given: &Call) -> Answer {
        let mut pages = given.pages.clone();
        let mut log = given.bus_log.clone();
        let Call { record, inputs, limit, read_only, .. } = given;
        let answer = call(record, *inputs, *limit, &mut pages, log.as_mut(), *read_only);
        Answer { pages, bus_log: log, ..answer }
    }
}

#[cfg(test)]
mod tests {
    use super::{add_noise, record, run_logged, run_without_log, watched, words, Block, Lent};
    #[cfg(feature = "port")]
    use super::{compare_kept, run, Call, Inputs, Port, ReadOnly, Side, TM};
    use crate::call::{BusLog, Record};
    #[cfg(feature = "port")]
    use crate::original::Original;
    use crate::pair::{Pair, Verdict, DIFFER, EQUAL};
    #[cfg(feature = "port")]
    use crate::pair::{ANALYSER_ENDED, LOG_ENDED, MARK};
    use crate::random::{self, Random};

    #[test]
    fn a_record_passes_through_the_words() {
        for index in 0..1000 {
            let given = random::record(&mut Random::new(1, index), [65_536, 65_536]);
            assert_eq!(record(&words(&given)), Ok(given));
        }
    }

    #[test]
    fn noise_lies_above_the_widths_only() {
        let mut noisy = words(&Record::default());
        add_noise(&mut noisy, u64::MAX);
        let low = [0xFF, 0xFF, 0xFFFF, 0xFFFF, 0xFFFF, 0xFFFF, 0xFFFF, u64::MAX, 0x1FF];
        for (i, low) in low.into_iter().enumerate() {
            assert_eq!(noisy[i], u64::MAX - low);
        }
        assert!(record(&noisy).is_err());
    }

    /// What the wrapper says of an entry that does this to a list of four with two used.
    fn kept(guard: usize, run: impl FnOnce(Lent) -> usize) -> Result<(), String> {
        run_logged(&mut BusLog { entries: vec![1, 2, 3, 4], used: 2 }, guard, run)
    }

    /// An entry that puts 9 here, and says that so many are used.
    fn puts(place: usize, used: usize) -> impl Fn(Lent) -> usize {
        move |lent: Lent| {
            lent.list.unwrap_or_default()[place] = 9;
            used
        }
    }

    #[test]
    fn entries_that_were_not_appended_are_watched() {
        for guard in [0, 8] {
            assert_eq!(kept(guard, puts(2, 3)), Ok(()));
            assert_eq!(kept(guard, puts(3, 4)), Ok(()));
            assert_eq!(kept(guard, |lent| lent.used), Ok(()));
            for (place, used) in [(1, 3), (3, 3), (2, 2), (0, 4)] {
                let said = kept(guard, puts(place, used)).unwrap_err();
                assert!(said.starts_with(&format!("entry {place} was not appended")), "{said}");
            }
            for used in [0, 1, 5, usize::MAX] {
                assert!(kept(guard, puts(2, used)).unwrap_err().contains("came back as"));
            }
        }
    }

    /// A used count beyond the list: nothing may be appended, and the count comes back.
    #[test]
    fn a_used_count_beyond_the_list_is_watched() {
        for used in [5, 20, usize::MAX] {
            let run = |back: usize| {
                let mut log = BusLog { entries: vec![1, 2, 3, 4], used };
                run_logged(&mut log, 8, move |_| back)
            };
            assert_eq!(run(used), Ok(()));
            assert!(run(used - 1).is_err() && run(0).is_err() && run(4).is_err());
        }
    }

    /// A list of four between eight words on each side.
    #[test]
    fn words_around_a_list_are_watched() {
        let block = Block::new(&[1, 2, 3, 4], 8);
        let changed = |place: usize, used| {
            let mut after = block.before.clone();
            after[place] ^= 1;
            block.check(&after, 2, used).err()
        };
        for (place, name) in [(0, "word 8 before"), (7, "word 1 before"), (12, "word 1 behind")] {
            assert!(changed(place, 4).is_some_and(|said| said.starts_with(name)));
        }
        assert!(changed(19, 4).is_some_and(|said| said.starts_with("word 8 behind")));
        assert!(changed(9, 4).is_some_and(|said| said.starts_with("entry 1 ")));
        assert_eq!(changed(10, 3), None);
        assert!(changed(11, 3).is_some());
    }

    #[test]
    fn without_a_log_the_used_count_is_watched() {
        assert_eq!(run_without_log(77, |lent| lent.used), Ok(()));
        assert!(run_without_log(77, |_| 78).is_err());
        assert_eq!(run_without_log(7, |lent| usize::from(lent.list.is_none()) * 7), Ok(()));
    }

    /// A TM above its 16 bits is too large, and comes back as 65,535.
    #[cfg(feature = "port")]
    #[test]
    fn tm_above_its_width() {
        for tm in [65_536, 65_536 + 511, 1 << 32, u64::MAX] {
            let mut given = words(&Record { bf: true, ..Record::default() });
            given[TM] = tm;
            let (inputs, lent) = (Inputs::default(), Lent::default());
            run(&mut given, &mut [0x38; 6], &mut [], inputs, 1, lent, ReadOnly::default());
            assert_eq!(given[12], 3, "TM {tm}");
            assert_eq!(given[TM], 65_535, "TM {tm}");
        }
    }

    /// Marked case 13 of document 01.
    #[cfg(feature = "port")]
    #[test]
    fn the_worked_run() {
        let page0 = vec![0xB5, 0x15, 0xF9, 0x8C, 0x31, 0x27];
        let record = Record { x: 5, bf: true, ..Record::default() };
        let call = Call { record, limit: 10, pages: [page0, vec![]], ..Call::default() };
        let line = "5 3 25 42 18 0005 0000 0000 0000 0004 000 008 25 0 25";
        assert_eq!(Port.call(&call).line(), line);
    }

    /// STA (X), STA #(X), LDA (Y), LDA #(Y), with X at page 0's last place and Y after it.
    #[cfg(feature = "port")]
    fn at_the_ends(lengths: [usize; 2]) -> Call {
        let code = [0x0E, 0xFD, 0x0E, 0x15, 0xFD, 0x15];
        let mut pages = lengths.map(|length| vec![0x38; length]);
        for (place, byte) in pages[0].iter_mut().zip(code) {
            *place = byte;
        }
        let [x, y] = [lengths[0].saturating_sub(1), lengths[0]].map(|place| place as u16);
        let record = Record { a: 0x5A, x, y, bf: true, ..Record::default() };
        Call { record, limit: 6, pages, ..Call::default() }
    }

    /// Pages that are empty, short, as long as they may be, and longer, in every pair.
    #[cfg(feature = "port")]
    #[test]
    fn pages_of_every_length() {
        let lengths = [0, 1, 6, 65_535, 65_536, 65_537, 70_000];
        for pair in lengths.iter().flat_map(|first| lengths.map(|second| [*first, second])) {
            let call = at_the_ends(pair);
            let (answer, wanted) = (Port.call(&call), Original.call(&call));
            assert_eq!(answer.failure, None, "pages of {pair:?}");
            assert_eq!(answer.line(), wanted.line(), "pages of {pair:?}");
            assert_eq!(answer.byte, wanted.byte, "pages of {pair:?}");
            assert!(answer.pages == wanted.pages, "pages of {pair:?}");
        }
    }

    /// A page above 65,536 bytes is answered with 1 or 2, page 0 first; up to there the run is
    /// made.
    #[cfg(feature = "port")]
    #[test]
    fn pages_above_the_greatest_length() {
        let number = |lengths| Port.call(&at_the_ends(lengths)).number;
        assert_eq!(number([65_536, 65_536]), 0);
        assert_eq!(number([65_536, 0]), 0);
        assert_eq!(number([65_537, 0]), 1);
        assert_eq!(number([65_537, 65_537]), 1);
        assert_eq!(number([0, 65_537]), 2);
        assert_eq!(number([65_536, 65_537]), 2);
    }

    /// A pair whose two lists have the same three entries, one of them no write.
    fn three() -> Pair {
        let log = vec![0x0200_0427, 0x0000_0015, 0xFF10_0028];
        Pair { analyser: log.clone(), log }
    }

    #[test]
    fn both_lists_are_watched() {
        let equal = Verdict::new(EQUAL, 0);
        assert_eq!(watched(&three(), |_, _| equal), Ok(equal));
        let said = watched(&three(), |log, _| {
            log[2] ^= 1 << 31;
            equal
        });
        assert!(said.is_err_and(|said| said.starts_with("our log was changed")));
        let said = watched(&three(), |_, analyser| {
            analyser[0] ^= 1;
            Verdict::new(DIFFER, 0)
        });
        assert!(said.is_err_and(|said| said.starts_with("the analyser's list was changed")));
    }

    /// What the port says of two lists.
    #[cfg(feature = "port")]
    fn said(log: &[u32], analyser: &[u32]) -> Verdict {
        compare_kept(&Pair { log: log.to_vec(), analyser: analyser.to_vec() }).unwrap()
    }

    /// A read between two writes; empty lists have a pointer that is not null.
    #[cfg(feature = "port")]
    #[test]
    fn the_comparison() {
        let Pair { log, .. } = three();
        let caught = [0x0000_0427, 0x0110_0028];
        assert_eq!(said(&[], &[]), Verdict::new(EQUAL, 0));
        assert_eq!(said(&log[1..2], &[]), Verdict::new(EQUAL, 0));
        assert_eq!(said(&log, &caught), Verdict::new(EQUAL, 0));
        assert_eq!(said(&log, &[0x0000_0427, 0x0110_0029]), Verdict::new(DIFFER, 1));
        assert_eq!(said(&log, &caught[1..]), Verdict::new(DIFFER, 0));
        assert_eq!(said(&log[..2], &caught), Verdict::new(LOG_ENDED, 1));
        assert_eq!(said(&[], &caught), Verdict::new(LOG_ENDED, 0));
        assert_eq!(said(&log, &caught[..1]), Verdict::new(ANALYSER_ENDED, 1));
        assert_eq!(said(&log, &[]), Verdict::new(ANALYSER_ENDED, 0));
    }

    /// Each of the 32 bits of one write beside the other: 0 to 24 are found, 25 of ours makes a
    /// read of it, the others mean nothing.
    #[cfg(feature = "port")]
    #[test]
    fn each_bit_of_the_comparison() {
        let (equal, differ) = (Verdict::new(EQUAL, 0), Verdict::new(DIFFER, 0));
        for write in [MARK, u32::MAX, 0xAAAA_AAAA, 0x5655_5555] {
            assert_eq!(said(&[write], &[write]), equal);
            for bit in 0..32 {
                let turned = write ^ 1 << bit;
                let [ours, theirs] = match bit {
                    0..=24 => [differ, differ],
                    25 => [Verdict::new(LOG_ENDED, 0), equal],
                    _ => [equal, equal],
                };
                assert_eq!(said(&[turned], &[write]), ours, "bit {bit} of {write:08X}");
                assert_eq!(said(&[write], &[turned]), theirs, "bit {bit} of {write:08X}");
            }
        }
    }

    /// A place of more than 16 bits.
    #[cfg(feature = "port")]
    #[test]
    fn a_long_comparison() {
        let log: Vec<u32> = (0..200_000).map(|i| if i & 1 == 1 { i | MARK } else { i }).collect();
        let caught: Vec<u32> = (0..200_000).filter(|i| i & 1 == 1).collect();
        assert_eq!(said(&log, &caught), Verdict::new(EQUAL, 0));
        assert_eq!(said(&log, &caught[..99_999]), Verdict::new(ANALYSER_ENDED, 99_999));
        assert_eq!(said(&log[..199_998], &caught), Verdict::new(LOG_ENDED, 99_999));
        let mut other = caught;
        other[99_998] ^= 0x0100_0000;
        assert_eq!(said(&log, &other), Verdict::new(DIFFER, 99_998));
    }
}
