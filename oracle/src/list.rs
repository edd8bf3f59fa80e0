//! A fixed list of the original's answers, as text: written, read back and checked.

#![forbid(unsafe_code)]

use std::fmt::Write;
use std::io;

use crate::call::{Answer, Call, Inputs, Record, Side};
use crate::directed;
use crate::original::Original;
use crate::progress::Progress;
use crate::random::{self, Random};

/// A call with sparse memory: lengths, a rule for every byte, and the bytes set after it. Its idle
/// figure is 0, and it has no log, no read-only part and no stop address.
#[derive(Clone, Debug, Default, PartialEq, Eq)]
pub struct Sparse {
    pub record: Record,
    pub keyboard: u8,
    pub limit: u32,
    pub lengths: [usize; 2],
    /// First byte and step of the fill rule.
    pub fill: (u8, u8),
    /// Runs of bytes: address of the first, page 1 at 10000, and the bytes.
    pub set: Vec<(u32, Vec<u8>)>,
}

impl Sparse {
    /// The byte that the rule puts at an offset of a page.
    fn filled(&self, page: usize, offset: usize) -> u8 {
        let turns = offset % 256 + 3 * (256 * page + offset / 256);
        self.fill.0.wrapping_add(self.fill.1.wrapping_mul(turns as u8))
    }

    /// The call with its whole pages, or what is wrong with the bytes set.
    pub fn call(&self) -> Result<Call, String> {
        let page = |page: usize| match self.fill {
            (byte, 0) => vec![byte; self.lengths[page]],
            _ => (0..self.lengths[page]).map(|offset| self.filled(page, offset)).collect(),
        };
        let mut pages = [page(0), page(1)];
        for (address, bytes) in &self.set {
            let (page, offset) = ((address >> 16) as usize, (address & 0xFFFF) as usize);
            let place = pages.get_mut(page).and_then(|p| p.get_mut(offset..offset + bytes.len()));
            let Some(place) = place else {
                return Err(format!("bytes set at {address:05X} lie outside the page"));
            };
            place.copy_from_slice(bytes);
        }
        let inputs = Inputs::of_keyboard(self.keyboard);
        Ok(Call { record: self.record, inputs, limit: self.limit, pages, ..Call::default() })
    }
}

/// The part of an answer that a list holds.
#[derive(Clone, Debug, PartialEq, Eq)]
pub struct Expected {
    pub number: u8,
    pub byte: u8,
    pub steps: u64,
    pub states: u64,
    pub record: Record,
    /// Address and byte of the completed steps' writes, in order.
    pub writes: Vec<(u32, u8)>,
}

impl Expected {
    fn of(answer: &Answer) -> Expected {
        let writes = answer.log.iter().flat_map(|log| log.writes());
        Expected {
            number: answer.number,
            byte: answer.byte,
            steps: answer.steps,
            states: answer.states,
            record: answer.record,
            writes: writes.map(|write| (write.address(), write.byte())).collect(),
        }
    }
}

/// One line of the list, without its newline.
pub fn format_line(sparse: &Sparse, expected: &Expected) -> String {
    let mut line = format!("{} {:02X} {}", sparse.record, sparse.keyboard, sparse.limit);
    let [length0, length1] = sparse.lengths;
    let (first, step) = sparse.fill;
    let _ = write!(line, " {length0} {length1} {first:02X} {step:02X} |");
    for (address, bytes) in &sparse.set {
        let _ = write!(line, " {address:05X}=");
        bytes.iter().for_each(|byte| line += &format!("{byte:02X}"));
    }
    let e = expected;
    let _ = write!(line, " | {} {:02X} {} {} {} |", e.number, e.byte, e.steps, e.states, e.record);
    for (address, byte) in &e.writes {
        let _ = write!(line, " {address:05X}={byte:02X}");
    }
    line
}

/// The words of one part of a line, taken from left to right.
struct Words<'a>(std::str::SplitWhitespace<'a>);

impl Words<'_> {
    fn take<T>(&mut self, parse: impl Fn(&str) -> Option<T>) -> Result<T, String> {
        let word = self.0.next().ok_or("a field is missing")?;
        parse(word).ok_or_else(|| format!("not a valid field: {word}"))
    }

    fn decimal(&mut self) -> Result<u64, String> {
        self.take(|word| word.parse().ok())
    }

    fn hex(&mut self, digits: usize) -> Result<u16, String> {
        self.take(|word| u16::from_str_radix(word, 16).ok().filter(|_| word.len() == digits))
    }

    fn record(&mut self) -> Result<Record, String> {
        let mut record = Record {
            a: self.hex(2)? as u8,
            t: self.hex(2)? as u8,
            x: self.hex(4)?,
            y: self.hex(4)?,
            u: self.hex(4)?,
            s: self.hex(4)?,
            p: self.hex(4)?,
            tm: self.hex(3)?,
            ..Record::default()
        };
        record.set_flags(self.hex(3)?);
        record.timer_state = self.decimal()?;
        record.step_previous_state = self.decimal()?;
        record.ticks = self.decimal()?;
        Ok(record)
    }

    fn end(mut self) -> Result<(), String> {
        self.0.next().map_or(Ok(()), |word| Err(format!("a word too many: {word}")))
    }
}

/// `address=bytes`, at least one byte.
fn parse_run(word: &str) -> Result<(u32, Vec<u8>), String> {
    let wrong = || format!("not address=bytes: {word}");
    let (address, digits) = word.split_once('=').ok_or_else(wrong)?;
    let address = u32::from_str_radix(address, 16).map_err(|_| wrong())?;
    if digits.is_empty() || digits.len() % 2 == 1 || !digits.is_ascii() {
        return Err(wrong());
    }
    let pairs = (0..digits.len()).step_by(2).map(|i| u8::from_str_radix(&digits[i..i + 2], 16));
    let bytes = pairs.collect::<Result<_, _>>().map_err(|_| wrong())?;
    Ok((address, bytes))
}

fn parse_sparse(fields: &str, set: &str) -> Result<Sparse, String> {
    let mut words = Words(fields.split_whitespace());
    let sparse = Sparse {
        record: words.record()?,
        keyboard: words.hex(2)? as u8,
        limit: words.take(|word| word.parse().ok())?,
        lengths: [words.decimal()? as usize, words.decimal()? as usize],
        fill: (words.hex(2)? as u8, words.hex(2)? as u8),
        set: set.split_whitespace().map(parse_run).collect::<Result<_, _>>()?,
    };
    words.end()?;
    Ok(sparse)
}

fn parse_expected(fields: &str, writes: &str) -> Result<Expected, String> {
    let mut words = Words(fields.split_whitespace());
    let single = |word| match parse_run(word)? {
        (address, bytes) if bytes.len() == 1 => Ok((address, bytes[0])),
        _ => Err(format!("not address=byte: {word}")),
    };
    let expected = Expected {
        number: words.decimal()? as u8,
        byte: words.hex(2)? as u8,
        steps: words.decimal()?,
        states: words.decimal()?,
        record: words.record()?,
        writes: writes.split_whitespace().map(single).collect::<Result<_, String>>()?,
    };
    words.end()?;
    Ok(expected)
}

/// Reads one line of the list back.
pub fn parse_line(line: &str) -> Result<(Sparse, Expected), String> {
    let parts: Vec<&str> = line.split('|').collect();
    let [fields, set, answer, writes] = parts[..] else {
        return Err("a line has four parts, with | between them".to_string());
    };
    Ok((parse_sparse(fields, set)?, parse_expected(answer, writes)?))
}

const FORMAT: &str = "\
# Answers of the original lh5801.rs (release build, no overflow checks) to fixed calls, and of the
# harness around it: stops 1 to 4 and 7 are the harness's own, and IR0's entry, a call's first step
# with BF and IR0 set, is that of a model.
# Lines that begin with # are comments. Every other line is one call, in four parts with | between:
#   A T X Y U S P TM flags timer previous ticks keyboard limit length0 length1 first step
#   | address=bytes ... | number byte steps states A T X Y U S P TM flags timer previous ticks
#   | address=byte ...
# Part 1 is the record, the keyboard byte, the limit, the two pages' lengths and the fill rule;
# part 2 the bytes set after it, in runs; part 3 the answer; part 4 the writes of completed steps,
# dropped ones included, in order. A T X Y U S P TM flags, keyboard, first, step, the byte and
# everything in parts 2 and 4 are hexadecimal, the rest is decimal. Page 1 is at address 10000.
# flags: bit 0 halted, then PU PV BF DISP IR0 IR1 IR2, timer reached.
# Fill rule: the byte at offset o of page p is, modulo 256,
#   first + step * (o mod 256 + 3 * (256 * p + o div 256)).
# After the call, the pages are as given with the writes stored that lie inside them.
";

/// A random call that makes a short line.
pub fn random_sparse(random: &mut Random) -> Sparse {
    let lengths = [random::length(random), random::length(random)];
    let mut record = random::record(random, lengths);
    // Three digits, and no more than a campaign file can hold.
    record.tm = record.tm.min(4095);
    let room = lengths[0].saturating_sub(usize::from(record.p));
    let mut code = random::program(random, 24, lengths, record.p);
    code.truncate(room);
    let set = if code.is_empty() { vec![] } else { vec![(u32::from(record.p), code)] };
    Sparse {
        record,
        keyboard: random.byte(),
        limit: if random.chance(95) { 1 + random.below(12) as u32 } else { random::limit(random) },
        lengths,
        fill: if random.chance(20) { (0, 0) } else { (random.byte(), random.byte()) },
        set,
    }
}

/// Writes the directed cases, then `calls` random ones.
pub fn write(calls: u64, seed: u64, out: &mut dyn io::Write) -> Result<usize, String> {
    let failed = |error: io::Error| format!("writing the list: {error}");
    writeln!(out, "# made by: oracle list {calls} --seed {seed}").map_err(failed)?;
    write!(out, "{FORMAT}").map_err(failed)?;
    let mut lines = 0;
    for (title, cases) in directed::groups() {
        writeln!(out, "# {title}").map_err(failed)?;
        for sparse in cases {
            writeln!(out, "{}", answered(&sparse)?).map_err(failed)?;
            lines += 1;
        }
    }
    writeln!(out, "# random calls").map_err(failed)?;
    let mut progress = Progress::new("call", calls);
    for index in 0..calls {
        let sparse = random_sparse(&mut Random::new(seed, index));
        writeln!(out, "{}", answered(&sparse)?).map_err(failed)?;
        lines += 1;
        progress.show(index);
    }
    progress.wipe();
    Ok(lines)
}

/// A call's line, with the original's answer.
fn answered(sparse: &Sparse) -> Result<String, String> {
    let answer = Original.call(&sparse.call()?);
    match &answer.failure {
        None => Ok(format_line(sparse, &Expected::of(&answer))),
        Some(message) => Err(format!("the original failed: {message}")),
    }
}

/// Checks a list against a side: the number of calls, and the lines that differ.
pub fn check(text: &str, side: &mut dyn Side) -> Result<(usize, Vec<usize>), String> {
    let mut calls = 0;
    let mut differing = Vec::new();
    let total = text.lines().count() as u64;
    let mut progress = Progress::new("line", total);
    for (index, line) in text.lines().enumerate() {
        if line.starts_with('#') || line.trim().is_empty() {
            continue;
        }
        let at_line = |message| format!("line {}: {message}", index + 1);
        let (sparse, expected) = parse_line(line).map_err(at_line)?;
        let call = sparse.call().map_err(at_line)?;
        if !agrees(&call, &expected, &side.call(&call)) {
            differing.push(index + 1);
        }
        calls += 1;
        progress.show(index as u64);
    }
    progress.wipe();
    Ok((calls, differing))
}

/// The answer is the expected one, and the pages are the given ones with its writes stored. A side
/// that does not tell its accesses is held to the pages alone.
fn agrees(call: &Call, expected: &Expected, answer: &Answer) -> bool {
    let mut pages = call.pages.clone();
    for (address, byte) in &expected.writes {
        let (page, offset) = ((address >> 16) as usize, (address & 0xFFFF) as usize);
        if let Some(place) = pages.get_mut(page).and_then(|page| page.get_mut(offset)) {
            *place = *byte;
        }
    }
    let mut returned = Expected::of(answer);
    if answer.log.is_none() {
        returned.writes.clone_from(&expected.writes);
    }
    answer.failure.is_none() && returned == *expected && answer.pages == pages
}

#[cfg(test)]
mod tests {
    use super::{check, parse_line, write};
    use crate::model::Model;
    use crate::original::Original;

    #[test]
    fn a_list_reads_back_and_both_sides_agree_with_it() {
        let mut out = Vec::new();
        let lines = write(200, 3, &mut out).unwrap();
        let text = String::from_utf8(out).unwrap();
        assert_eq!(check(&text, &mut Original).unwrap(), (lines, vec![]));
        assert_eq!(check(&text, &mut Model::default()).unwrap(), (lines, vec![]));
    }

    #[test]
    fn a_changed_answer_is_found() {
        let mut out = Vec::new();
        write(0, 3, &mut out).unwrap();
        let text = String::from_utf8(out).unwrap();
        let line = text.lines().find(|line| !line.starts_with('#')).unwrap();
        let (before, writes) = line.rsplit_once('|').unwrap();
        let (before, ticks) = before.trim_end().rsplit_once(' ').unwrap();
        let ticks = ticks.parse::<u64>().unwrap() + 1;
        let changed = format!("{before} {ticks} |{writes}\n");
        assert_eq!(check(&changed, &mut Original).unwrap(), (1, vec![1]));
    }

    #[test]
    fn faulty_lines_are_turned_down() {
        assert!(parse_line("00").is_err());
        assert!(parse_line("| | |").is_err());
        assert!(check("00 00 | | |\n", &mut Original).unwrap_err().starts_with("line 1"));
    }
}
