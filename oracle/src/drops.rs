//! What read-only parts of page 0 have done, counted (document 02, F-4).

#![forbid(unsafe_code)]

use std::collections::HashSet;
use std::fmt;

use crate::call::{Access, Answer, Call, ReadOnly};

/// What the read-only parts of calls have done.
#[derive(Clone, Default)]
pub struct Drops {
    /// Calls with two numbers that are not both zero, and those whose part has no byte of the page.
    calls: u64,
    empty: u64,
    /// Writes inside page 0 that a part has dropped, and the calls with one.
    dropped: u64,
    dropping: u64,
    /// Calls in which a byte is read after a write to it was dropped, and reads of such a byte by
    /// the very step that has tried to write it: a vector's, after the pushes.
    read_later: u64,
    inside: u64,
    /// Writes stored in page 1 with an end above 65,536.
    page_1: u64,
}

impl Drops {
    /// A call, with an answer that tells the accesses.
    pub fn add(&mut self, call: &Call, answer: &Answer) {
        let Some(log) = &answer.log else { return };
        if call.read_only == ReadOnly::default() {
            return;
        }
        self.calls += 1;
        let mut course = Course::of(call);
        self.empty += u64::from(course.read_only.offsets(course.lengths[0]).is_empty());
        for index in 0..log.starts.len().min(answer.steps as usize) {
            course.step(log.step(index));
        }
        self.dropped += course.dropped;
        self.dropping += u64::from(course.dropped > 0);
        self.read_later += u64::from(course.later > 0);
        self.inside += course.inside;
        self.page_1 += course.page_1;
    }

    pub fn join(&mut self, other: &Drops) {
        self.calls += other.calls;
        self.empty += other.empty;
        self.dropped += other.dropped;
        self.dropping += other.dropping;
        self.read_later += other.read_later;
        self.inside += other.inside;
        self.page_1 += other.page_1;
    }

    /// Whether each of these was met.
    pub fn have_all(&self) -> bool {
        let counts = [self.empty, self.dropping, self.read_later, self.inside, self.page_1];
        counts.iter().all(|count| *count > 0)
    }
}

impl fmt::Display for Drops {
    fn fmt(&self, f: &mut fmt::Formatter<'_>) -> fmt::Result {
        let Drops { calls, empty, dropped, dropping, read_later, inside, page_1 } = self;
        write!(
            f,
            "{calls} calls with a read-only part, {empty} of them with an empty one: {dropped} \
             writes dropped by it in {dropping} calls,\n  the byte read later in {read_later} \
             calls, {inside} times by the same step; {page_1} writes stored in page 1 with an end \
             above 65,536"
        )
    }
}

/// One call under way.
struct Course {
    read_only: ReadOnly,
    lengths: [usize; 2],
    /// Addresses whose writes were dropped, by any step so far and by the present one.
    tried: HashSet<u32>,
    own: Vec<u32>,
    dropped: u64,
    later: u64,
    inside: u64,
    page_1: u64,
}

impl Course {
    fn of(call: &Call) -> Course {
        Course {
            read_only: call.read_only,
            lengths: [call.pages[0].len(), call.pages[1].len()],
            tried: HashSet::new(),
            own: vec![],
            dropped: 0,
            later: 0,
            inside: 0,
            page_1: 0,
        }
    }

    fn step(&mut self, accesses: &[Access]) {
        self.own.clear();
        for access in accesses {
            let address = access.address();
            let (page, offset) = ((address >> 16) as usize, (address & 0xFFFF) as usize);
            match access.is_write() {
                _ if offset >= self.lengths[page] => {}
                true => self.write(address),
                false => {
                    self.later += u64::from(self.tried.contains(&address));
                    self.inside += u64::from(self.own.contains(&address));
                }
            }
        }
    }

    /// A write inside its page.
    fn write(&mut self, address: u32) {
        if self.read_only.has(address) {
            self.dropped += 1;
            self.tried.insert(address);
            self.own.push(address);
        } else if address >= 0x1_0000 && self.read_only.end > 0x1_0000 {
            self.page_1 += 1;
        }
    }
}

#[cfg(test)]
mod tests {
    use super::Drops;
    use crate::call::{Call, ReadOnly, Record, Side};
    use crate::original::Original;

    /// What the original's answer to this call counts.
    fn counted(call: &Call) -> Drops {
        let mut drops = Drops::default();
        drops.add(call, &Original.call(call));
        drops
    }

    /// STA (X), LDA (X), STA #(X), with X at 0008 of both pages.
    fn stores(read_only: ReadOnly, length0: usize) -> Call {
        let mut page0 = vec![0x0E, 0x05, 0xFD, 0x0E, 0x38, 0x38];
        page0.resize(length0, 0x38);
        let record = Record { a: 0x5A, x: 8, bf: true, ..Record::default() };
        Call { record, limit: 3, pages: [page0, vec![0; 9]], read_only, ..Call::default() }
    }

    #[test]
    fn drops_are_counted() {
        let drops = counted(&stores(ReadOnly::new(8, 65_537), 9));
        let Drops { calls, empty, dropped, dropping, read_later, inside, page_1 } = drops;
        assert_eq!(
            [calls, empty, dropped, dropping, read_later, inside, page_1],
            [1, 0, 1, 1, 1, 0, 1]
        );
        let none = counted(&stores(ReadOnly::default(), 9));
        assert_eq!((none.calls, none.dropped, none.page_1), (0, 0, 0));
        let past = counted(&stores(ReadOnly::new(8, 65_536), 8));
        assert_eq!((past.calls, past.empty, past.dropped, past.page_1), (1, 1, 0, 0));
    }

    /// An entry with S at FFFB: the vector's two bytes are read after their writes were dropped.
    #[test]
    fn reads_of_the_dropping_step_are_counted() {
        let record = Record { s: 0xFFFB, t: 2, ir1: true, bf: true, ..Record::default() };
        let (pages, read_only) = ([vec![0x11; 65_536], vec![]], ReadOnly::new(0, u32::MAX));
        let drops = counted(&Call { record, limit: 1, pages, read_only, ..Call::default() });
        assert_eq!((drops.dropped, drops.read_later, drops.inside), (3, 1, 2));
        assert!(!drops.have_all());
    }
}
