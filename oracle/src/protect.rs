//! Random read-only parts of page 0 (document 02, F-4): at the edges, around what the record's
//! registers and the code point to, and around the vectors.

#![forbid(unsafe_code)]

use crate::call::{Call, ReadOnly, Record};
use crate::random::{self, Random};

/// A random call as `random::logged_call` makes it, in half of the calls with a read-only part.
pub fn call(random: &mut Random) -> Call {
    let call = random::logged_call(random);
    sometimes(random, call)
}

/// The call, in half of the calls with a read-only part. Some of these push over a vector then, on
/// a whole page.
pub fn sometimes(random: &mut Random, mut call: Call) -> Call {
    if random.chance(50) {
        return call;
    }
    if random.chance(12) {
        stack_over_vectors(random, &mut call.record);
        call.pages[0].resize(65_536, 0x38);
    }
    call.read_only = read_only(random, &call.record, &call.pages[0]);
    call
}

/// An interrupt whose pushes lie over its own vector.
pub fn stack_over_vectors(random: &mut Random, record: &mut Record) {
    record.s = 0xFFF7 + random.below(9) as u16;
    record.set_flags(0x008 | random.pick(&[0x020, 0x040, 0x080, 0x100, 0x021, 0x041]));
    record.t |= 0x02;
}

/// A read-only part of this page 0, for a unit with this record. Most of those that have no byte of
/// the page are replaced by almost the whole page.
pub fn read_only(random: &mut Random, record: &Record, page: &[u8]) -> ReadOnly {
    let part = any_part(random, record, page);
    if part.offsets(page.len()).is_empty() && random.chance(60) {
        return ReadOnly::new(random.pick(&[0, 0, 1, 8]), far(random, page.len()));
    }
    part
}

fn any_part(random: &mut Random, record: &Record, page: &[u8]) -> ReadOnly {
    let length = page.len();
    let target = target(random, record, page);
    let few = |random: &mut Random| random.below(8) as u32;
    match random.below(12) {
        0 | 1 => ReadOnly::new(edge(random, length), edge(random, length)),
        2 => ReadOnly::new(0, far(random, length)),
        3 | 4 => ReadOnly::new(target, target + 1),
        5 | 6 => ReadOnly::new(target.saturating_sub(few(random)), target + 1 + few(random)),
        7 => ReadOnly::new(target.saturating_sub(few(random)), far(random, length)),
        8 => ReadOnly::new(random.pick(&[0, 1]), target + random.below(2) as u32),
        9 => around_vectors(random),
        10 => empty(random, target, length),
        _ => inside(random, length),
    }
}

/// An address that the next steps may well write: where a register points, the bytes below S, or a
/// word of the code.
fn target(random: &mut Random, record: &Record, page: &[u8]) -> u32 {
    let word = match random.below(8) {
        0..=2 => record.s.wrapping_sub(random.below(4) as u16),
        3 => record.x,
        4 => record.y,
        5 => record.u,
        _ => {
            let at = usize::from(record.p) + 1 + random.below(12) as usize;
            let byte = |place: usize| page.get(place).copied().unwrap_or(0xFF);
            u16::from_be_bytes([byte(at), byte(at + 1)])
        }
    };
    word.into()
}

/// The edges of a number: 0, the page's end and the bytes around it, the greatest address, and what
/// is above it.
fn edge(random: &mut Random, length: usize) -> u32 {
    let length = length as u32;
    let near = [0, 1, length.saturating_sub(1), length, length + 1];
    match random.below(3) {
        0 => random.pick(&near),
        1 => random.pick(&[0xFFFE, 0xFFFF, 65_536, 65_537, 70_000, 131_072, u32::MAX]),
        _ => random.below(65_536) as u32,
    }
}

/// An end that is not below the page's.
fn far(random: &mut Random, length: usize) -> u32 {
    let length = length as u32;
    random.pick(&[length, length + 1, 65_536, 65_537, 70_000, 131_071, 131_072, u32::MAX])
}

/// One vector's byte, one vector or some of them.
fn around_vectors(random: &mut Random) -> ReadOnly {
    let first = random.pick(&[0xFF00, 0xFFC0, 0xFFF8, 0xFFF9, 0xFFFA, 0xFFFB, 0xFFFC, 0xFFFD]);
    let ends = [first + 1, first + 2, 0xFFFA, 0xFFFB, 0xFFFC, 0xFFFD, 65_536, 131_072];
    let end = random.pick(&ends);
    ReadOnly::new(first, end)
}

/// The end is at the first or below it.
fn empty(random: &mut Random, target: u32, length: usize) -> ReadOnly {
    let first = if random.chance(60) { target } else { edge(random, length) };
    let less = random.pick(&[0, 0, 0, 1, 2, first / 2, first]);
    ReadOnly::new(first, first.saturating_sub(less))
}

/// Some bytes of the page.
fn inside(random: &mut Random, length: usize) -> ReadOnly {
    let first = random.below(length.max(1) as u64);
    let most = random.pick(&[4, 64, 1024, 65_536]);
    ReadOnly::new(first as u32, (first + 1 + random.below(most)) as u32)
}

#[cfg(test)]
mod tests {
    use super::call;
    use crate::call::{Call, ReadOnly, Side};
    use crate::drops::Drops;
    use crate::original::Original;
    use crate::random::{logged_call, Random};

    fn calls(count: u64) -> impl Iterator<Item = Call> {
        (0..count).map(|index| call(&mut Random::new(1, index)))
    }

    /// The numbers reach their edges, each way round.
    #[test]
    fn parts_come_as_they_should() {
        let parts: Vec<_> = calls(6000).map(|call| (call.read_only, call.pages[0].len())).collect();
        let count = |wanted: &dyn Fn(ReadOnly, u32) -> bool| {
            parts.iter().filter(|(part, length)| wanted(*part, *length as u32)).count()
        };
        assert!((2800..3300).contains(&count(&|part, _| part == ReadOnly::default())));
        assert!(count(&|part, _| part.end == part.first && part.end > 0) > 50);
        assert!(count(&|part, _| part.end < part.first) > 100);
        assert!(count(&|part, _| part.end == part.first + 1) > 300);
        for edge in [1, 0xFFFF, 65_536, 65_537, 70_000, 131_072, u32::MAX] {
            assert!(count(&|part, _| part.first == edge) > 5, "first {edge}");
            assert!(count(&|part, _| part.end == edge) > 20, "end {edge}");
        }
        for more in [0, 1, 2] {
            assert!(count(&|part, length| part.first + 1 == length + more) > 20);
            assert!(count(&|part, length| part.end.saturating_add(1) == length + more) > 20);
        }
    }

    /// But for the part, and a stack over the vectors, it is the call without one.
    #[test]
    fn without_a_part_it_is_the_plain_call() {
        for index in 0..600 {
            let with = call(&mut Random::new(1, index));
            let plain = logged_call(&mut Random::new(1, index));
            if with.read_only == ReadOnly::default() && with.record == plain.record {
                assert_eq!(with, plain);
            }
            assert_eq!((with.limit, with.inputs), (plain.limit, plain.inputs));
            assert_eq!(with.bus_log, plain.bus_log);
        }
    }

    #[test]
    fn writes_are_dropped_and_read_later() {
        let mut drops = Drops::default();
        for call in calls(3000) {
            drops.add(&call, &Original.call(&call));
        }
        assert!(drops.have_all(), "{drops}");
    }
}
