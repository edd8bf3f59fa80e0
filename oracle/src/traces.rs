//! Kinds of traces: what the accesses of a single step may look like.

#![forbid(unsafe_code)]

use std::collections::BTreeSet;
use std::fmt;

use crate::call::{Access, Answer, Call};
use crate::opcodes::{table, Kind};

/// So many kinds the directed calls with a log have to reach.
const LEAST: usize = 669;

/// A kind: the opcode or the entry, then each access in order.
type Trace = Vec<u16>;

/// The mark of an entry, in place of an opcode.
const ENTRY: u16 = 0x200;

/// The kinds that completed steps have had.
#[derive(Default)]
pub struct Traces {
    kinds: BTreeSet<Trace>,
    most_accesses: usize,
}

/// An access apart from its address and byte: read or write, page, inside the page or past its end,
/// and whether it reads what its own step has written.
fn form(access: &Access, before: &[Access], lengths: [usize; 2]) -> u16 {
    let (page, offset) = ((access.address() >> 16) as usize, (access.address() & 0xFFFF) as usize);
    let same = |earlier: &Access| earlier.is_write() && earlier.address() == access.address();
    let own = !access.is_write() && before.iter().any(same);
    let bits = [access.is_write(), page == 1, offset >= lengths[page], own];
    (0..4).map(|i| u16::from(bits[i]) << i).sum()
}

/// The kind of a completed step; nothing where it has no access.
fn trace(step: &[Access], lengths: [usize; 2]) -> Option<Trace> {
    let head = match step {
        [] => return None,
        [first, ..] if first.is_write() => ENTRY,
        [first, second, ..] if first.byte() == 0xFD => 0x100 + u16::from(second.byte()),
        [first, ..] => u16::from(first.byte()),
    };
    let forms = (0..step.len()).map(|i| form(&step[i], &step[..i], lengths));
    Some([head].into_iter().chain(forms).collect())
}

impl Traces {
    pub fn add(&mut self, call: &Call, answer: &Answer) {
        let Some(log) = &answer.log else { return };
        let lengths = [call.pages[0].len(), call.pages[1].len()];
        for index in 0..answer.steps as usize {
            let step = log.step(index);
            self.most_accesses = self.most_accesses.max(step.len());
            self.kinds.extend(trace(step, lengths));
        }
    }

    /// How many listed opcodes have a kind, FD apart, and how many there are.
    fn opcodes(&self) -> [usize; 2] {
        let reached: BTreeSet<u16> = self.kinds.iter().map(|kind| kind[0]).collect();
        let listed = table().iter().flatten().flatten();
        let listed = listed.filter(|entry| entry.kind != Kind::Prefix).count();
        [reached.iter().filter(|head| **head != ENTRY).count(), listed]
    }

    /// Every listed opcode, and at least so many kinds.
    pub fn are_enough(&self) -> bool {
        let [reached, listed] = self.opcodes();
        reached == listed && self.kinds.len() >= LEAST
    }
}

impl fmt::Display for Traces {
    fn fmt(&self, f: &mut fmt::Formatter<'_>) -> fmt::Result {
        let (kinds, most) = (self.kinds.len(), self.most_accesses);
        let entries = self.kinds.iter().filter(|kind| kind[0] == ENTRY).count();
        let [reached, listed] = self.opcodes();
        write!(
            f,
            "directed: {kinds} kinds of traces ({entries} of them entries), {reached} of {listed} \
             listed opcodes, at most {most} accesses in a step"
        )
    }
}

#[cfg(test)]
mod tests {
    use super::trace;
    use crate::call::Access;

    #[test]
    fn kinds_of_single_steps() {
        let lengths = [0x100, 0];
        assert_eq!(trace(&[], lengths), None);
        let nop = [Access::read(0x00FF, 0x38)];
        assert_eq!(trace(&nop, lengths), Some(vec![0x38, 0]));
        let past = [Access::read(0x00FF, 0xFD), Access::read(0x0100, 0x0E)];
        assert_eq!(trace(&past, lengths), Some(vec![0x10E, 0, 4]));
        let own = [Access::write(0x1_0000, 1), Access::read(0x1_0000, 0xFF)];
        assert_eq!(trace(&own, lengths), Some(vec![0x200, 1 + 2 + 4, 2 + 4 + 8]));
    }
}
