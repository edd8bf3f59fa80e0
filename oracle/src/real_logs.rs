//! Pairs of a real log: what the port logs in a random call, beside the writes that the original
//! makes in the same call, as an analyser would list them. What has to be said of a pair is known
//! from its making.

#![forbid(unsafe_code)]

use crate::call::{BusLog, Call, Side, MOST_ACCESSES};
use crate::original::Original;
use crate::pair::{Pair, Verdict, ANALYSER_ENDED, DIFFER, EQUAL, LOG_ENDED, LOW, MARK};
use crate::pairs::{Kind, Made};
use crate::port::Port;
use crate::random::{self, Random};

const KINDS: [Kind; 4] =
    [Kind::RealFaithful, Kind::RealChanged, Kind::RealDropped, Kind::RealAdded];

/// So many calls are made for a pair that wants a write, until one has it.
const TRIES: usize = 8;

/// A random pair of a real log.
pub fn made(random: &mut Random) -> Made {
    let kind = random.pick(&KINDS);
    let tries = if let Kind::RealChanged | Kind::RealDropped = kind { TRIES } else { 1 };
    let mut call = logged_call(random);
    let mut analyser = written_by_original(&call);
    for _ in 1..tries {
        if analyser.is_empty() {
            call = logged_call(random);
            analyser = written_by_original(&call);
        }
    }
    let kind = if tries > 1 && analyser.is_empty() { Kind::RealAdded } else { kind };
    let log = logged_by_port(&call);
    let wanted = alter(random, kind, &mut analyser);
    let marks = random.pick(&[[0, 0], [MARK, 0], [0, !LOW]]);
    mark(random, marks, &mut analyser);
    Made { kind, pair: Pair { log, analyser }, bit: None, wanted: Some(wanted) }
}

/// A random call as `compare` makes them, without a read-only part and without a stop address. Where
/// it has no log it gets one with room for many steps.
fn logged_call(random: &mut Random) -> Call {
    let mut call = random::logged_call(random);
    if call.bus_log.is_none() {
        let length = MOST_ACCESSES * (1 + call.limit.min(1000) as usize);
        call.bus_log = Some(random::garbage(random, length, 0));
    }
    call
}

/// The entries that the port appends in this call.
pub fn logged_by_port(call: &Call) -> Vec<u32> {
    let given = call.bus_log.as_ref().map_or(0, |log| log.used);
    let BusLog { entries, used } = Port.call(call).bus_log.unwrap_or_default();
    entries.into_iter().take(used).skip(given).collect()
}

/// The writes of the original's completed steps in this call, without marks.
pub fn written_by_original(call: &Call) -> Vec<u32> {
    let log = Original.call(call).log.unwrap_or_default();
    log.writes().map(|access| access.address() << 8 | u32::from(access.byte())).collect()
}

/// Changes one write as the kind says, and tells what has to be said then.
fn alter(random: &mut Random, kind: Kind, analyser: &mut Vec<u32>) -> Verdict {
    let places = analyser.len() + usize::from(kind == Kind::RealAdded);
    let place = random.below(places.max(1) as u64) as usize;
    match kind {
        Kind::RealChanged => {
            analyser[place] ^= 1 << random.below(25);
            Verdict::new(DIFFER, place)
        }
        Kind::RealDropped => drop_last_of_run(analyser, place),
        Kind::RealAdded => add(random, analyser, place),
        _ => Verdict::new(EQUAL, 0),
    }
}

/// Drops a write. Of the same ones in a row it is the last, where the two lists part.
fn drop_last_of_run(analyser: &mut Vec<u32>, place: usize) -> Verdict {
    let is_last = |place: &usize| analyser.get(place + 1) != Some(&analyser[*place]);
    let place = (place..).find(is_last).unwrap_or(place);
    analyser.remove(place);
    let number = if place == analyser.len() { ANALYSER_ENDED } else { DIFFER };
    Verdict::new(number, place)
}

/// Adds a write that is not the one before which it comes.
fn add(random: &mut Random, analyser: &mut Vec<u32>, place: usize) -> Verdict {
    let next = analyser.get(place).copied();
    let is_end = next.is_none();
    let other = 1 << random.below(25);
    analyser.insert(place, next.map_or(other, |next| next ^ other));
    Verdict::new(if is_end { LOG_ENDED } else { DIFFER }, place)
}

/// Sets these bits of every entry, and any of those.
fn mark(random: &mut Random, [set, any]: [u32; 2], analyser: &mut [u32]) {
    for entry in analyser {
        *entry |= set | random.next() as u32 & any;
    }
}

#[cfg(test)]
mod tests {
    use super::alter;
    use crate::pair::{Pair, LOW, MARK};
    use crate::pairs::Kind;
    use crate::random::Random;

    /// What has to be said of a changed list is what document 02 says.
    #[test]
    fn what_has_to_be_said() {
        let kinds = [Kind::RealFaithful, Kind::RealChanged, Kind::RealDropped, Kind::RealAdded];
        for index in 0..4000 {
            let mut random = Random::new(9, index);
            let length = 1 + index % 7;
            let writes: Vec<u32> = (0..length).map(|_| random.below(2) as u32).collect();
            let mut pair = Pair { log: writes.clone(), analyser: writes };
            pair.log.iter_mut().for_each(|entry| *entry = *entry & LOW | MARK);
            let wanted = alter(&mut random, kinds[index as usize % 4], &mut pair.analyser);
            assert_eq!(pair.by_text(), wanted, "pair {index}");
        }
    }

    #[cfg(feature = "port")]
    #[test]
    fn a_real_log_holds_the_writes_of_the_original() {
        for index in 0..400 {
            let made = super::made(&mut Random::new(4, index));
            assert_eq!(Some(made.pair.by_text()), made.wanted, "pair {index}");
        }
    }
}
