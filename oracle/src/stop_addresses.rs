//! Random stop addresses (document 02, F-5): P, what the run comes to, bytes of its instructions,
//! what the vectors name, the edges, and any.

#![forbid(unsafe_code)]

use crate::call::{Call, Side};
use crate::memory::byte_at;
use crate::model::Model;
use crate::protect;
use crate::random::Random;
use crate::stop_counts::begun;

/// A random call as `protect::call` makes it, in half of the calls with a stop address.
pub fn call(random: &mut Random) -> Call {
    let call = protect::call(random);
    sometimes(random, call)
}

/// The call, in half of the calls with a stop address.
pub fn sometimes(random: &mut Random, mut call: Call) -> Call {
    if random.chance(50) {
        call.inputs.stop_address = Some(stop_address(random, &call));
    }
    call
}

/// A stop address for this call.
pub fn stop_address(random: &mut Random, call: &Call) -> u16 {
    let p = call.record.p;
    match random.below(20) {
        0 | 1 => p,
        2 => p.wrapping_add(1 + random.below(4) as u16),
        3 => turned(random, p),
        4 => random.pick(&[0x0000, 0xFFFF]),
        5 => random.word(),
        6 => vector(random, &call.pages),
        7 | 8 => beside(random, call),
        _ => reached(random, call),
    }
}

/// The address with one of its bits turned.
fn turned(random: &mut Random, address: u16) -> u16 {
    address ^ 1 << random.below(16)
}

/// What a vector names: that of IR0, IR1 or IR2, or any of the 256. The second byte of vector FF is at
/// 10000, in page 1.
fn vector(random: &mut Random, pages: &[Vec<u8>; 2]) -> u16 {
    let any = 0xFF00 + random.below(256) as u32;
    let at = random.pick(&[0xFFFC, 0xFFFA, 0xFFF8, any]);
    u16::from_be_bytes([at, at + 1].map(|at| byte_at(pages, at)))
}

/// One below an address that the run comes to, one or two above it, its low byte alone, or the address
/// with one of its bits turned.
fn beside(random: &mut Random, call: &Call) -> u16 {
    let address = reached(random, call);
    match random.below(8) {
        0 => address.wrapping_sub(1),
        1..=3 => address.wrapping_add(1),
        4 | 5 => address.wrapping_add(2),
        6 => address % 256,
        _ => turned(random, address),
    }
}

/// P at the beginning of one of the run's steps, or at the run's end. The model makes the run, of
/// few steps or many.
fn reached(random: &mut Random, call: &Call) -> u16 {
    let most = random.pick(&[3, 30, 300]);
    let (inputs, limit) = (call.inputs.without_stop(), call.limit.min(most));
    let answer = Model::default().call(&Call { inputs, limit, bus_log: None, ..call.clone() });
    let steps = answer.log.as_ref().map_or(vec![], |log| begun(&answer, log));
    let place = random.below(steps.len() as u64 + 1) as usize;
    match random.below(3) {
        0 => answer.record.p,
        _ => steps.get(place).map_or(answer.record.p, |step| step.p),
    }
}

#[cfg(test)]
mod tests {
    use super::{call, vector};
    use crate::call::{Call, Side};
    use crate::original::Original;
    use crate::protect;
    use crate::random::Random;
    use crate::stop_counts::Stops;
    use std::collections::BTreeSet;

    fn calls(count: u64) -> impl Iterator<Item = Call> {
        (0..count).map(|index| call(&mut Random::new(1, index)))
    }

    /// Half of the calls have one, 0 and FFFF often.
    #[test]
    fn addresses_come_as_they_should() {
        let all: Vec<_> = calls(6000).map(|call| call.inputs.stop_address).collect();
        let count =
            |wanted: &dyn Fn(&Option<u16>) -> bool| all.iter().filter(|a| wanted(a)).count();
        assert!((2800..3200).contains(&count(&|address| address.is_some())));
        assert!(count(&|address| *address == Some(0)) > 50);
        assert!(count(&|address| *address == Some(0xFFFF)) > 50);
    }

    /// Byte i of the vectors is i, and page 1 begins with 5A: vector i names i and i + 1, FF names FF5A.
    #[test]
    fn each_vector_is_named() {
        let page0 = (0..0x1_0000).map(|at| at as u8).collect();
        let pages = [page0, vec![0x5A]];
        let mut random = Random::new(1, 0);
        let named: BTreeSet<_> = (0..10_000).map(|_| vector(&mut random, &pages)).collect();
        assert_eq!(named, (0..255).map(|i| i * 0x101 + 1).chain([0xFF5A]).collect());
        let short = [vec![0x00; 0xFF00], vec![]];
        assert_eq!(vector(&mut random, &short), 0xFFFF);
    }

    /// But for the stop address it is the call without one.
    #[test]
    fn without_a_stop_address_it_is_the_plain_call() {
        for index in 0..600 {
            let mut with = call(&mut Random::new(1, index));
            with.inputs = with.inputs.without_stop();
            assert_eq!(with, protect::call(&mut Random::new(1, index)));
        }
    }

    #[test]
    fn every_kind_is_met() {
        let mut stops = Stops::default();
        for call in calls(4000) {
            stops.add(&call, &Original.call(&call));
        }
        assert!(stops.have_all(), "{stops}");
    }
}
