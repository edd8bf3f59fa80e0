//! Waiting steps, counted by their idle figure.

#![forbid(unsafe_code)]

use std::fmt;

/// How many steps have waited with each idle figure. With 0 none does.
#[derive(Clone)]
pub struct Waits([u64; 256]);

impl Default for Waits {
    fn default() -> Waits {
        Waits([0; 256])
    }
}

impl Waits {
    pub fn add(&mut self, idle: u8, steps: u64) {
        self.0[usize::from(idle)] += steps;
    }

    pub fn join(&mut self, other: &Waits) {
        self.0.iter_mut().zip(other.0).for_each(|(left, right)| *left += right);
    }

    pub fn total(&self) -> u64 {
        self.0.iter().sum()
    }

    /// How many of the figures 1 to 255 were met with a waiting step.
    pub fn met(&self) -> usize {
        self.0[1..].iter().filter(|steps| **steps > 0).count()
    }

    /// The figure of 1 to 255 with the fewest waiting steps, and how many.
    pub fn rarest(&self) -> (usize, u64) {
        let counted = (1..256).map(|idle| (idle, self.0[idle]));
        counted.min_by_key(|(_, steps)| *steps).unwrap_or((0, 0))
    }
}

impl fmt::Display for Waits {
    fn fmt(&self, f: &mut fmt::Formatter<'_>) -> fmt::Result {
        let (rarest, times) = self.rarest();
        let (total, met) = (self.total(), self.met());
        write!(
            f,
            "{total} waiting steps at {met} of 255 idle figures, rarest {rarest} with {times}"
        )
    }
}
