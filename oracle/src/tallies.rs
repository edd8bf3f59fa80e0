//! How many calls have met each of some kinds.

#![forbid(unsafe_code)]

/// The calls that were looked at, and how many of them have met each of N kinds.
#[derive(Clone)]
pub struct Tallies<const N: usize> {
    pub calls: u64,
    met: [u64; N],
}

impl<const N: usize> Default for Tallies<N> {
    fn default() -> Tallies<N> {
        Tallies { calls: 0, met: [0; N] }
    }
}

impl<const N: usize> Tallies<N> {
    /// One more call, which has met the kinds of these numbers, however often.
    pub fn add(&mut self, kinds: impl Iterator<Item = usize>) {
        let mut met = [0; N];
        kinds.for_each(|kind| met[kind] = 1);
        self.calls += 1;
        self.sum(met);
    }

    pub fn join(&mut self, other: &Tallies<N>) {
        self.calls += other.calls;
        self.sum(other.met);
    }

    fn sum(&mut self, more: [u64; N]) {
        self.met.iter_mut().zip(more).for_each(|(count, more)| *count += more);
    }

    /// Whether each kind was met.
    pub fn have_all(&self) -> bool {
        self.met.iter().all(|count| *count > 0)
    }

    /// The numbers of the kinds that were met.
    #[cfg(test)]
    pub fn kinds(&self) -> Vec<usize> {
        (0..N).filter(|kind| self.met[*kind] > 0).collect()
    }

    /// Each kind's name and count, in lines of so many kinds, the later ones set in.
    pub fn words(&self, names: [&str; N], in_a_line: usize) -> String {
        let words: Vec<_> =
            names.iter().zip(self.met).map(|(name, count)| format!("{name} {count}")).collect();
        let lines: Vec<_> = words.chunks(in_a_line).map(|words| words.join(", ")).collect();
        lines.join(",\n  ")
    }
}

#[cfg(test)]
mod tests {
    use super::Tallies;

    #[test]
    fn calls_are_counted_by_what_they_have_met() {
        let mut tallies = Tallies::<3>::default();
        tallies.add([1, 1].into_iter());
        tallies.add([1, 2].into_iter());
        assert_eq!((tallies.calls, tallies.kinds(), tallies.have_all()), (2, vec![1, 2], false));
        assert_eq!(tallies.words(["a", "b", "c"], 2), "a 0, b 2,\n  c 1");
        let mut more = Tallies::default();
        more.add([0].into_iter());
        tallies.join(&more);
        assert!(tallies.have_all() && tallies.calls == 3);
    }
}
