//! Lists one after another: random ones that follow from a seed, and fixed ones
//! before them.

use crate::random::Random;

/// Makes a list under this name.
type Make<L> = fn(&mut Random, String) -> L;

/// Random lists, named by their number from 0 on.
pub struct Lists<L> {
    random: Random,
    make: Make<L>,
    made: u64,
}

impl<L> Lists<L> {
    /// Those of one subject, whose random numbers are its own.
    #[must_use]
    pub fn new(seed: u64, subject: &str, make: Make<L>) -> Self {
        Self {
            random: Random::named(seed, subject),
            make,
            made: 0,
        }
    }

    /// The fixed lists, and after them so many of these.
    pub fn after(self, fixed: Vec<L>, many: u64) -> impl Iterator<Item = L> {
        fixed.into_iter().chain(self.take(many as usize))
    }
}

impl<L> Iterator for Lists<L> {
    type Item = L;

    fn next(&mut self) -> Option<L> {
        let name = format!("list {}", self.made);
        self.made += 1;
        Some((self.make)(&mut self.random, name))
    }
}

#[cfg(test)]
pub(crate) mod tests {
    use super::*;

    /// Sees that lists, as these bytes, follow from their seed and from nothing
    /// else.
    pub(crate) fn follow_their_seed<L>(lists: fn(u64) -> Lists<L>, bytes: fn(L) -> Vec<u8>) {
        let made = |seed| -> Vec<u8> { lists(seed).take(20).flat_map(bytes).collect() };
        assert_eq!(made(1), made(1));
        assert_ne!(made(1), made(2));
    }

    fn made(seed: u64, subject: &str, many: u64) -> Vec<String> {
        let make = |random: &mut Random, name| format!("{name}: {}", random.bits());
        let fixed = vec!["fixed".into()];
        Lists::new(seed, subject, make).after(fixed, many).collect()
    }

    #[test]
    fn fixed_ones_first_and_the_same_for_a_seed() {
        let lists = made(1, "banks", 3);
        assert_eq!(lists, made(1, "banks", 3));
        assert_eq!(lists.len(), 4);
        assert_eq!(lists[0], "fixed");
        assert!(lists[3].starts_with("list 2: "));
        assert_ne!(lists, made(2, "banks", 3));
        assert_ne!(lists, made(1, "players", 3));
    }
}
