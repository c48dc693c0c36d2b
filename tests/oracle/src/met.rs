//! Which answers some inputs meet, so that a test can see that its inputs reach what they are for.

use std::collections::BTreeMap;
use std::fmt;

/// How many inputs meet each answer of a call, by its number: 0 where the call accepts, else that of the refusal.
#[derive(Default)]
pub struct Met(BTreeMap<u64, usize>);

impl Met {
    pub fn count(&mut self, number: u64) {
        *self.0.entry(number).or_default() += 1;
    }

    /// How many inputs meet this answer.
    pub fn times(&self, number: u64) -> usize {
        self.0.get(&number).copied().unwrap_or(0)
    }

    /// Fails unless each of these answers is met at least so many times.
    pub fn each(&self, numbers: &[u64], least: usize) {
        assert!(numbers.iter().all(|number| self.times(*number) >= least), "{self}; {least} of {numbers:?} are wanted");
    }
}

impl fmt::Display for Met {
    fn fmt(&self, f: &mut fmt::Formatter<'_>) -> fmt::Result {
        write!(f, "{} accepted", self.times(0))?;
        for (number, times) in self.0.iter().filter(|(number, _)| **number != 0) {
            write!(f, ", {times} refused by {number}")?;
        }
        Ok(())
    }
}
