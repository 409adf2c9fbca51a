//! How often each member of each set came up.

use super::{Set, SETS};

/// How often each member came up.
#[derive(Clone, Debug)]
pub struct Members([Vec<u64>; SETS.len()]);

impl Default for Members {
    fn default() -> Members {
        Members(SETS.map(|(_, _, count)| vec![0; count]))
    }
}

impl Members {
    pub fn count(&mut self, set: Set, index: usize) {
        self.0[set as usize][index] += 1;
    }

    pub fn add(&mut self, other: &Members) {
        for (mine, theirs) in self.0.iter_mut().zip(&other.0) {
            mine.iter_mut().zip(theirs).for_each(|(a, b)| *a += b);
        }
    }

    /// The counts of a set's members.
    pub fn counts(&self, set: Set) -> &[u64] {
        &self.0[set as usize]
    }

    /// The least of them.
    pub fn least(&self, set: Set) -> u64 {
        self.counts(set).iter().copied().min().unwrap_or(0)
    }

    /// Members that never came up.
    pub fn missing(&self) -> Vec<String> {
        let mut missing = Vec::new();
        for (set, name, _) in SETS {
            let counts = self.counts(set).iter().enumerate();
            let never: Vec<String> =
                counts.filter(|(_, count)| **count == 0).map(|(at, _)| set.member(at)).collect();
            if !never.is_empty() {
                missing.push(format!("{name}: [{}]", never.join(", ")));
            }
        }
        missing
    }
}
