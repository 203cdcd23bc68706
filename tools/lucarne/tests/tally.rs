//! Counting what was tried and what failed; the first failures are told.

use std::collections::BTreeMap;

#[derive(Default)]
pub struct Tally {
    counts: BTreeMap<&'static str, usize>,
    pub passed: usize,
    pub failed: usize,
}

/// So many failures are told in full.
const MOST_TOLD: usize = 3;

impl Tally {
    /// One comparison; what to tell where it fails.
    pub fn check(&mut self, fits: bool, what: &str, tell: impl Fn() -> String) {
        if fits {
            self.passed += 1;
            return;
        }
        self.failed += 1;
        if self.failed <= MOST_TOLD {
            println!("FAILED: {}\n{}", what, tell());
        }
    }

    pub fn count(&mut self, what: &'static str, by: usize) {
        *self.counts.entry(what).or_default() += by;
    }

    /// Fails unless a kind was drawn at all, so that no comparison is empty.
    pub fn must_have(&mut self, what: &'static str) {
        let is_there = self.counts.get(what).map_or(false, |&count| count > 0);
        self.check(is_there, &format!("never drawn: {}", what), String::new);
    }

    /// Prints the counts and the last line; the exit status.
    pub fn end(&self) -> i32 {
        let counts: Vec<String> = self.counts.iter().map(|(what, count)| format!("{} {}", count, what)).collect();
        println!("{}", counts.join(", "));
        println!("{} passed, {} failed", self.passed, self.failed);
        i32::from(self.failed > 0)
    }
}
