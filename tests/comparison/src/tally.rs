//! The count of cases and of differences.

use std::collections::{BTreeMap, BTreeSet};
use std::fmt::Debug;

/// Differences that are shown in full.
const SHOWN: u64 = 20;

#[derive(Default)]
pub struct Tally {
    /// The cases of each entry by refusal number, 0 for none.
    pub cases: BTreeMap<&'static str, BTreeMap<u32, u64>>,
    /// The rare cases that were met.
    pub met: BTreeSet<String>,
    pub differences: u64,
    /// The seed of the inputs at hand.
    pub seed: u64,
}

impl Tally {
    /// Counts a case; `lists` tells whether all lists hold what they should.
    pub fn case<T: Debug + PartialEq>(
        &mut self,
        entry: &'static str,
        refusal: u32,
        answers: [T; 2],
        lists: bool,
    ) {
        *self
            .cases
            .entry(entry)
            .or_default()
            .entry(refusal)
            .or_default() += 1;
        let [given, expected] = answers;
        if given == expected && lists {
            return;
        }
        self.differences += 1;
        if self.differences <= SHOWN {
            println!(
                "difference in {entry}, seed {:#x}, lists right: {lists}",
                self.seed
            );
            println!("  given    {given:?}\n  expected {expected:?}");
        }
    }
}
