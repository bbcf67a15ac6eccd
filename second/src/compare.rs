//! Runs a family: makes its sheets, asks both, counts the answers, keeps the first difference.

use crate::check::{self, CheckAnswer};
use crate::counts::Counts;
use crate::families::Family;
use crate::shrink::shrink;

/// Asks the core, or in tests something that stands for it.
pub type Check = fn(&[u8]) -> CheckAnswer;

pub struct Difference {
    pub index: u64,
    pub found: Vec<u8>,
    pub shrunk: Vec<u8>,
}

pub struct Comparison {
    pub counts: Counts,
    pub differences: u64,
    /// One is enough to go by; the others mostly show the same fault.
    pub first: Option<Difference>,
}

pub fn compare(family: &Family, seed: u64, sheets: u64, core: Check) -> Comparison {
    let mut comparison = Comparison {
        counts: Counts::of(&check::ANSWERS),
        differences: 0,
        first: None,
    };
    for index in 0..sheets {
        let bytes = family.sheet(seed, index);
        let own = CheckAnswer::by_own_reader(&bytes);
        comparison.counts.count(own.code);
        if own != core(&bytes) {
            comparison.differences += 1;
            comparison
                .first
                .get_or_insert_with(|| shrunk_difference(index, bytes, core));
        }
    }
    comparison
}

fn shrunk_difference(index: u64, found: Vec<u8>, core: Check) -> Difference {
    let shrunk = shrink(&found, &|bytes| {
        CheckAnswer::by_own_reader(bytes) != core(bytes)
    });
    Difference {
        index,
        found,
        shrunk,
    }
}

#[cfg(test)]
mod tests;
