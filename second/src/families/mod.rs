//! The families of sheets. Each makes its sheet from an index and numbers of its own;
//! families that go through all cases in turn take the case from the index.

mod clause_ends;
mod fault_pairs;
mod headers;
mod lengths;
mod literal_bytes;
mod mutations;
mod noise;
mod shape;
mod single_bytes;
mod valid;

#[cfg(test)]
mod tests;

use crate::random::Random;

pub struct Family {
    pub name: &'static str,
    /// Thousands of sheets in a run of the default length.
    pub share: u64,
    pub make: fn(u64, &mut Random) -> Vec<u8>,
}

const fn family(name: &'static str, share: u64, make: fn(u64, &mut Random) -> Vec<u8>) -> Family {
    Family { name, share, make }
}

pub static ALL: [Family; 20] = [
    family("valid", 40, valid::any),
    family("valid at the limits", 3, valid::at_the_limits),
    family("one byte changed", 40, mutations::one_byte),
    family("one word changed", 40, mutations::one_word),
    family("several changes", 40, mutations::several),
    family("every byte of A and B", 23, single_bytes::of_small_sheets),
    family(
        "every literal byte",
        33,
        single_bytes::as_literal_for_every_n,
    ),
    family("lengths near a boundary", 40, lengths::near_a_boundary),
    family("lengths far above", 3, lengths::far_above),
    family("header corners", 3, headers::corners),
    family("sizes with offsets", 30, headers::one_size_with_offsets),
    family("sizes that wrap", 20, headers::sizes_that_wrap),
    family("upper bytes of words", 20, headers::upper_byte_of_a_word),
    family("clause ends", 30, clause_ends::changed),
    family("clause bytes", 30, literal_bytes::in_a_clause),
    family("objective bytes", 30, literal_bytes::in_an_objective),
    family("repeated objectives", 9, literal_bytes::repeated_objective),
    family("pairs of faults", 30, fault_pairs::both),
    family("noise", 20, noise::bytes_alone),
    family("noise after a header", 30, noise::after_a_header),
];

impl Family {
    pub fn sheet(&self, seed: u64, index: u64) -> Vec<u8> {
        (self.make)(index, &mut Random::for_sheet(seed, self.name, index))
    }

    /// This family's part of a run of so many sheets, rounded up.
    pub fn part_of(&self, sheets: u64) -> u64 {
        let shares: u64 = ALL.iter().map(|family| family.share).sum();
        (u128::from(sheets) * u128::from(self.share)).div_ceil(u128::from(shares)) as u64
    }
}

pub fn default_sheets() -> u64 {
    ALL.iter().map(|family| family.share * 1_000).sum()
}
