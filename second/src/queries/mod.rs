//! The families of queries, made as the families of sheets are.

mod bounds;
mod damaged;
pub mod document;
mod large;
mod small;
mod tiny;

#[cfg(test)]
mod tests;

use crate::query::Query;
use crate::random::Random;

type Make = fn(u64, &mut Random) -> Query;

pub struct QueryFamily {
    pub name: &'static str,
    /// In a run of the default length.
    pub queries: u64,
    pub make: Make,
}

const fn family(name: &'static str, queries: u64, make: Make) -> QueryFamily {
    QueryFamily {
        name,
        queries,
        make,
    }
}

pub static ALL: [QueryFamily; 13] = [
    family("the twelve cases", 12, document::case),
    family("A to F, every bound", 6_912, document::every_bound),
    family("A to F, every byte", 3_072, document::every_byte),
    family("every tiny sheet", tiny::ALL, tiny::every),
    family("small sheets", 80_000, small::any),
    family("allowances", 80_000, bounds::allowances),
    family("places", 60_000, bounds::places),
    family("witness lengths", 20_000, bounds::witness_lengths),
    family("question bytes", 20_000, bounds::question_bytes),
    family("all bounds at once", 40_000, bounds::all_at_once),
    family("damaged sheets", 40_000, damaged::any),
    family("medium sheets", 3_000, large::medium),
    family("large sheets", 600, large::large),
];

impl QueryFamily {
    pub fn query(&self, seed: u64, index: u64) -> Query {
        (self.make)(index, &mut Random::for_sheet(seed, self.name, index))
    }

    /// This family's part of a run of so many queries, rounded up.
    pub fn part_of(&self, queries: u64) -> u64 {
        let part = u128::from(queries) * u128::from(self.queries);
        part.div_ceil(u128::from(default_queries())) as u64
    }
}

pub fn default_queries() -> u64 {
    ALL.iter().map(|family| family.queries).sum()
}
