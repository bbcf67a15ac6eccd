//! Whole outcomes of the quick query beside those of the plain walk, refusals among them.

use super::query;
use crate::containment::OnWords;
use crate::queries;
use crate::query::Outcome;

const SEED: u64 = 13;
const QUERIES: u64 = 20_000;

#[test]
fn outcomes_are_those_of_the_plain_walk() {
    for family in &queries::ALL {
        for index in 0..family.part_of(QUERIES) {
            let asked = family.query(SEED, index);
            let outcome = Outcome::by(query::<OnWords>, &asked);
            assert_eq!(outcome, Outcome::by_own_walk(&asked), "{asked:?}");
        }
    }
}
