//! The comparison with a function in the place of the core.

use super::{compare_queries, Ask, QueryComparison};
use crate::queries::{QueryFamily, ALL};
use crate::query::{Outcome, GUARD};
use crate::sheet::Sheet;

fn family(name: &str) -> &'static QueryFamily {
    ALL.iter()
        .find(|family| family.name == name)
        .expect("a family of this name")
}

fn places_against(ask: Ask) -> QueryComparison {
    compare_queries(family("places"), 1, 2_000, ask)
}

#[test]
fn equal_outcomes_are_no_fault() {
    let comparison = places_against(Outcome::by_own_walk);
    assert!(comparison.passes());
    assert_eq!(comparison.reach.codes.total(), 2_000);
    assert!(comparison.reach.several_tests > 100);
    assert!(comparison.reach.several_stored > 100);
}

#[test]
fn a_place_written_too_many_is_found_and_shrunk() {
    let comparison = places_against(|query| {
        let mut outcome = Outcome::by_own_walk(query);
        let stored = outcome.counts[2] as usize;
        outcome.store[GUARD + stored] = 0;
        outcome
    });
    assert_eq!(comparison.differences.count, 2_000);
    assert_eq!(comparison.violations.count, 0);
    let shrunk = comparison.differences.first.unwrap().shrunk;
    assert_eq!(Sheet::read(&shrunk.sheet), Ok(Sheet::of(1, &[], &[])));
    assert_eq!((shrunk.allowance, shrunk.places), (0, 0));
}

#[test]
fn a_wrong_answer_is_a_fault_of_both_kinds() {
    let comparison = places_against(|query| {
        let mut outcome = Outcome::by_own_walk(query);
        outcome.code = if outcome.code == 1 { 2 } else { outcome.code };
        outcome
    });
    assert!(comparison.differences.count > 500);
    assert_eq!(comparison.violations.count, comparison.differences.count);
    let shrunk = comparison.violations.first.unwrap().shrunk;
    assert_eq!(Sheet::read(&shrunk.sheet), Ok(Sheet::of(1, &[], &[])));
}
