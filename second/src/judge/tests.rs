//! Outcomes with one thing made wrong: each is told from the meaning alone.

use super::violation;
use crate::query::{Outcome, Query, GUARD};
use crate::sheet::Sheet;

/// Two optimal models, 1 0 and 0 1, and a third model that is not.
fn query(question: u8) -> Query {
    Query {
        sheet: Sheet::of(2, &[&[-1, -2]], &[1, 2]).write(),
        question,
        allowance: 100,
        places: 3,
        witness_length: 2,
    }
}

fn complaint(query: &Query, change: impl Fn(&mut Outcome)) -> Option<&'static str> {
    let mut outcome = Outcome::by_own_walk(query);
    change(&mut outcome);
    violation(query, &outcome)
}

fn complaint_on_witness(question: u8, witness: [u8; 2]) -> Option<&'static str> {
    complaint(&query(question), |outcome| {
        outcome.witness[GUARD..][..2].copy_from_slice(&witness);
    })
}

#[test]
fn right_outcomes_are_not_complained_of() {
    for question in [1, 2, 254, 255, 3, 0] {
        assert_eq!(complaint(&query(question), |_| ()), None);
    }
}

#[test]
fn wrong_witnesses() {
    let no_model = Some("yes, and the witness is no model");
    assert_eq!(complaint_on_witness(255, [1, 1]), no_model);
    assert_eq!(complaint_on_witness(255, [0, 2]), no_model);
    let denies = Some("yes, and the witness does not satisfy the question");
    assert_eq!(complaint_on_witness(255, [1, 0]), denies);
    let beaten = Some("yes, and the witness is not optimal");
    assert_eq!(complaint_on_witness(255, [0, 0]), beaten);
    assert_eq!(complaint_on_witness(255, [0, 1]), None);
}

#[test]
fn a_later_optimal_model() {
    let mut query = query(3);
    query.sheet = Sheet::of(3, &[&[-1, -2]], &[1, 2]).write();
    query.witness_length = 3;
    let later = |outcome: &mut Outcome| outcome.witness[GUARD..][..3].copy_from_slice(&[0, 1, 1]);
    let expected = Some("yes, and an optimal affirming model stands before the witness");
    assert_eq!(complaint(&query, later), expected);
}

#[test]
fn wrong_codes() {
    let with_code = |code: u8| complaint(&query(1), |outcome| outcome.code = code);
    let expected = Some("no, and an optimal model satisfies the question");
    assert_eq!(with_code(2), expected);
    let expected = Some("19, and there are places for all maximal parts of denying models");
    assert_eq!(with_code(19), expected);
    let expected = Some("the code is none for a query past the checks");
    assert_eq!(with_code(16), expected);
    assert_eq!(with_code(18), None);
}

#[test]
fn wrong_counts() {
    let with_counts = |counts: [u64; 3]| complaint(&query(1), |outcome| outcome.counts = counts);
    let expected = Some("more tests than maximal parts of affirming models");
    assert_eq!(with_counts([9, 2, 0]), expected);
    let expected = Some("more stored than maximal parts of denying models");
    assert_eq!(with_counts([9, 1, 2]), expected);
    assert_eq!(with_counts([9, 1, 1]), None);
}

#[test]
fn a_part_stored_twice_and_more_than_there_are_places() {
    let mut query = query(3);
    query.sheet = Sheet::of(3, &[&[-1, -2]], &[1, 2, -3]).write();
    query.witness_length = 3;
    let twice = |outcome: &mut Outcome| outcome.store[GUARD + 1] = outcome.store[GUARD];
    assert_eq!(complaint(&query, |_| ()), None);
    assert_eq!(complaint(&query, twice), Some("a part is stored twice"));
    query.places = 1;
    let one_more = |outcome: &mut Outcome| outcome.counts[2] = 2;
    let expected = Some("more stored than places");
    assert_eq!(complaint(&query, one_more), expected);
}
