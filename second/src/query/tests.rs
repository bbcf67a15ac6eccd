//! The checks before the walk, and what of the buffers is written.

use super::{Outcome, Query, GUARD};
use crate::sheet::Sheet;

/// Sheet B with what case 5 of document 01 asks.
fn query() -> Query {
    Query {
        sheet: Sheet::of(2, &[&[-1]], &[1, 2]).write(),
        question: 254,
        allowance: 9,
        places: 3,
        witness_length: 4,
    }
}

fn code(change: impl Fn(&mut Query)) -> u8 {
    let mut query = query();
    change(&mut query);
    Outcome::by_own_walk(&query).code
}

#[test]
fn checks_go_in_the_order_of_the_table() {
    let short = |query: &mut Query| query.witness_length = 1;
    let no_literal = |query: &mut Query| query.question = 128;
    assert_eq!(code(|_| ()), 2);
    assert_eq!(code(short), 17);
    assert_eq!(code(no_literal), 16);
    let both = |query: &mut Query| {
        short(query);
        no_literal(query);
    };
    assert_eq!(code(both), 16);
    let with_repeated_objective = |query: &mut Query| {
        both(query);
        query.sheet[38] = 1;
    };
    assert_eq!(code(with_repeated_objective), 15);
    let no_steps = |query: &mut Query| query.allowance = 0;
    assert_eq!(code(no_steps), 18);
}

#[test]
fn bytes_that_are_no_literals_are_16() {
    for question in [0, 3, 127, 128, 129, 253] {
        assert_eq!(code(|query| query.question = question), 16);
    }
}

#[test]
fn refusals_write_counts_alone() {
    let mut refused = query();
    refused.question = 0;
    let mut expected = Outcome::untouched(&refused);
    expected.code = 16;
    expected.counts = [0, 0, 0];
    assert_eq!(Outcome::by_own_walk(&refused), expected);
}

#[test]
fn only_stored_places_and_n_bytes_are_written() {
    let untouched = Outcome::untouched(&query());
    let no = Outcome::by_own_walk(&query());
    assert_eq!(no.store[GUARD], 2);
    assert_eq!(no.store[GUARD + 1..], untouched.store[GUARD + 1..]);
    assert_eq!(no.witness, untouched.witness);
    let asked_for_2 = Query {
        question: 2,
        allowance: 100,
        ..query()
    };
    let yes = Outcome::by_own_walk(&asked_for_2);
    assert_eq!(yes.witness[GUARD..][..2], [0, 1]);
    assert_eq!(yes.witness[GUARD + 2..], untouched.witness[GUARD + 2..]);
    assert_eq!(yes.store, untouched.store);
}

#[test]
fn outcomes_are_readable() {
    let mut outcome = Outcome::by_own_walk(&query());
    let shown = "code 2, counts 9 1 1, store [2 . .], witness [. . . .]";
    assert_eq!(outcome.to_string(), shown);
    outcome.store[GUARD + 3] = 7;
    outcome.code = 1;
    let shown = "code 1, counts 9 1 1, store [. . | 2 . . | 7 .], witness [. . . .]";
    assert_eq!(outcome.to_string(), shown);
    let untouched = Outcome::untouched(&query()).to_string();
    assert!(untouched.starts_with("code 0, counts untouched, "));
}

#[test]
fn long_runs_are_counted() {
    let long = Query {
        places: 40,
        ..query()
    };
    let outcome = Outcome::by_own_walk(&long);
    let shown = "code 2, counts 9 1 1, store [2 39 untouched], witness [. . . .]";
    assert_eq!(outcome.to_string(), shown);
}
