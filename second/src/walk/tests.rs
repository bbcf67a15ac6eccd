//! The walk on the twelve cases of document 01, all columns, and on corners of its own.

use super::{branch_order, walk, Walked};
use crate::code;
use crate::queries::document;
use crate::query::{Outcome, GUARD};
use crate::random::Random;
use crate::sheet::Sheet;

/// Code, witness, counts, store.
type Row = (u8, &'static [u8], [u64; 3], &'static [u64]);

const ROWS: [Row; 12] = [
    (1, &[0, 1, 0], [11, 1, 0], &[]),
    (1, &[1, 0, 1], [10, 1, 0], &[]),
    (1, &[0, 1, 0], [24, 2, 1], &[5]),
    (1, &[0, 1, 0], [15, 1, 0], &[]),
    (2, &[], [9, 1, 1], &[2]),
    (18, &[], [8, 1, 0], &[]),
    (19, &[], [9, 1, 0], &[]),
    (1, &[1, 0], [9, 1, 0], &[]),
    (1, &[0], [6, 1, 0], &[]),
    (2, &[], [12, 1, 1], &[2]),
    (2, &[], [1, 0, 0], &[]),
    (16, &[], [0, 0, 0], &[]),
];

#[test]
fn the_twelve_cases_are_as_in_the_table() {
    for (index, (code, witness, counts, store)) in ROWS.into_iter().enumerate() {
        let query = document::case(index as u64, &mut Random::from_seed(0));
        let outcome = Outcome::by_own_walk(&query);
        let mut expected = Outcome::untouched(&query);
        expected.code = code;
        expected.counts = counts;
        expected.store[GUARD..][..store.len()].copy_from_slice(store);
        expected.witness[GUARD..][..witness.len()].copy_from_slice(witness);
        assert_eq!(outcome, expected, "case {}", index + 1);
    }
}

fn whole(sheet: &Sheet, question: i8) -> Walked {
    walk(sheet, question, u64::MAX, usize::MAX)
}

#[test]
fn atoms_of_objectives_come_first_with_the_value_that_satisfies() {
    let sheet = Sheet::of(5, &[], &[-4, 2, 4, -2]);
    assert_eq!(branch_order(&sheet), [-4, 2, 1, 3, 5]);
}

/// Six visits to the first candidate and five in its test, four and seven for the second,
/// three more to the end.
#[test]
fn two_tests_and_two_stored_parts() {
    let sheet = Sheet::of(3, &[&[-1, -2]], &[1, 2, -3]);
    let walked = whole(&sheet, 3);
    assert_eq!(
        walked,
        Walked {
            code: code::NO,
            steps: 25,
            tests: 2,
            stored: vec![0b101, 0b110],
            witness: None,
        }
    );
}

#[test]
fn a_cut_at_any_step_keeps_what_was_done() {
    let sheet = Sheet::of(3, &[&[-1, -2]], &[1, 2, -3]);
    for allowance in 0..25 {
        let walked = walk(&sheet, 3, allowance, 9);
        assert_eq!(walked.code, code::ALLOWANCE_SPENT);
        assert_eq!(walked.steps, allowance);
        assert!(walked.stored.len() as u64 <= walked.tests);
        assert!([0b101, 0b110].starts_with(&walked.stored));
    }
    assert_eq!(walk(&sheet, 3, 25, 9), whole(&sheet, 3));
}

#[test]
fn a_full_store_is_seen_only_when_a_part_is_found() {
    let sheet = Sheet::of(3, &[&[-1, -2]], &[1, 2, -3]);
    let codes = [0, 1, 2].map(|places| walk(&sheet, 3, u64::MAX, places).code);
    assert_eq!(codes, [code::STORE_FULL, code::STORE_FULL, code::NO]);
    assert_eq!(walk(&sheet, -3, u64::MAX, 0).code, code::YES);
}

#[test]
fn an_always_true_clause_closes_nothing_and_an_empty_one_the_root() {
    let always_true = Sheet::of(1, &[&[1, -1]], &[]);
    assert_eq!(whole(&always_true, 1), whole(&Sheet::of(1, &[], &[]), 1));
    let empty = Sheet::of(2, &[&[1], &[]], &[1, 2]);
    assert_eq!(whole(&empty, 1).steps, 1);
}
