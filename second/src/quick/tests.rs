//! The quick walk beside the plain one, at every kind of bound.

use super::{walk, Walked};
use crate::containment::{ByPositions, OnWords};
use crate::queries::{self, document};
use crate::query::Query;
use crate::random::Random;
use crate::sheet::Sheet;
use crate::walk::walk as plain_walk;
use std::collections::HashSet;

const SEED: u64 = 11;
const QUERIES: u64 = 10_000;

/// In places that no part is stored in.
const UNTOUCHED: u64 = 0xF9C5_A3E1_9B0D_7700;

/// Gives the code of both.
fn assert_same_walk(sheet: &Sheet, question: i8, allowance: u64, places: usize) -> u8 {
    let plain = plain_walk(sheet, question, allowance, places);
    let expected = Walked {
        code: plain.code,
        steps: plain.steps,
        tests: plain.tests,
        stored: plain.stored.len(),
        witness: plain.witness.as_deref().map(true_atoms),
    };
    let mut expected_store = plain.stored;
    expected_store.resize(places, UNTOUCHED);
    for walk in [walk::<ByPositions>, walk::<OnWords>] {
        let mut store = vec![UNTOUCHED; places];
        let quick = walk(sheet, question, allowance, &mut store);
        assert_eq!(quick, expected, "{sheet:?}, {question}");
        assert_eq!(store, expected_store, "{sheet:?}, {question}");
    }
    plain.code
}

fn true_atoms(values: &[bool]) -> u64 {
    let atoms = values.iter().enumerate();
    atoms.fold(0, |atoms, (place, &value)| {
        atoms | u64::from(value) << place
    })
}

/// With the query's own bounds, and with those that cut its walk short or just do not.
fn assert_same_walks(query: &Query) -> Vec<u8> {
    let Ok((sheet, question)) = query.checked() else {
        return Vec::new();
    };
    let whole = plain_walk(&sheet, question, query.allowance, query.places);
    let (steps, stored) = (whole.steps, whole.stored.len());
    let before_the_end = steps.saturating_sub(1);
    let mut codes = Vec::new();
    for allowance in [query.allowance, 0, 1, steps / 2, before_the_end, steps] {
        codes.push(assert_same_walk(&sheet, question, allowance, query.places));
    }
    for places in [0, stored / 2, stored.saturating_sub(1), stored] {
        codes.push(assert_same_walk(&sheet, question, query.allowance, places));
        codes.push(assert_same_walk(&sheet, question, before_the_end, places));
    }
    codes
}

#[test]
fn every_family_of_queries_has_the_same_walks() {
    let mut codes = HashSet::new();
    for family in &queries::ALL {
        for index in 0..family.part_of(QUERIES) {
            codes.extend(assert_same_walks(&family.query(SEED, index)));
        }
    }
    assert_eq!(codes, HashSet::from([1, 2, 18, 19]));
}

#[test]
fn the_twelve_cases_have_the_same_walks() {
    for index in 0..12 {
        assert_same_walks(&document::case(index, &mut Random::from_seed(0)));
    }
}

#[test]
fn sheets_a_to_f_have_the_same_walks_at_every_allowance() {
    for sheet in document::sheets() {
        for atom in 1..=sheet.n as i8 {
            for question in [atom, -atom] {
                for (allowance, places) in (0..32).flat_map(|a| (0..3).map(move |p| (a, p))) {
                    assert_same_walk(&sheet, question, allowance, places);
                }
            }
        }
    }
}

#[test]
fn sixty_four_atoms_fill_both_words() {
    let sheet = Sheet {
        n: 64,
        clauses: (1..=64).map(|atom| vec![atom, -atom]).collect(),
        objectives: (1..=64)
            .map(|atom| if atom % 2 == 0 { atom } else { -atom })
            .collect(),
    };
    for question in [64, -64, 1, -1] {
        assert_same_walk(&sheet, question, 2_000, 3);
    }
}
