//! What the families promise about their queries, by the own walk.

use super::{document, QueryFamily, ALL};
use crate::meaning::MOST_ATOMS;
use crate::query::{Outcome, Query};
use crate::sheet::Sheet;
use crate::walk::walk;
use std::collections::HashSet;

const SEED: u64 = 3;

fn family(name: &str) -> &'static QueryFamily {
    ALL.iter()
        .find(|family| family.name == name)
        .expect("a family of this name")
}

fn queries(name: &str, count: u64) -> impl Iterator<Item = Query> {
    let family = family(name);
    (0..count).map(move |index| family.query(SEED, index))
}

#[test]
fn families_have_names_of_their_own() {
    let names: HashSet<&str> = ALL.iter().map(|family| family.name).collect();
    assert_eq!(names.len(), ALL.len());
}

#[test]
fn small_sheets_have_all_that_is_allowed() {
    let sheets: Vec<Sheet> = queries("small sheets", 3_000)
        .map(|query| Sheet::read(&query.sheet).expect("accepted"))
        .collect();
    let some = |wanted: fn(&Sheet) -> bool| sheets.iter().any(wanted);
    assert!(some(|sheet| sheet.n == 1) && some(|sheet| sheet.n == MOST_ATOMS));
    assert!(some(|sheet| sheet.clauses.is_empty()));
    assert!(some(|sheet| sheet.clauses.len() == 14));
    assert!(some(|sheet| sheet.objectives.is_empty()));
    assert!(some(|sheet| sheet.objectives.len() == 8));
    assert!(some(|sheet| sheet.clauses.iter().any(Vec::is_empty)));
    let in_a_clause = |wanted: fn(&[i8]) -> bool| {
        let mut clauses = sheets.iter().flat_map(|sheet| &sheet.clauses);
        clauses.any(|clause| clause.windows(2).any(wanted))
    };
    assert!(in_a_clause(|pair| pair[0] == pair[1]));
    assert!(in_a_clause(|pair| pair[0] == -pair[1]));
    assert!(some(|sheet| sheet
        .objectives
        .iter()
        .any(|objective| sheet.objectives.contains(&-objective))));
}

#[test]
fn small_sheets_ask_for_much() {
    let outcomes: Vec<Outcome> = queries("small sheets", 2_000)
        .map(|query| Outcome::by_own_walk(&query))
        .collect();
    let times = |wanted: fn(&Outcome) -> bool| {
        let found = outcomes.iter().filter(|outcome| wanted(outcome));
        found.count()
    };
    assert!(times(|outcome| outcome.code == 1) > 600);
    assert!(times(|outcome| outcome.code == 2) > 600);
    assert!(times(|outcome| outcome.counts[1] > 1) > 200);
    assert!(times(|outcome| outcome.counts[2] > 1) > 150);
    assert!(times(|outcome| outcome.counts[2] > 3) > 10);
}

#[test]
fn tiny_sheets_are_all_different() {
    let family = family("every tiny sheet");
    let different: HashSet<(Vec<u8>, u8)> = queries(family.name, family.queries)
        .map(|query| (query.sheet, query.question))
        .collect();
    // A sheet with one clause comes twice, as either of the two may be left out.
    let twice = 15 * 65 * 4;
    assert_eq!(different.len() as u64, family.queries - twice);
}

#[test]
fn every_bound_of_sheets_a_to_f_is_tried() {
    let family = family("A to F, every bound");
    let mut bounds = HashSet::new();
    for query in queries(family.name, family.queries) {
        bounds.insert(format!("{query:?}"));
    }
    assert_eq!(bounds.len() as u64, family.queries);
    for sheet in document::sheets() {
        for atom in 1..=sheet.n as i8 {
            for question in [atom, -atom] {
                let walked = walk(&sheet, question, u64::MAX, 9);
                assert!(walked.steps <= 24 && walked.stored.len() <= 1);
            }
        }
    }
}

#[test]
fn allowances_lie_around_the_length_of_the_walk() {
    let mut seen = HashSet::new();
    for query in queries("allowances", 2_000) {
        let (sheet, question) = query.checked().expect("past the checks");
        let steps = walk(&sheet, question, u64::MAX, query.places).steps;
        seen.insert(i128::from(query.allowance) - i128::from(steps));
    }
    assert!([-1, 0, 1].iter().all(|distance| seen.contains(distance)));
    assert!(seen.iter().any(|&distance| distance < -20));
    assert!(seen.iter().any(|&distance| distance > 1 << 62));
}

#[test]
fn damaged_sheets_reach_every_refusal() {
    let codes: HashSet<u8> = queries("damaged sheets", 2_000)
        .map(|query| Outcome::by_own_walk(&query).code)
        .collect();
    assert!((10..=17).all(|code| codes.contains(&code)));
}

#[test]
fn large_sheets_are_accepted_and_reach_the_longest() {
    let mut longest = 0;
    for query in queries("large sheets", 100) {
        let (sheet, _) = query.checked().expect("past the checks");
        assert!(sheet.n > MOST_ATOMS);
        longest = longest.max(query.sheet.len());
    }
    assert_eq!(longest, 12_384);
}
