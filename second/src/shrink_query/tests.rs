use super::{shrink_query, Trial};
use crate::query::{Outcome, Query};
use crate::sheet::Sheet;

fn large() -> Query {
    Query {
        sheet: Sheet {
            n: 9,
            clauses: vec![vec![-1, -2], vec![3, 4, 5], vec![-7, 8], vec![-1, -9]],
            objectives: vec![5, 1, 2, -9, 7],
        }
        .write(),
        question: 9,
        allowance: u64::MAX,
        places: 40,
        witness_length: 70,
    }
}

fn shrunk(query: &Query, shows_the_fault: fn(&Query) -> bool) -> Query {
    shrink_query(query, &|smaller| Trial {
        shows_the_fault: shows_the_fault(smaller),
        work: 1,
    })
}

#[test]
fn every_number_comes_down() {
    let accepted = |query: &Query| Sheet::read(&query.sheet).is_ok();
    let smallest = Query {
        sheet: Sheet::of(1, &[], &[]).write(),
        question: 0,
        allowance: 0,
        places: 0,
        witness_length: 0,
    };
    assert_eq!(shrunk(&large(), accepted), smallest);
}

#[test]
fn what_is_needed_remains() {
    let stores_two = |query: &Query| Outcome::by_own_walk(query).counts[2] == 2;
    let smallest = shrunk(&large(), stores_two);
    let sheet = Sheet::read(&smallest.sheet).unwrap();
    assert_eq!((sheet.n, sheet.clauses.len()), (3, 1));
    assert_eq!(sheet.objectives.len(), 3);
    assert_eq!((smallest.places, smallest.witness_length), (2, 3));
    assert!(smallest.allowance <= 25);
    assert!(stores_two(&smallest));
}

#[test]
fn atoms_go_together_with_the_witness_buffer() {
    let mut query = large();
    query.witness_length = 8;
    let too_short = |query: &Query| Outcome::by_own_walk(query).code == 17;
    let smallest = shrunk(&query, too_short);
    assert_eq!(Sheet::read(&smallest.sheet), Ok(Sheet::of(1, &[], &[])));
    assert_eq!((smallest.question, smallest.witness_length), (1, 0));
}

#[test]
fn a_refused_sheet_stays_refused() {
    let mut query = large();
    query.sheet[32] = 200;
    let refused = |query: &Query| Outcome::by_own_walk(query).code == 13;
    let smallest = shrunk(&query, refused);
    assert_eq!(Sheet::read(&smallest.sheet), Err(13));
    assert!(smallest.sheet.len() <= 36);
    assert_eq!((smallest.question, smallest.allowance), (0, 0));
}

#[test]
fn work_is_bounded() {
    let calls = std::cell::Cell::new(0);
    let smaller = shrink_query(&large(), &|_| {
        calls.set(calls.get() + 1);
        Trial {
            shows_the_fault: false,
            work: 1_500_000_000,
        }
    });
    assert_eq!((smaller, calls.get()), (large(), 2));
}
