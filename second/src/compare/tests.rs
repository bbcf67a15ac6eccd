//! The comparison with a function in the place of the core.

use super::{compare, Comparison};
use crate::check::{CheckAnswer, ANSWERS};
use crate::families::{Family, ALL};

const SHEETS: u64 = 300;

fn family(name: &str) -> &'static Family {
    ALL.iter()
        .find(|family| family.name == name)
        .expect("a family of this name")
}

fn pairs_of_faults_against(core: fn(&[u8]) -> CheckAnswer) -> Comparison {
    compare(family("pairs of faults"), 1, SHEETS, core)
}

#[test]
fn equal_answers_are_no_difference() {
    let comparison = pairs_of_faults_against(CheckAnswer::by_own_reader);
    assert_eq!(comparison.differences, 0);
    assert!(comparison.first.is_none());
}

#[test]
fn every_sheet_is_counted_under_its_answer() {
    let comparison = pairs_of_faults_against(CheckAnswer::by_own_reader);
    let counted: Vec<(u8, u64)> = comparison.counts.by_code().collect();
    let pairs_led_by = |later_codes: u64| SHEETS * 2 * later_codes / 30;
    let expected = [0, 5, 4, 3, 2, 1, 0].map(pairs_led_by);
    assert_eq!(
        counted,
        ANSWERS.into_iter().zip(expected).collect::<Vec<_>>()
    );
}

#[test]
fn exchanged_checks_are_found_and_shrunk() {
    let comparison = pairs_of_faults_against(|bytes| {
        let mut answer = CheckAnswer::by_own_reader(bytes);
        answer.code = if answer.code == 13 { 14 } else { answer.code };
        answer
    });
    let difference = comparison
        .first
        .expect("sheets with code 13 are among them");
    assert_eq!(CheckAnswer::by_own_reader(&difference.found).code, 13);
    assert_eq!(CheckAnswer::by_own_reader(&difference.shrunk).code, 13);
    assert!(difference.shrunk.len() <= 36);
}

#[test]
fn refusal_that_writes_the_sizes_is_found() {
    let comparison = pairs_of_faults_against(|bytes| {
        let mut answer = CheckAnswer::by_own_reader(bytes);
        answer.sizes = [0; 3];
        answer
    });
    assert_eq!(comparison.differences, SHEETS);
}
