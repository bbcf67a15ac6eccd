//! What the families promise about their sheets, by the own reader.

use super::{fault_pairs, valid, Family, ALL};
use crate::random::Random;
use crate::refusal;
use crate::sheet::Sheet;
use std::collections::HashSet;

const SEED: u64 = 3;

fn family(name: &str) -> &'static Family {
    ALL.iter()
        .find(|family| family.name == name)
        .expect("a family of this name")
}

#[test]
fn valid_sheets_are_accepted_as_they_were_meant() {
    for index in 0..2_000 {
        let sheet = valid::sheet(&mut Random::from_seed(index));
        assert_eq!(Sheet::read(&sheet.write()), Ok(sheet));
    }
}

#[test]
fn limits_are_accepted_and_reach_the_longest_sheet() {
    let limits = family("valid at the limits");
    let lengths: HashSet<usize> = (0..720)
        .map(|index| {
            let bytes = limits.sheet(SEED, index);
            assert!(Sheet::read(&bytes).is_ok(), "sheet {index}");
            bytes.len()
        })
        .collect();
    assert_eq!(lengths.iter().max(), Some(&12_384));
    assert_eq!(lengths.iter().min(), Some(&32));
}

#[test]
fn valid_sheets_have_all_that_is_allowed() {
    let sheets: Vec<Sheet> = (0..3_000)
        .map(|index| valid::sheet(&mut Random::from_seed(index)))
        .collect();
    let some = |wanted: fn(&Sheet) -> bool| sheets.iter().any(wanted);
    assert!(some(|sheet| sheet.clauses.is_empty()));
    assert!(some(|sheet| sheet.objectives.is_empty()));
    assert!(some(|sheet| sheet.clauses.iter().any(Vec::is_empty)));
    assert!(some(|sheet| sheet
        .clauses
        .iter()
        .any(|c| c.len() > 1 && c[0] == c[1])));
    assert!(some(|sheet| sheet
        .objectives
        .iter()
        .any(|o| sheet.objectives.contains(&-o))));
    assert!(some(|sheet| sheet.write().len() == 12_384));
}

#[test]
fn every_ordered_pair_of_codes_has_its_turn() {
    let pairs: HashSet<(u8, u8)> = (0..30).map(fault_pairs::codes).collect();
    assert_eq!(pairs.len(), 30);
    assert!(pairs.iter().all(|(first, second)| first != second));
}

#[test]
fn of_two_faults_the_earlier_check_answers() {
    let pairs = family("pairs of faults");
    for index in 0..9_000 {
        let (first, second) = fault_pairs::codes(index);
        let answer = Sheet::read(&pairs.sheet(SEED, index));
        assert_eq!(
            answer,
            Err(first.min(second)),
            "{first}, {second}, sheet {index}"
        );
    }
}

#[test]
fn repeated_objectives_are_refused() {
    let repeated = family("repeated objectives");
    for index in 0..2_016 {
        let answer = Sheet::read(&repeated.sheet(SEED, index));
        assert_eq!(answer, Err(refusal::OBJECTIVE_BYTE), "sheet {index}");
    }
}

#[test]
fn sizes_that_wrap_are_never_accepted() {
    let wrapping = family("sizes that wrap");
    for index in 0..2_000 {
        assert!(
            Sheet::read(&wrapping.sheet(SEED, index)).is_err(),
            "sheet {index}"
        );
    }
}

#[test]
fn families_have_names_of_their_own() {
    let names: HashSet<&str> = ALL.iter().map(|family| family.name).collect();
    assert_eq!(names.len(), ALL.len());
}

#[test]
fn every_family_has_a_large_sheet_unless_it_goes_through_small_cases() {
    for family in &ALL {
        let systematic = family.name.starts_with("every");
        let large = (0..3_000).any(|index| family.sheet(SEED, index).len() > 5_000);
        assert_eq!(large, !systematic, "{}", family.name);
    }
}
