//! Sheets of document 01 with what was worked by hand, and inputs that are refused or cut.

use super::printed_for;
use crate::queries::document;
use crate::sheet::Sheet;
use std::io::{repeat, Read};

fn printed(bytes: &[u8]) -> String {
    printed_for(bytes).expect("reading from memory does not fail")
}

fn printed_sheets() -> [String; 6] {
    document::sheets().map(|sheet| printed(&sheet.write()))
}

#[test]
fn sheet_a_is_printed_as_in_the_document() {
    let [a, ..] = printed_sheets();
    let expected = "\
sheet 3 2 3
1 1 yes 11 1 0
2 2 yes 10 1 0
3 3 yes 24 2 1
";
    assert_eq!(a, expected);
}

#[test]
fn sheets_b_c_and_e_are_printed_as_worked_by_hand() {
    let [_, b, c, _, e, _] = printed_sheets();
    assert_eq!(b, "sheet 2 1 2\n1 1 yes 7 1 0\n2 2 no 9 1 1\n");
    assert_eq!(c, "sheet 2 0 1\n1 1 no 8 1 1\n");
    assert_eq!(e, "sheet 3 1 2\n1 1 yes 8 1 0\n2 2 no 12 1 1\n");
}

#[test]
fn without_objectives_the_sizes_stand_alone() {
    let [_, _, _, d, _, f] = printed_sheets();
    assert_eq!(d, "sheet 1 0 0\n");
    assert_eq!(f, "sheet 1 1 0\n");
}

#[test]
fn objectives_are_printed_with_their_sign() {
    let sheet = Sheet::of(2, &[&[1]], &[-1, 2]);
    let printed = printed(&sheet.write());
    let literals: Vec<&str> = printed
        .lines()
        .skip(1)
        .filter_map(|line| line.split(' ').nth(1))
        .collect();
    assert_eq!(literals, ["-1", "2"]);
}

#[test]
fn refused_inputs_print_one_line() {
    let [_, b, ..] = document::sheets();
    assert_eq!(printed(&[]), "refused 10\n");
    assert_eq!(printed(&b.write()[..38]), "refused 12\n");
    assert_eq!(printed(&[0; 32]), "refused 11\n");
}

#[test]
fn an_input_without_end_is_read_as_far_as_shows_that_it_is_too_long() {
    let [a, ..] = document::sheets();
    let bytes = a.write();
    let endless = bytes.as_slice().chain(repeat(1));
    assert_eq!(printed_for(endless).unwrap(), "refused 12\n");
}

/// All but the first denying part are passed over, each after its own visits.
#[test]
fn a_question_that_is_cut_prints_its_code() {
    let sheet = Sheet::of(30, &[], &[1]);
    let expected = "sheet 30 0 1\n1 1 18 1000000 1 1\n";
    assert_eq!(printed(&sheet.write()), expected);
}
