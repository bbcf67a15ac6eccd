//! Models, parts and order on sheets of document 01, worked by hand.

use super::Meaning;
use crate::queries::document;
use crate::sheet::Sheet;

fn first(sheet: &Sheet, question: i8) -> Option<Vec<u8>> {
    let meaning = Meaning::of(sheet, question);
    let model = meaning.first_optimal_affirming()?;
    Some(meaning.witness(model))
}

fn parts(sheet: &Sheet, question: i8) -> (u64, u64) {
    let meaning = Meaning::of(sheet, question);
    (meaning.affirming_parts(), meaning.denying_parts())
}

#[test]
fn sheet_a_has_two_optimal_models() {
    let [a, ..] = document::sheets();
    assert_eq!(first(&a, 1), Some(vec![1, 0, 1]));
    assert_eq!(first(&a, 2), Some(vec![0, 1, 0]));
    assert_eq!(first(&a, 3), Some(vec![1, 0, 1]));
    assert_eq!(first(&a, -1), Some(vec![0, 1, 0]));
    assert_eq!(first(&a, -2), Some(vec![1, 0, 1]));
    assert_eq!(first(&a, -3), Some(vec![0, 1, 0]));
    // Without atom 3, the parts {1} and {2} are maximal; with it, {1, 3}.
    assert_eq!(parts(&a, -3), (2, 1));
}

#[test]
fn sheet_a_has_five_models() {
    let [a, ..] = document::sheets();
    let meaning = Meaning::of(&a, 1);
    let values = [[1, 0, 1], [1, 0, 0], [0, 1, 0], [0, 0, 1], [0, 0, 0]];
    assert_eq!(meaning.models.len(), values.len());
    let optimal = values.map(|values| meaning.is_optimal(meaning.model(&values).unwrap()));
    assert_eq!(optimal, [true, false, true, false, false]);
    assert_eq!(meaning.model(&[1, 1, 0]), None);
    assert_eq!(meaning.model(&[1, 0, 2]), None);
}

#[test]
fn sheet_b_leaves_one_optimal_model() {
    let [_, b, ..] = document::sheets();
    assert_eq!(first(&b, 2), Some(vec![0, 1]));
    assert_eq!(first(&b, -1), Some(vec![0, 1]));
    assert_eq!(first(&b, -2), None);
    assert_eq!(first(&b, 1), None);
    assert_eq!(parts(&b, -2), (1, 1));
    assert_eq!(parts(&b, 1), (0, 1));
}

#[test]
fn sheet_c_has_two_optimal_models_with_one_part() {
    let [_, _, c, ..] = document::sheets();
    assert_eq!(first(&c, 1), Some(vec![1, 1]));
    assert_eq!(first(&c, -2), Some(vec![1, 0]));
    assert_eq!(first(&c, -1), None);
    assert_eq!(parts(&c, -2), (1, 1));
}

#[test]
fn sheet_e_has_an_atom_apart() {
    let [_, _, _, _, e, _] = document::sheets();
    assert_eq!(first(&e, 2), Some(vec![0, 1, 1]));
    assert_eq!(first(&e, -3), Some(vec![0, 1, 0]));
    assert_eq!(first(&e, -2), None);
    assert_eq!(parts(&e, -2), (1, 1));
}

#[test]
fn parts_come_before_atoms_in_reading_order() {
    let sheet = Sheet::of(3, &[&[-2, -3]], &[3, -3, 2]);
    assert_eq!(first(&sheet, 1), Some(vec![1, 0, 1]));
    assert_eq!(first(&sheet, 2), Some(vec![1, 1, 0]));
}

#[test]
fn without_a_model_nothing_is_optimal_or_maximal() {
    let sheet = Sheet::of(2, &[&[1], &[-1]], &[2]);
    assert_eq!(first(&sheet, 2), None);
    assert_eq!(parts(&sheet, 2), (0, 0));
}
