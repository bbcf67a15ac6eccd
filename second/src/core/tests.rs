//! The core from Rust: an ordinary call of either function, and slices without anything in them.

use super::{check, query};
use crate::queries::document;

#[test]
fn an_accepted_sheet_tells_its_sizes() {
    let [a, ..] = document::sheets();
    let mut sizes = [0; 3];
    assert_eq!(check(&a.write(), &mut sizes), 0);
    assert_eq!(sizes, [3, 2, 3]);
}

#[test]
fn a_yes_comes_with_its_model_and_the_parts_stored() {
    let [a, ..] = document::sheets();
    let (mut store, mut witness, mut counts) = ([0; 4], [0; 3], [0; 3]);
    let code = query(
        &a.write(),
        (-3i8) as u8,
        100,
        &mut store,
        &mut witness,
        &mut counts,
    );
    assert_eq!((code, counts), (1, [24, 2, 1]));
    assert_eq!(witness, [0, 1, 0]);
    assert_eq!(store, [0b101, 0, 0, 0]);
}

#[test]
fn an_empty_sheet_is_refused_and_the_counts_are_0() {
    let (mut sizes, mut counts) = ([7; 3], [7; 3]);
    assert_eq!(check(&[], &mut sizes), 10);
    assert_eq!(sizes, [7; 3]);
    assert_eq!(query(&[], 1, 9, &mut [], &mut [], &mut counts), 10);
    assert_eq!(counts, [0; 3]);
}

#[test]
fn empty_buffers_are_answered_as_any_other_length() {
    let [_, b, ..] = document::sheets();
    let mut counts = [7; 3];
    let code = query(&b.write(), 2, 9, &mut [], &mut [], &mut counts);
    assert_eq!((code, counts), (17, [0; 3]));
    let mut witness = [7; 2];
    let code = query(&b.write(), 254, 9, &mut [], &mut witness, &mut counts);
    assert_eq!((code, counts), (19, [9, 1, 0]));
    assert_eq!(witness, [7; 2]);
}
