//! Clause and objective bytes at the edges of what is a literal, and repeated objectives.

use super::shape::{Shape, LARGEST};
use super::valid::{self, Spread};
use crate::draft::Draft;
use crate::random::Random;
use crate::sheet::MAX_OBJECTIVES;

pub fn in_a_clause(_index: u64, random: &mut Random) -> Vec<u8> {
    let mut draft = Draft::of(&valid::sheet_with_all_parts(random));
    let place = some_place(&draft.literals, random);
    draft.literals[place] = edge_byte(draft.sizes[0], random);
    draft.bytes()
}

pub fn in_an_objective(_index: u64, random: &mut Random) -> Vec<u8> {
    let mut draft = Draft::of(&valid::sheet_with_all_parts(random));
    let place = some_place(&draft.objectives, random);
    let other = draft.objectives[some_place(&draft.objectives, random)];
    draft.objectives[place] = match random.below(4) {
        0 => other,
        1 => other.wrapping_neg(),
        _ => edge_byte(draft.sizes[0], random),
    };
    draft.bytes()
}

/// Every pair of positions among 64 objectives in turn, the later a copy of the earlier.
pub fn repeated_objective(index: u64, random: &mut Random) -> Vec<u8> {
    let positions = MAX_OBJECTIVES as usize;
    let (earlier, later) = pair(index, positions);
    let shape = match random.one_in(100) {
        true => LARGEST,
        false => Shape {
            m: random.between(0, 2),
            literals: 0,
            ..LARGEST
        },
    };
    let mut draft = Draft::of(&valid::filled(shape, Spread::Scattered, random));
    draft.objectives[later] = draft.objectives[earlier];
    draft.bytes()
}

fn pair(index: u64, positions: usize) -> (usize, usize) {
    let pairs = positions * (positions - 1) / 2;
    let mut rest = index as usize % pairs;
    let mut later = 1;
    while rest >= later {
        rest -= later;
        later += 1;
    }
    (rest, later)
}

/// First and last more often: loops go wrong there.
fn some_place(bytes: &[u8], random: &mut Random) -> usize {
    match random.below(4) {
        0 => 0,
        1 => bytes.len() - 1,
        _ => random.place_in(bytes.len()),
    }
}

/// The last literals n and 256 - n, and bytes that are none: their neighbours, 0 and 128.
fn edge_byte(n: u32, random: &mut Random) -> u8 {
    let n = n as u8;
    random.pick(&[n, n.wrapping_neg(), n + 1, 255 - n, 0, 128, 127, 129])
}
