//! Sizes out of range with offsets that follow from them modulo 2^32,
//! so that a reader whose sums wrap would be seen.

use super::mutations::changed_word;
use super::valid;
use crate::draft::Draft;
use crate::random::Random;
use crate::sheet::{
    HEADER_BYTES, MAX_ATOMS, MAX_CLAUSES, MAX_LITERALS, MAX_OBJECTIVES, WORD_BYTES,
};

/// n, m, k, L in the order of the header.
const LIMITS: [u32; 4] = [MAX_ATOMS, MAX_CLAUSES, MAX_OBJECTIVES, MAX_LITERALS];
const LONGEST_TRIED: u32 = 100_000;

/// All combinations of 0, limit, limit + 1 and 2^32 - 1 in words 0 to 3,
/// with the matching length, the header alone, and another length.
pub fn corners(index: u64, random: &mut Random) -> Vec<u8> {
    let mut rest = index as usize;
    let sizes = LIMITS.map(|limit| {
        let choice = rest % 4;
        rest /= 4;
        [limit, 0, limit + 1, u32::MAX][choice]
    });
    let draft = body_for(sizes);
    match rest % 3 {
        0 => with_matching_length(&draft),
        1 => draft.bytes()[..HEADER_BYTES].to_vec(),
        _ => {
            let mut bytes = draft.bytes();
            let length = random.between(0, 2 * bytes.len() as u32) as usize;
            bytes.resize(length, 1);
            bytes
        }
    }
}

/// As sound a body as the sizes allow, so that nothing but a size is wrong.
fn body_for(sizes: [u32; 4]) -> Draft {
    let [_, m, k, l] = sizes;
    let part = |size: u32, limit: u32| if size <= limit + 1 { size } else { 0 };
    let ends = part(m, MAX_CLAUSES);
    let distinct = (1..=33u8).flat_map(|atom| [atom, atom.wrapping_neg()]);
    Draft {
        sizes,
        slips: [0; 4],
        ends: vec![l; ends as usize],
        literals: vec![1; part(l, MAX_LITERALS) as usize],
        objectives: distinct.take(part(k, MAX_OBJECTIVES) as usize).collect(),
        tail: Vec::new(),
    }
}

fn with_matching_length(draft: &Draft) -> Vec<u8> {
    let mut bytes = draft.bytes();
    let total = draft.words()[7];
    if total <= LONGEST_TRIED {
        bytes.resize(total as usize, 1);
    }
    bytes
}

/// One size is changed and the offsets go with it; the body stays as it was.
pub fn one_size_with_offsets(_index: u64, random: &mut Random) -> Vec<u8> {
    let mut draft = Draft::of(&valid::sheet(random));
    let size = random.place_in(4);
    draft.sizes[size] = match random.one_in(2) {
        true => changed_word(draft.sizes[size], LIMITS[size], random),
        false => random.between(0, LIMITS[size] + 3),
    };
    match random.one_in(2) {
        true => with_matching_length(&draft),
        false => draft.bytes(),
    }
}

/// Sizes far out of range whose offsets come round to small numbers.
pub fn sizes_that_wrap(_index: u64, random: &mut Random) -> Vec<u8> {
    let mut draft = Draft::of(&valid::sheet_with_all_parts(random));
    let [_, m, k, l] = draft.sizes;
    match random.below(5) {
        0 => draft.sizes[1] = m + (random.between(1, 3) << 30),
        1 => draft.sizes[3] = (4 * m).wrapping_neg(),
        2 => draft.sizes[2] = (4 * m + l).wrapping_neg(),
        3 => draft.sizes[3] = random.between(1, 32 + 4 * m).wrapping_neg(),
        _ => draft.sizes[1] = (random.between(1, l + k) / 4).wrapping_neg(),
    }
    match random.one_in(4) {
        true => draft.bytes(),
        false => with_matching_length(&draft),
    }
}

/// A word plus a multiple of 2^8: a reader that keeps too few bits would not see it.
pub fn upper_byte_of_a_word(_index: u64, random: &mut Random) -> Vec<u8> {
    let draft = Draft::of(&valid::sheet(random));
    let mut bytes = draft.bytes();
    let words = match random.one_in(2) {
        true => 8,
        false => 8 + draft.ends.len(),
    };
    let place = WORD_BYTES * random.place_in(words) + random.between(1, 3) as usize;
    bytes[place] = bytes[place].wrapping_add(random.pick(&[1, 2, 127, 128, 255]));
    bytes
}
