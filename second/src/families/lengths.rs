//! Valid sheets cut short or made longer.

use super::valid;
use crate::draft::Draft;
use crate::random::Random;

const LONGEST_SHEET: u32 = 12_384;
const LONGEST_TRIED: u32 = 100_000;

/// Lengths 0 to 40 in turn, and those within eight bytes of where a section ends.
pub fn near_a_boundary(index: u64, random: &mut Random) -> Vec<u8> {
    const SMALL: u64 = 41;
    const AROUND: u64 = 17;
    let draft = Draft::of(&valid::sheet(random));
    let case = index % (SMALL + 3 * AROUND);
    let length = match case.checked_sub(SMALL) {
        None => case as usize,
        Some(rest) => {
            let [_, ends, literals, objectives] = draft.sections();
            let boundaries = [ends.end, literals.end, objectives.end];
            let boundary = boundaries[(rest / AROUND) as usize];
            boundary + (rest % AROUND) as usize - 8
        }
    };
    resized(draft, length, random)
}

/// Also by a multiple of 2^8 or 2^16, which a length kept in too few bits would not show.
pub fn far_above(index: u64, random: &mut Random) -> Vec<u8> {
    let draft = Draft::of(&valid::sheet(random));
    let total = draft.words()[7];
    let length = match index % 4 {
        0 => LONGEST_SHEET + random.below(4),
        1 => total + 256 * random.between(1, 255),
        2 => total + 65_536,
        _ => random.between(LONGEST_SHEET, LONGEST_TRIED),
    };
    resized(draft, length as usize, random)
}

/// Half of the time word 7 is the new length, so that only the sizes speak against it.
fn resized(mut draft: Draft, length: usize, random: &mut Random) -> Vec<u8> {
    if random.one_in(2) {
        let total = draft.words()[7];
        draft.slips[3] = (length as u32).wrapping_sub(total);
    }
    let mut bytes = draft.bytes();
    bytes.resize(length, random.pick(&[0, 1, 255]));
    bytes
}
