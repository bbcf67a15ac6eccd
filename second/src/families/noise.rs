//! Random bytes, alone and behind a sound header.

use super::valid;
use crate::draft::Draft;
use crate::random::Random;

pub fn bytes_alone(_index: u64, random: &mut Random) -> Vec<u8> {
    let length = match random.below(50) {
        0 => random.between(0, 20_000),
        1..=20 => random.between(0, 64),
        _ => random.between(0, 300),
    };
    if random.one_in(2) {
        return random.bytes(length as usize);
    }
    (0..length).map(|_| random.pick(&MOSTLY_ZERO)).collect()
}

/// Words of the header come out small now and then.
const MOSTLY_ZERO: [u8; 16] = [0, 0, 0, 0, 0, 0, 0, 0, 0, 0, 0, 1, 2, 32, 128, 255];

/// Noise from the ends on, from the literals on, or in the objectives alone.
pub fn after_a_header(index: u64, random: &mut Random) -> Vec<u8> {
    let mut draft = Draft::of(&valid::sheet(random));
    let spared = index % 4;
    if spared == 0 {
        draft.ends.iter_mut().for_each(|end| *end = random.word());
    }
    if spared == 1 {
        let literals = draft.sizes[3];
        draft
            .ends
            .iter_mut()
            .for_each(|end| *end = random.between(0, literals));
    }
    if spared <= 2 {
        draft.literals = random.bytes(draft.literals.len());
    }
    draft.objectives = random.bytes(draft.objectives.len());
    draft.bytes()
}
