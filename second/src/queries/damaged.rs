//! Sheets that are mostly refused, with any question and any buffers:
//! the sheet is looked at first, and nothing is written.

use crate::families;
use crate::query::Query;
use crate::random::Random;

/// Some of these sheets are accepted, and large.
const MOST_STEPS: u32 = 300;

pub fn any(index: u64, random: &mut Random) -> Query {
    let family = &families::ALL[random.place_in(families::ALL.len())];
    Query {
        sheet: (family.make)(index, random),
        question: match random.one_in(2) {
            true => random.pick(&[0, 1, 255, 128, 64, 65, 192, 191]),
            false => random.byte(),
        },
        allowance: match random.one_in(4) {
            true => 0,
            false => u64::from(random.between(0, MOST_STEPS)),
        },
        places: random.between(0, 5) as usize,
        witness_length: match random.one_in(3) {
            true => 0,
            false => random.between(0, 80) as usize,
        },
    }
}
