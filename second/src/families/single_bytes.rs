//! One byte with each of its 256 values in turn.

use crate::random::Random;
use crate::sheet::{Sheet, MAX_ATOMS};

/// Every place of sheets A and B with every value.
pub fn of_small_sheets(index: u64, _random: &mut Random) -> Vec<u8> {
    let a = Sheet::of(3, &[&[-1, -2], &[-2, -3]], &[1, 2, 3]).write();
    let b = Sheet::of(2, &[&[-1]], &[1, 2]).write();
    let value = index as u8;
    let place = (index / 256) as usize % (a.len() + b.len());
    let (mut bytes, place) = match place.checked_sub(a.len()) {
        None => (a, place),
        Some(place_in_b) => (b, place_in_b),
    };
    bytes[place] = value;
    bytes
}

/// Every value as the only literal of a clause and as the only objective, for every n.
pub fn as_literal_for_every_n(index: u64, _random: &mut Random) -> Vec<u8> {
    let value = index as u8;
    let n = 1 + (index / 512 % u64::from(MAX_ATOMS)) as u32;
    let in_a_clause = (index / 256).is_multiple_of(2);
    let mut bytes = match in_a_clause {
        true => Sheet::of(n, &[&[1]], &[]).write(),
        false => Sheet::of(n, &[], &[1]).write(),
    };
    *bytes.last_mut().expect("the literal stands last") = value;
    bytes
}
