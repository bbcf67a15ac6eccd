//! Small sheets with every kind of allowance, number of places, buffer length and question byte.

use super::small;
use crate::query::Query;
use crate::random::Random;
use crate::sheet::Sheet;
use crate::walk::{walk, Walked};

pub fn allowances(_index: u64, random: &mut Random) -> Query {
    let (sheet, question) = small::sheet_and_question(random);
    let mut query = small::unbounded(&sheet, question);
    if random.one_in(4) {
        query.places = places_for(&whole_walk(&query, &sheet, question), random);
    }
    let walked = whole_walk(&query, &sheet, question);
    query.allowance = allowance_for(&walked, random);
    query
}

pub fn places(_index: u64, random: &mut Random) -> Query {
    let (sheet, question) = small::sheet_and_question(random);
    let mut query = small::unbounded(&sheet, question);
    query.places = places_for(&whole_walk(&query, &sheet, question), random);
    query
}

pub fn witness_lengths(_index: u64, random: &mut Random) -> Query {
    let (sheet, question) = small::sheet_and_question(random);
    let mut query = small::unbounded(&sheet, question);
    query.witness_length = witness_length_for(sheet.n, random);
    query
}

/// Also with too short a witness buffer, which is looked at later.
pub fn question_bytes(_index: u64, random: &mut Random) -> Query {
    let (sheet, question) = small::sheet_and_question(random);
    let mut query = small::unbounded(&sheet, question);
    query.question = question_byte_for(sheet.n, random);
    if random.one_in(3) {
        query.witness_length = random.below(sheet.n) as usize;
    }
    query
}

pub fn all_at_once(_index: u64, random: &mut Random) -> Query {
    let (sheet, question) = small::sheet_and_question(random);
    let mut query = small::unbounded(&sheet, question);
    query.places = places_for(&whole_walk(&query, &sheet, question), random);
    query.allowance = allowance_for(&whole_walk(&query, &sheet, question), random);
    if random.one_in(4) {
        query.question = question_byte_for(sheet.n, random);
    }
    if random.one_in(2) {
        query.witness_length = witness_length_for(sheet.n, random);
    }
    query
}

fn whole_walk(query: &Query, sheet: &Sheet, question: i8) -> Walked {
    walk(sheet, question, u64::MAX, query.places)
}

/// Around the length of the walk, below it, and numbers that lose all in fewer bits.
fn allowance_for(walked: &Walked, random: &mut Random) -> u64 {
    let length = walked.steps;
    match random.below(10) {
        0 => random.pick(&[0, 1]),
        1 => length - 1,
        2 => length,
        3 => length + 1,
        4 => random.pick(&[u64::MAX, u64::MAX - 1, 1 << 63, 1 << 32, (1 << 32) + 1]),
        5 => length + u64::from(random.word()),
        _ => random.next() % length,
    }
}

fn places_for(walked: &Walked, random: &mut Random) -> usize {
    let needed = walked.stored.len();
    match random.below(4) {
        0 => needed,
        1 => needed + 1,
        _ => random.place_in(needed + 1),
    }
}

fn witness_length_for(n: u32, random: &mut Random) -> usize {
    let length = match random.below(6) {
        0 => n - 1,
        1 => random.below(n),
        2 => n,
        3 => n + 1,
        4 => n + random.between(2, 70),
        _ => random.pick(&[64, 255, 256, 257]),
    };
    length as usize
}

/// Bytes next to literals, and any.
fn question_byte_for(n: u32, random: &mut Random) -> u8 {
    let n = n as u8;
    match random.one_in(3) {
        true => random.byte(),
        false => random.pick(&[0, 128, n + 1, 255 - n, 127, 129, n, n.wrapping_neg()]),
    }
}
