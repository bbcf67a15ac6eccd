//! Sheets A to F, with the twelve cases of document 01 and with all small bounds.

use crate::query::Query;
use crate::random::Random;
use crate::sheet::Sheet;

pub fn sheets() -> [Sheet; 6] {
    [
        Sheet::of(3, &[&[-1, -2], &[-2, -3]], &[1, 2, 3]),
        Sheet::of(2, &[&[-1]], &[1, 2]),
        Sheet::of(2, &[], &[1]),
        Sheet::of(1, &[], &[]),
        Sheet::of(3, &[&[-1]], &[1, 2]),
        Sheet::of(1, &[&[]], &[]),
    ]
}

/// Sheet, question, allowance, places.
const CASES: [(usize, i8, u64, usize); 12] = [
    (0, -1, 100, 4),
    (0, -2, 100, 4),
    (0, -3, 100, 4),
    (0, 2, 100, 4),
    (1, -2, 9, 1),
    (1, -2, 8, 1),
    (1, -2, 9, 0),
    (2, -2, 100, 1),
    (3, -1, 100, 0),
    (4, -2, 100, 1),
    (5, 1, 1, 0),
    (1, 3, 100, 1),
];

pub fn case(index: u64, _random: &mut Random) -> Query {
    let (sheet, question, allowance, places) = CASES[index as usize % CASES.len()];
    let sheet = &sheets()[sheet];
    Query {
        sheet: sheet.write(),
        question: question.to_le_bytes()[0],
        allowance,
        places,
        witness_length: sheet.n as usize,
    }
}

/// The longest walk on these sheets has 24 steps, and no question stores two parts.
pub fn every_bound(index: u64, _random: &mut Random) -> Query {
    let mut rest = index as usize;
    let mut digit = |base: usize| {
        let digit = rest % base;
        rest /= base;
        digit
    };
    let allowance = digit(32) as u64;
    let places = digit(3);
    let extra = digit(3);
    let (sheet, question) = every_question(digit(24));
    Query {
        sheet: sheet.write(),
        question: question.to_le_bytes()[0],
        allowance,
        places,
        witness_length: sheet.n as usize + extra - 1,
    }
}

fn every_question(index: usize) -> (Sheet, i8) {
    let with_questions = |sheet: Sheet| {
        let atoms = 1..=sheet.n as i8;
        atoms.flat_map(move |atom| [(sheet.clone(), atom), (sheet.clone(), -atom)])
    };
    let mut all = sheets().into_iter().flat_map(with_questions);
    all.nth(index).expect("24 literals on six sheets")
}

pub fn every_byte(index: u64, _random: &mut Random) -> Query {
    let place = (index / 256) as usize;
    let sheet = &sheets()[place % 6];
    let short = place / 6 % 2;
    Query {
        sheet: sheet.write(),
        question: index as u8,
        allowance: 100,
        places: 2,
        witness_length: sheet.n as usize - short,
    }
}
