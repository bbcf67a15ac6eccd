//! Sheets small enough to go through all models, made so that walks have much to do.

use crate::query::Query;
use crate::random::Random;
use crate::sheet::Sheet;

const MOST_CLAUSES: u32 = 14;
const MOST_OBJECTIVES: u32 = 8;

/// More than any set of parts over eight objectives none of which contains another.
const PLENTY: usize = 71;

pub fn any(_index: u64, random: &mut Random) -> Query {
    let (sheet, question) = sheet_and_question(random);
    unbounded(&sheet, question)
}

/// With all that a walk on a small sheet can need.
pub fn unbounded(sheet: &Sheet, question: i8) -> Query {
    Query {
        sheet: sheet.write(),
        question: question.to_le_bytes()[0],
        allowance: u64::MAX,
        places: PLENTY,
        witness_length: sheet.n as usize,
    }
}

pub fn sheet_and_question(random: &mut Random) -> (Sheet, i8) {
    let n = random.pick(&[1, 2, 3, 3, 4, 4, 5, 5, 6, 6, 7, 7, 8, 8, 9, 10]);
    let objectives = objectives(n, random);
    let question = question(n, &objectives, random);
    let mut clauses = match random.below(5) {
        0 => loose_clauses(MOST_CLAUSES, n, random),
        1 => loose_clauses(n, n, random),
        2 => rival_clauses(n, &objectives, random),
        _ => rivals_apart_from(question, n, &objectives, random),
    };
    random.shuffle(&mut clauses);
    let sheet = Sheet {
        n,
        clauses,
        objectives,
    };
    (sheet, question)
}

/// Distinct literals, half of the time of distinct atoms.
fn objectives(n: u32, random: &mut Random) -> Vec<i8> {
    let mut choice: Vec<i8> = match random.one_in(2) {
        true => (1..=n as i8).flat_map(|atom| [atom, -atom]).collect(),
        false => (1..=n as i8).map(|atom| signed(atom, random)).collect(),
    };
    random.shuffle(&mut choice);
    let most = MOST_OBJECTIVES.min(choice.len() as u32);
    let fewer = random.between(0, most);
    choice.truncate(random.between(fewer, most) as usize);
    choice
}

fn loose_clauses(most: u32, n: u32, random: &mut Random) -> Vec<Vec<i8>> {
    let count = random.between(0, most);
    (0..count).map(|_| loose_clause(n, random)).collect()
}

/// Literals and complements may stand in it again.
fn loose_clause(n: u32, random: &mut Random) -> Vec<i8> {
    let length = match random.below(80) {
        0 => 0,
        1..=6 => 1,
        7..=36 => 2,
        37..=62 => 3,
        63..=72 => 4,
        _ => 5,
    };
    (0..length)
        .map(|_| signed(random.between(1, n) as i8, random))
        .collect()
}

/// Pairs of objectives that cannot both be met, so that there are several maximal parts.
fn rival_clauses(n: u32, objectives: &[i8], random: &mut Random) -> Vec<Vec<i8>> {
    let rarity = random.between(1, 4);
    let mut clauses = Vec::new();
    for (place, &one) in objectives.iter().enumerate() {
        for &other in &objectives[..place] {
            if one != -other && random.one_in(rarity) {
                clauses.push(vec![-other, -one]);
            }
        }
    }
    random.shuffle(&mut clauses);
    clauses.truncate(MOST_CLAUSES as usize - 3);
    clauses.extend(loose_clauses(3, n, random));
    clauses
}

/// Every part of the rest can then be had with the question and without.
fn rivals_apart_from(question: i8, n: u32, objectives: &[i8], random: &mut Random) -> Vec<Vec<i8>> {
    let mut clauses = rival_clauses(n, objectives, random);
    let apart = |literal: &i8| literal.abs() != question.abs();
    clauses.retain(|clause| clause.iter().all(apart));
    clauses
}

/// Mostly the complement of an objective: what meets it then stands against the question.
fn question(n: u32, objectives: &[i8], random: &mut Random) -> i8 {
    if objectives.is_empty() || random.one_in(3) {
        return signed(random.between(1, n) as i8, random);
    }
    let objective = random.pick(objectives);
    match random.one_in(6) {
        true => objective,
        false => -objective,
    }
}

pub fn signed(atom: i8, random: &mut Random) -> i8 {
    match random.one_in(2) {
        true => atom,
        false => -atom,
    }
}
