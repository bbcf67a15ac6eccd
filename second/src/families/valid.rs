//! Sheets that must be accepted.

use super::shape::{most_objectives, Shape};
use crate::random::Random;
use crate::sheet::{Sheet, MAX_ATOMS, MAX_CLAUSES, MAX_LITERALS};

pub fn any(_index: u64, random: &mut Random) -> Vec<u8> {
    sheet(random).write()
}

pub fn at_the_limits(index: u64, random: &mut Random) -> Vec<u8> {
    let (shape, spread) = limit_case(index);
    filled(shape, spread, random).write()
}

pub fn sheet(random: &mut Random) -> Sheet {
    let shape = Shape::any(random);
    filled(shape, any_spread(random), random)
}

pub fn sheet_with_all_parts(random: &mut Random) -> Sheet {
    let shape = Shape::with_all_parts(random);
    filled(shape, any_spread(random), random)
}

#[derive(Clone, Copy)]
pub enum Spread {
    Scattered,
    AllInTheFirst,
    AllInTheLast,
}

const SPREADS: [Spread; 3] = [
    Spread::Scattered,
    Spread::AllInTheFirst,
    Spread::AllInTheLast,
];

/// Every combination of sizes at and next to their limits, the largest sheet among them.
fn limit_case(index: u64) -> (Shape, Spread) {
    let mut rest = index as usize;
    let mut digit = |base: usize| {
        let digit = rest % base;
        rest /= base;
        digit
    };
    let spread = SPREADS[digit(3)];
    let n = [MAX_ATOMS, MAX_ATOMS - 1, 2, 1][digit(4)];
    let m = [MAX_CLAUSES, MAX_CLAUSES - 1, 2, 1, 0][digit(5)];
    let k = [most_objectives(n), 1, 0][digit(3)];
    let literals = [MAX_LITERALS, MAX_LITERALS - 1, 1, 0][digit(4)];
    let literals = if m == 0 { 0 } else { literals };
    (Shape { n, m, k, literals }, spread)
}

fn any_spread(random: &mut Random) -> Spread {
    if random.one_in(8) {
        random.pick(&SPREADS)
    } else {
        Spread::Scattered
    }
}

pub fn filled(shape: Shape, spread: Spread, random: &mut Random) -> Sheet {
    let repeats = random.one_in(8);
    let mut clauses = Vec::new();
    for length in clause_lengths(shape, spread, random) {
        clauses.push(clause(length, shape.n, repeats, random));
    }
    Sheet {
        n: shape.n,
        clauses,
        objectives: objectives(shape, random),
    }
}

fn clause_lengths(shape: Shape, spread: Spread, random: &mut Random) -> Vec<u32> {
    let Some(last) = shape.m.checked_sub(1) else {
        return Vec::new();
    };
    let mut ends: Vec<u32> = match spread {
        Spread::Scattered => (0..last)
            .map(|_| random.between(0, shape.literals))
            .collect(),
        Spread::AllInTheFirst => vec![shape.literals; last as usize],
        Spread::AllInTheLast => vec![0; last as usize],
    };
    ends.sort_unstable();
    ends.push(shape.literals);
    let starts = std::iter::once(0).chain(ends.iter().copied());
    ends.iter()
        .zip(starts)
        .map(|(end, start)| end - start)
        .collect()
}

fn clause(length: u32, n: u32, repeats: bool, random: &mut Random) -> Vec<i8> {
    let mut clause: Vec<i8> = (0..length).map(|_| literal(n, random)).collect();
    if repeats {
        let repeated = literal(n, random);
        clause.fill(repeated);
    }
    clause
}

fn literal(n: u32, random: &mut Random) -> i8 {
    let atom = random.between(1, n) as i8;
    if random.one_in(2) {
        -atom
    } else {
        atom
    }
}

/// Distinct literals. Half of the time the atoms come with both signs side by side,
/// since a literal and its complement may both stand.
fn objectives(shape: Shape, random: &mut Random) -> Vec<i8> {
    let mut choice: Vec<i8> = (1..=shape.n as i8).flat_map(|atom| [atom, -atom]).collect();
    if random.one_in(2) {
        random.shuffle(&mut choice);
    }
    choice.truncate(shape.k as usize);
    choice
}
