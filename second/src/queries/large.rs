//! Sheets with too many models to go through, with a bounded allowance.

use super::small::signed;
use crate::query::Query;
use crate::random::Random;
use crate::sheet::{Sheet, MAX_ATOMS, MAX_CLAUSES, MAX_OBJECTIVES};

const MOST_STEPS: u32 = 2_000;
const LONGEST_CLAUSE: u32 = 8;

pub fn medium(_index: u64, random: &mut Random) -> Query {
    let n = random.between(11, 24);
    let m = random.between(0, 60);
    query(Shape::any(n, m, random), random)
}

pub fn large(index: u64, random: &mut Random) -> Query {
    let n = random.between(25, 80).min(MAX_ATOMS);
    let m = match index % 4 {
        0 => random.between(512, MAX_CLAUSES),
        1 => random.between(64, 200),
        2 => random.pick(&[0, 64, MAX_CLAUSES - 1, MAX_CLAUSES]),
        _ => return query(LONGEST_SHEET, random),
    };
    query(Shape::any(n, m, random), random)
}

struct Shape {
    n: u32,
    units: u32,
    longer_clauses: u32,
    shortest: u32,
    objectives: u32,
}

/// With 8,192 literals, and so 12,384 bytes.
const LONGEST_SHEET: Shape = Shape {
    n: MAX_ATOMS,
    units: 0,
    longer_clauses: MAX_CLAUSES,
    shortest: LONGEST_CLAUSE,
    objectives: MAX_OBJECTIVES,
};

impl Shape {
    /// Mostly with so many units that a walk comes to its end.
    fn any(n: u32, m: u32, random: &mut Random) -> Shape {
        let free = random.between(0, 6);
        let units = match random.one_in(4) {
            true => 0,
            false => m.min(n - free),
        };
        let most = MAX_OBJECTIVES.min(2 * n);
        let objectives = random.between(0, most);
        Shape {
            n,
            units,
            longer_clauses: m - units,
            shortest: 2,
            objectives: random.pick(&[most, objectives, objectives.min(6)]),
        }
    }
}

fn query(shape: Shape, random: &mut Random) -> Query {
    let sheet = sheet(&shape, random);
    let question = match sheet.objectives.last() {
        Some(&objective) if random.one_in(2) => -objective,
        _ => signed(random.between(1, shape.n) as i8, random),
    };
    Query {
        sheet: sheet.write(),
        question: question.to_le_bytes()[0],
        allowance: match random.one_in(4) {
            true => random.between(0, MOST_STEPS).into(),
            false => MOST_STEPS.into(),
        },
        places: random.pick(&[0, 1, 2, 3, 100, 100]),
        witness_length: (shape.n + random.between(0, 2)) as usize,
    }
}

/// Has a model, which satisfies the units among the clauses.
fn sheet(shape: &Shape, random: &mut Random) -> Sheet {
    let atoms = 1..=shape.n as i8;
    let mut model: Vec<i8> = atoms.map(|atom| signed(atom, random)).collect();
    random.shuffle(&mut model);
    let units = &model[..shape.units as usize];
    let mut clauses: Vec<Vec<i8>> = units.iter().map(|&literal| vec![literal]).collect();
    for _ in 0..shape.longer_clauses {
        clauses.push(clause(&model, shape.shortest, random));
    }
    random.shuffle(&mut clauses);
    Sheet {
        n: shape.n,
        clauses,
        objectives: objectives(shape, random),
    }
}

/// The model satisfies it.
fn clause(model: &[i8], shortest: u32, random: &mut Random) -> Vec<i8> {
    let length = random.between(shortest, LONGEST_CLAUSE);
    let mut clause: Vec<i8> = (0..length)
        .map(|_| signed(random.pick(model), random))
        .collect();
    let place = random.place_in(clause.len());
    clause[place] = random.pick(model);
    clause
}

/// Distinct literals, half of the time of distinct atoms as far as there are so many.
fn objectives(shape: &Shape, random: &mut Random) -> Vec<i8> {
    let atoms = 1..=shape.n as i8;
    let mut choice: Vec<i8> = atoms.map(|atom| signed(atom, random)).collect();
    random.shuffle(&mut choice);
    let complements: Vec<i8> = choice.iter().map(|literal| -literal).collect();
    choice.extend(complements);
    if random.one_in(2) {
        random.shuffle(&mut choice);
    }
    choice.truncate(shape.objectives as usize);
    choice
}
