//! What document 01 says of models, by going through all of them; nothing here walks.

use crate::sheet::Sheet;
use std::cmp::Ordering;
use std::collections::BTreeSet;

/// Above, going through all models would take too long.
pub const MOST_ATOMS: u32 = 10;

#[derive(Clone, Debug, PartialEq, Eq)]
pub struct Model {
    /// Bit i for atom i + 1.
    values: u32,
    /// Bit i for objective position i.
    pub part: u64,
}

pub struct Meaning {
    n: u32,
    question: i8,
    /// In no particular order.
    models: Vec<Model>,
}

impl Meaning {
    pub fn of(sheet: &Sheet, question: i8) -> Meaning {
        assert!(sheet.n <= MOST_ATOMS, "too many models");
        let numbers = 0..1u32 << sheet.n;
        let models = numbers.filter(|&values| satisfies_all(values, &sheet.clauses));
        Meaning {
            n: sheet.n,
            question,
            models: models
                .map(|values| Model {
                    values,
                    part: part(values, &sheet.objectives),
                })
                .collect(),
        }
    }

    /// With these values of the atoms from 1, each 1 or 0.
    pub fn model(&self, values: &[u8]) -> Option<&Model> {
        let same = |model: &&Model| self.witness(model) == values;
        self.models.iter().find(same)
    }

    pub fn witness(&self, model: &Model) -> Vec<u8> {
        let atoms = 1..=self.n as i8;
        atoms
            .map(|atom| u8::from(satisfies(model.values, atom)))
            .collect()
    }

    pub fn affirms(&self, model: &Model) -> bool {
        satisfies(model.values, self.question)
    }

    pub fn is_optimal(&self, model: &Model) -> bool {
        is_maximal(model, self.models.iter())
    }

    /// In reading order.
    pub fn first_optimal_affirming(&self) -> Option<&Model> {
        let affirming = self.models.iter().filter(|model| self.affirms(model));
        let optimal = affirming.filter(|model| self.is_optimal(model));
        optimal.min_by(|one, other| reading_order(one, other))
    }

    /// How many parts are maximal among those of affirming models.
    pub fn affirming_parts(&self) -> u64 {
        self.maximal_parts(|model| self.affirms(model))
    }

    /// How many parts are maximal among those of denying models.
    pub fn denying_parts(&self) -> u64 {
        self.maximal_parts(|model| !self.affirms(model))
    }

    fn maximal_parts(&self, chosen: impl Fn(&Model) -> bool) -> u64 {
        let among: Vec<&Model> = self.models.iter().filter(|model| chosen(model)).collect();
        let maximal = among
            .iter()
            .filter(|model| is_maximal(model, among.iter().copied()));
        let parts: BTreeSet<u64> = maximal.map(|model| model.part).collect();
        parts.len() as u64
    }
}

fn satisfies(values: u32, literal: i8) -> bool {
    let value = values >> (literal.unsigned_abs() - 1) & 1;
    (value == 1) == (literal > 0)
}

fn satisfies_all(values: u32, clauses: &[Vec<i8>]) -> bool {
    let satisfied = |clause: &Vec<i8>| clause.iter().any(|&literal| satisfies(values, literal));
    clauses.iter().all(satisfied)
}

fn part(values: u32, objectives: &[i8]) -> u64 {
    let mut part = 0;
    for (position, &objective) in objectives.iter().enumerate() {
        if satisfies(values, objective) {
            part |= 1 << position;
        }
    }
    part
}

fn is_maximal<'a>(model: &Model, mut among: impl Iterator<Item = &'a Model>) -> bool {
    // Nothing of the smaller part is missing in the larger, and something is added.
    !among.any(|other| model.part & !other.part == 0 && other.part & !model.part != 0)
}

/// The lowest bit that differs decides, first of the parts and then of the values:
/// the model that has it comes first.
fn reading_order(one: &Model, other: &Model) -> Ordering {
    let by_part = lowest_difference(one.part, other.part);
    by_part.then(lowest_difference(one.values.into(), other.values.into()))
}

fn lowest_difference(one: u64, other: u64) -> Ordering {
    for bit in 0..u64::BITS {
        let [in_one, in_other] = [one, other].map(|bits| bits >> bit & 1);
        if in_one != in_other {
            return in_other.cmp(&in_one);
        }
    }
    Ordering::Equal
}

#[cfg(test)]
mod tests;
