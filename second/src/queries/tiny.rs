//! Every sheet of two atoms with up to two clauses of up to two literals and any objectives
//! in any order, with every question.

use super::small;
use crate::query::Query;
use crate::random::Random;
use crate::sheet::Sheet;

const LITERALS: [i8; 4] = [1, -1, 2, -2];

/// 16 choices for each clause, 65 for the objectives, four questions.
pub const ALL: u64 = 16 * 16 * 65 * 4;

pub fn every(index: u64, _random: &mut Random) -> Query {
    let mut rest = index as usize;
    let mut digit = |base: usize| {
        let digit = rest % base;
        rest /= base;
        digit
    };
    let clauses = [clause(digit(16)), clause(digit(16))];
    let sheet = Sheet {
        n: 2,
        clauses: clauses.into_iter().flatten().collect(),
        objectives: objectives(digit(65)),
    };
    small::unbounded(&sheet, LITERALS[digit(4)])
}

/// None, the empty one, or one or two literals.
fn clause(index: usize) -> Option<Vec<i8>> {
    let index = index.checked_sub(1)?;
    let mut clauses = vec![vec![]];
    for (place, &one) in LITERALS.iter().enumerate() {
        clauses.push(vec![one]);
        for &other in &LITERALS[place..] {
            clauses.push(vec![one, other]);
        }
    }
    Some(clauses.swap_remove(index))
}

/// The shorter ones first.
fn objectives(index: usize) -> Vec<i8> {
    let mut all = vec![vec![]];
    let mut next = 0;
    while all.len() <= index {
        let shorter: Vec<i8> = all[next].clone();
        let added = LITERALS.iter().filter(|literal| !shorter.contains(literal));
        all.extend(added.map(|&literal| [&shorter[..], &[literal]].concat()));
        next += 1;
    }
    all.swap_remove(index)
}
