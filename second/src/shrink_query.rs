//! Makes a query on which something is wrong as small as it can, greedily.

use crate::query::Query;
use crate::sheet::{literal, Sheet};
use crate::shrink::{halvings, shrink};
use std::cell::Cell;

/// Bytes of sheets looked at, over all visits of all trials: some seconds.
const MOST_WORK: u64 = 3_000_000_000;

pub struct Trial {
    pub shows_the_fault: bool,
    pub work: u64,
}

const STEPS: [fn(&mut Search); 7] = [
    |search| search.drop_bytes(),
    |search| search.drop_clauses(),
    |search| search.drop_objectives(),
    |search| search.drop_literals(),
    |search| search.drop_atoms(),
    |search| search.lower_numbers(),
    |search| search.lower_question(),
];

pub fn shrink_query(query: &Query, try_out: &dyn Fn(&Query) -> Trial) -> Query {
    let mut search = Search {
        smallest: query.clone(),
        try_out,
        work_left: Cell::new(MOST_WORK),
    };
    loop {
        let before = search.smallest.clone();
        for step in STEPS {
            step(&mut search);
        }
        if search.smallest == before {
            return before;
        }
    }
}

struct Search<'a> {
    smallest: Query,
    try_out: &'a dyn Fn(&Query) -> Trial,
    work_left: Cell<u64>,
}

impl Search<'_> {
    fn shows_the_fault(&self, candidate: &Query) -> bool {
        if self.work_left.get() == 0 {
            return false;
        }
        let trial = (self.try_out)(candidate);
        self.work_left
            .set(self.work_left.get().saturating_sub(trial.work));
        trial.shows_the_fault
    }

    /// Every step gives something that is smaller, so none undoes another.
    fn take(&mut self, candidate: Query) -> bool {
        let taken = self.shows_the_fault(&candidate);
        if taken {
            self.smallest = candidate;
        }
        taken
    }

    fn take_sheet(&mut self, sheet: &Sheet) -> bool {
        let mut candidate = self.smallest.clone();
        candidate.sheet = sheet.write();
        self.take(candidate)
    }

    /// None if the sheet is refused.
    fn sheet(&self) -> Option<Sheet> {
        Sheet::read(&self.smallest.sheet).ok()
    }

    /// For a sheet that is refused, and stays so; the steps on its parts are for others.
    fn drop_bytes(&mut self) {
        if self.sheet().is_some() {
            return;
        }
        let with = |bytes: &[u8]| Query {
            sheet: bytes.to_vec(),
            ..self.smallest.clone()
        };
        let shorter = shrink(&self.smallest.sheet, &|bytes| {
            Sheet::read(bytes).is_err() && self.shows_the_fault(&with(bytes))
        });
        self.smallest.sheet = shorter;
    }

    fn drop_clauses(&mut self) {
        self.drop_ranges(|sheet| &mut sheet.clauses);
    }

    fn drop_objectives(&mut self) {
        self.drop_ranges(|sheet| &mut sheet.objectives);
    }

    fn drop_literals(&mut self) {
        let clauses = self.sheet().map_or(0, |sheet| sheet.clauses.len());
        for clause in 0..clauses {
            self.drop_ranges(|sheet| &mut sheet.clauses[clause]);
        }
    }

    fn drop_ranges<T>(&mut self, items: impl Fn(&mut Sheet) -> &mut Vec<T>) {
        let Some(mut sheet) = self.sheet() else {
            return;
        };
        for size in halvings(items(&mut sheet).len()) {
            let mut start = 0;
            while start + size <= items(&mut sheet).len() {
                let mut smaller = sheet.clone();
                items(&mut smaller).drain(start..start + size);
                if self.take_sheet(&smaller) {
                    sheet = smaller;
                } else {
                    start += size;
                }
            }
        }
    }

    /// From the top down, first together with a byte of the witness buffer.
    fn drop_atoms(&mut self) {
        let n = self.sheet().map_or(0, |sheet| sheet.n);
        for atom in (1..=n as i8).rev() {
            let Some(smaller) = self.without_atom(atom) else {
                continue;
            };
            let shorter = Query {
                witness_length: smaller.witness_length.saturating_sub(1),
                ..smaller.clone()
            };
            if !self.take(shorter) {
                self.take(smaller);
            }
        }
    }

    fn without_atom(&self, atom: i8) -> Option<Query> {
        let sheet = self.sheet()?;
        let question = match literal(self.smallest.question, sheet.n) {
            Some(question) => moved_down(question, atom)?.to_le_bytes()[0],
            None => self.smallest.question,
        };
        let without = |literals: &Vec<i8>| {
            let kept = literals.iter();
            kept.filter_map(|&literal| moved_down(literal, atom))
                .collect()
        };
        let smaller = Sheet {
            n: sheet.n - 1,
            clauses: sheet.clauses.iter().map(without).collect(),
            objectives: without(&sheet.objectives),
        };
        (smaller.n > 0).then(|| Query {
            sheet: smaller.write(),
            question,
            ..self.smallest.clone()
        })
    }

    fn lower_numbers(&mut self) {
        self.lower(
            |query| query.allowance,
            |query, number| query.allowance = number,
        );
        self.lower(
            |query| query.places as u64,
            |query, number| query.places = number as usize,
        );
        self.lower(
            |query| query.witness_length as u64,
            |query, number| query.witness_length = number as usize,
        );
    }

    /// To 0 if that can be, else down by ever smaller amounts.
    fn lower(&mut self, number: fn(&Query) -> u64, set: fn(&mut Query, u64)) {
        let mut amount = number(&self.smallest);
        while amount > 0 {
            if let Some(lower) = number(&self.smallest).checked_sub(amount) {
                let mut candidate = self.smallest.clone();
                set(&mut candidate, lower);
                self.take(candidate);
            }
            amount /= 2;
        }
    }

    /// To the first byte that will do.
    fn lower_question(&mut self) {
        for question in 0..self.smallest.question {
            let candidate = Query {
                question,
                ..self.smallest.clone()
            };
            if self.take(candidate) {
                return;
            }
        }
    }
}

/// What remains of a literal when the atom goes and those above it close the gap.
fn moved_down(literal: i8, atom: i8) -> Option<i8> {
    match literal.abs() {
        same if same == atom => None,
        above if above > atom => Some(literal - literal.signum()),
        _ => Some(literal),
    }
}

#[cfg(test)]
mod tests;
