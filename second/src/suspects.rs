//! What document 01's program `suspects` prints, by the own reader and the quick walk:
//! the core has no part in it.

use crate::code;
use crate::containment::OnWords;
use crate::quick::{walk, Walked};
use crate::sheet::Sheet;
use std::fmt::Write;
use std::io::{self, Read};

/// One more than the longest sheet has, so that a longer input is seen to be longer.
const MOST_BYTES_READ: u64 = 12_385;

/// The allowance of each question.
pub const STEPS: u64 = 1_000_000;

/// The length of each question's store.
pub const PLACES: usize = 1_024;

pub fn printed_for(input: impl Read) -> io::Result<String> {
    let mut bytes = Vec::new();
    input.take(MOST_BYTES_READ).read_to_end(&mut bytes)?;
    Ok(match Sheet::read(&bytes) {
        Ok(sheet) => lines_of(&sheet),
        Err(refusal) => format!("refused {refusal}\n"),
    })
}

/// Whether the objective is suspect: whether it can fail in an optimal model.
pub fn question_on(objective: i8) -> i8 {
    -objective
}

fn lines_of(sheet: &Sheet) -> String {
    let [n, m, k] = sheet.sizes();
    let mut lines = format!("sheet {n} {m} {k}\n");
    let mut store = [0; PLACES];
    for (position, &objective) in (1..).zip(&sheet.objectives) {
        let walked = walk::<OnWords>(sheet, question_on(objective), STEPS, &mut store);
        let _ = writeln!(lines, "{position} {objective} {}", answer(&walked));
    }
    lines
}

fn answer(walked: &Walked) -> String {
    let word = match walked.code {
        code::YES => "yes".to_string(),
        code::NO => "no".to_string(),
        cut => cut.to_string(),
    };
    let Walked {
        steps,
        tests,
        stored,
        ..
    } = walked;
    format!("{word} {steps} {tests} {stored}")
}

#[cfg(test)]
mod tests;
