//! A query and its whole outcome: code, counts and both buffers.

use crate::code;
use crate::core::{self, Answering};
use crate::sheet::{literal, Sheet};
use crate::walk::walk;
use std::fmt;

#[derive(Clone, Debug, PartialEq, Eq)]
pub struct Query {
    pub sheet: Vec<u8>,
    pub question: u8,
    pub allowance: u64,
    pub places: usize,
    pub witness_length: usize,
}

impl Query {
    pub fn checked(&self) -> Result<(Sheet, i8), u8> {
        checked(&self.sheet, self.question, self.witness_length)
    }
}

/// The checks of document 01 up to the walk.
pub fn checked(sheet: &[u8], question: u8, witness_length: usize) -> Result<(Sheet, i8), u8> {
    let sheet = Sheet::read(sheet)?;
    let question = literal(question, sheet.n).ok_or(code::QUESTION_BYTE)?;
    if witness_length < sheet.n as usize {
        return Err(code::SHORT_WITNESS);
    }
    Ok((sheet, question))
}

/// Places and bytes on either side of what is lent, where nothing may be written.
pub const GUARD: usize = 2;

/// Stands in the counts before a query.
pub const UNTOUCHED_COUNTS: [u64; 3] = [0xD1B5_4A32_D192_ED03, 0xAEF1_7502_108E_F2D9, 0xE46A_7F05];

#[derive(Clone, Debug, PartialEq, Eq)]
pub struct Outcome {
    pub code: u8,
    /// Steps, tests, stored.
    pub counts: [u64; 3],
    /// With the guards.
    pub store: Vec<u64>,
    /// With the guards.
    pub witness: Vec<u8>,
}

impl Outcome {
    /// As everything stands before a query.
    pub fn untouched(query: &Query) -> Outcome {
        Outcome {
            code: 0,
            counts: UNTOUCHED_COUNTS,
            store: (0..query.places + 2 * GUARD).map(place_pattern).collect(),
            witness: (0..query.witness_length + 2 * GUARD)
                .map(byte_pattern)
                .collect(),
        }
    }

    pub fn by_core(query: &Query) -> Outcome {
        Outcome::by(core::query, query)
    }

    /// Only what lies between the guards is lent.
    pub fn by(answering: Answering, query: &Query) -> Outcome {
        let mut outcome = Outcome::untouched(query);
        outcome.code = answering(
            &query.sheet,
            query.question,
            query.allowance,
            &mut outcome.store[GUARD..][..query.places],
            &mut outcome.witness[GUARD..][..query.witness_length],
            &mut outcome.counts,
        );
        outcome
    }

    pub fn by_own_walk(query: &Query) -> Outcome {
        let mut outcome = Outcome::untouched(query);
        match query.checked() {
            Ok((sheet, question)) => outcome.write_walk(query, &sheet, question),
            Err(refusal) => {
                outcome.code = refusal;
                outcome.counts = [0, 0, 0];
            }
        }
        outcome
    }

    fn write_walk(&mut self, query: &Query, sheet: &Sheet, question: i8) {
        let walked = walk(sheet, question, query.allowance, query.places);
        self.code = walked.code;
        self.counts = [walked.steps, walked.tests, walked.stored.len() as u64];
        self.store[GUARD..][..walked.stored.len()].copy_from_slice(&walked.stored);
        for (place, value) in walked.witness.iter().flatten().enumerate() {
            self.witness[GUARD + place] = u8::from(*value);
        }
    }

    pub fn lent_store(&self) -> &[u64] {
        &self.store[GUARD..self.store.len() - GUARD]
    }

    pub fn lent_witness(&self) -> &[u8] {
        &self.witness[GUARD..self.witness.len() - GUARD]
    }
}

/// No two places alike, and no part has so many high bits.
fn place_pattern(place: usize) -> u64 {
    0xF9C5_A3E1_9B0D_7700 ^ place as u64
}

/// Neither 0 nor 1, and neighbours differ.
fn byte_pattern(place: usize) -> u8 {
    0x40 | (place % 64) as u8
}

impl fmt::Display for Outcome {
    fn fmt(&self, out: &mut fmt::Formatter) -> fmt::Result {
        let [steps, tests, stored] = self.counts;
        let store = shown(&self.store, place_pattern);
        let witness = shown(&self.witness, byte_pattern);
        write!(out, "code {}, counts ", self.code)?;
        match self.counts == UNTOUCHED_COUNTS {
            true => write!(out, "untouched")?,
            false => write!(out, "{steps} {tests} {stored}")?,
        }
        write!(out, ", store [{store}], witness [{witness}]")
    }
}

/// The guards are shown only if they are not as before.
fn shown<T: fmt::Display + PartialEq>(buffer: &[T], pattern: fn(usize) -> T) -> String {
    let entries: Vec<String> = buffer
        .iter()
        .enumerate()
        .map(|(place, entry)| match *entry == pattern(place) {
            true => UNTOUCHED.to_string(),
            false => entry.to_string(),
        })
        .collect();
    let (before, rest) = entries.split_at(GUARD);
    let (lent, after) = rest.split_at(rest.len() - GUARD);
    let guards_are_whole = [before, after].concat().iter().all(|e| e == UNTOUCHED);
    match guards_are_whole {
        true => joined(lent),
        false => format!("{} | {} | {}", joined(before), joined(lent), joined(after)),
    }
}

const UNTOUCHED: &str = ".";
const LONG_RUN: usize = 8;

/// A long run of untouched entries at the end is not written out.
fn joined(entries: &[String]) -> String {
    let last = entries.iter().rposition(|entry| entry != UNTOUCHED);
    let written = last.map_or(0, |place| place + 1);
    let run = entries.len() - written;
    if run <= LONG_RUN {
        return entries.join(" ");
    }
    let mut shown = entries[..written].to_vec();
    shown.push(format!("{run} untouched"));
    shown.join(" ")
}

#[cfg(test)]
mod tests;
