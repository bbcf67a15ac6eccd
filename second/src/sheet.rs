//! The sheet, read by the rules of document 01 and nothing else.

use crate::draft::Draft;
use crate::refusal::{self, Refusal};
use std::collections::HashSet;

pub const MAX_ATOMS: u32 = 64;
pub const MAX_CLAUSES: u32 = 1_024;
pub const MAX_OBJECTIVES: u32 = 64;
pub const MAX_LITERALS: u32 = 8_192;
pub const HEADER_BYTES: usize = 32;
pub const WORD_BYTES: usize = 4;

#[derive(Clone, Debug, PartialEq, Eq)]
pub struct Sheet {
    pub n: u32,
    pub clauses: Vec<Vec<i8>>,
    pub objectives: Vec<i8>,
}

impl Sheet {
    pub fn of(n: u32, clauses: &[&[i8]], objectives: &[i8]) -> Sheet {
        Sheet {
            n,
            clauses: clauses.iter().map(|clause| clause.to_vec()).collect(),
            objectives: objectives.to_vec(),
        }
    }

    pub fn read(bytes: &[u8]) -> Result<Sheet, Refusal> {
        let header = Header::read(bytes)?;
        header.check_sizes()?;
        header.check_layout(bytes.len())?;
        // Only now are the words known to be places within the bytes.
        let [_, _, _, _, ends_at, literals_at, objectives_at, _] =
            header.words.map(|word| word as usize);
        let ends = read_ends(&bytes[ends_at..literals_at], header.literals())?;
        let literals = &bytes[literals_at..objectives_at];
        Ok(Sheet {
            n: header.atoms(),
            clauses: read_clauses(literals, &ends, header.atoms())?,
            objectives: read_objectives(&bytes[objectives_at..], header.atoms())?,
        })
    }

    pub fn write(&self) -> Vec<u8> {
        Draft::of(self).bytes()
    }

    pub fn sizes(&self) -> [u32; 3] {
        let count = |length: usize| u32::try_from(length).expect("limited by the reader");
        [
            self.n,
            count(self.clauses.len()),
            count(self.objectives.len()),
        ]
    }
}

struct Header {
    words: [u32; 8],
}

impl Header {
    fn read(bytes: &[u8]) -> Result<Header, Refusal> {
        if bytes.len() < HEADER_BYTES {
            return Err(refusal::UNDER_32_BYTES);
        }
        let words = words_of(&bytes[..HEADER_BYTES]);
        Ok(Header {
            words: words.try_into().expect("32 bytes are eight words"),
        })
    }

    fn atoms(&self) -> u32 {
        self.words[0]
    }

    fn clauses(&self) -> u32 {
        self.words[1]
    }

    fn objectives(&self) -> u32 {
        self.words[2]
    }

    fn literals(&self) -> u32 {
        self.words[3]
    }

    fn check_sizes(&self) -> Result<(), Refusal> {
        let in_range = (1..=MAX_ATOMS).contains(&self.atoms())
            && self.clauses() <= MAX_CLAUSES
            && self.objectives() <= MAX_OBJECTIVES
            && self.literals() <= MAX_LITERALS;
        in_range.then_some(()).ok_or(refusal::SIZE_OUT_OF_RANGE)
    }

    fn check_layout(&self, length: usize) -> Result<(), Refusal> {
        let [m, k, literals] =
            [self.clauses(), self.objectives(), self.literals()].map(|size| size as usize);
        let ends_at = HEADER_BYTES;
        let literals_at = ends_at + WORD_BYTES * m;
        let objectives_at = literals_at + literals;
        let total = objectives_at + k;
        let found = [4, 5, 6, 7].map(|word| self.words[word] as usize);
        let as_above = found == [ends_at, literals_at, objectives_at, total] && length == total;
        as_above.then_some(()).ok_or(refusal::LAYOUT_OR_LENGTH)
    }
}

pub fn words_of(bytes: &[u8]) -> Vec<u32> {
    bytes
        .chunks_exact(WORD_BYTES)
        .map(|word| u32::from_le_bytes(word.try_into().expect("chunks of four bytes")))
        .collect()
}

fn read_ends(bytes: &[u8], literals: u32) -> Result<Vec<u32>, Refusal> {
    let ends = words_of(bytes);
    let falls = ends.windows(2).any(|pair| pair[1] < pair[0]);
    // Without a clause nothing is counted, which also settles m = 0 and L not 0.
    let counted = ends.last().copied().unwrap_or(0);
    if falls || counted != literals {
        return Err(refusal::CLAUSE_ENDS);
    }
    Ok(ends)
}

fn read_clauses(literals: &[u8], ends: &[u32], n: u32) -> Result<Vec<Vec<i8>>, Refusal> {
    let mut start = 0;
    let mut clauses = Vec::with_capacity(ends.len());
    for &end in ends {
        let end = end as usize;
        let clause: Option<Vec<i8>> = literals[start..end]
            .iter()
            .map(|&byte| literal(byte, n))
            .collect();
        clauses.push(clause.ok_or(refusal::CLAUSE_BYTE)?);
        start = end;
    }
    Ok(clauses)
}

fn read_objectives(bytes: &[u8], n: u32) -> Result<Vec<i8>, Refusal> {
    let mut seen = HashSet::new();
    bytes
        .iter()
        .map(|&byte| literal(byte, n).filter(|&literal| seen.insert(literal)))
        .collect::<Option<Vec<i8>>>()
        .ok_or(refusal::OBJECTIVE_BYTE)
}

pub fn literal(byte: u8, n: u32) -> Option<i8> {
    let value = i8::from_le_bytes([byte]);
    // unsigned_abs takes -128 to 128, which is above every n.
    let atom = u32::from(value.unsigned_abs());
    (1..=n).contains(&atom).then_some(value)
}

#[cfg(test)]
mod tests;
