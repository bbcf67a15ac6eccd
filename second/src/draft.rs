//! The parts of a sheet before they are joined into bytes, free to be wrong.

use crate::sheet::{words_of, Sheet, HEADER_BYTES, WORD_BYTES};
use std::ops::Range;

#[derive(Clone, Debug, PartialEq, Eq)]
pub struct Draft {
    /// Words 0 to 3: n, m, k, L.
    pub sizes: [u32; 4],
    /// What words 4 to 7 have above the values that follow from the sizes, modulo 2^32.
    /// Kept apart from the sizes so that a later change of a size keeps such a fault.
    pub slips: [u32; 4],
    pub ends: Vec<u32>,
    pub literals: Vec<u8>,
    pub objectives: Vec<u8>,
    pub tail: Vec<u8>,
}

impl Draft {
    pub fn of(sheet: &Sheet) -> Draft {
        let mut draft = Draft {
            sizes: [sheet.n, 0, 0, 0],
            slips: [0; 4],
            ends: running_totals(&sheet.clauses),
            literals: sheet.clauses.iter().flatten().copied().map(byte).collect(),
            objectives: sheet.objectives.iter().copied().map(byte).collect(),
            tail: Vec::new(),
        };
        draft.count_parts();
        draft
    }

    /// The parts of these bytes as far as the sizes in the header fit into them.
    pub fn from_bytes(bytes: &[u8]) -> Option<Draft> {
        let words = words_of(bytes.get(..HEADER_BYTES)?);
        let sizes = [words[0], words[1], words[2], words[3]];
        let [_, m, k, l] = sizes.map(u64::from);
        let literals_at = HEADER_BYTES as u64 + WORD_BYTES as u64 * m;
        let objectives_at = literals_at + l;
        let total = objectives_at + k;
        if total > bytes.len() as u64 {
            return None;
        }
        let [literals_at, objectives_at, total] =
            [literals_at, objectives_at, total].map(|place| place as usize);
        let proper = offsets(sizes);
        Some(Draft {
            sizes,
            slips: [0, 1, 2, 3].map(|i| words[4 + i].wrapping_sub(proper[i])),
            ends: words_of(&bytes[HEADER_BYTES..literals_at]),
            literals: bytes[literals_at..objectives_at].to_vec(),
            objectives: bytes[objectives_at..total].to_vec(),
            tail: bytes[total..].to_vec(),
        })
    }

    pub fn count_parts(&mut self) {
        let count = |length: usize| u32::try_from(length).expect("parts are short");
        self.sizes[1] = count(self.ends.len());
        self.sizes[2] = count(self.objectives.len());
        self.sizes[3] = count(self.literals.len());
    }

    pub fn words(&self) -> [u32; 8] {
        let [n, m, k, l] = self.sizes;
        let proper = offsets(self.sizes);
        let [a, b, c, d] = [0, 1, 2, 3].map(|i| proper[i].wrapping_add(self.slips[i]));
        [n, m, k, l, a, b, c, d]
    }

    pub fn bytes(&self) -> Vec<u8> {
        let words = self.words();
        let mut bytes: Vec<u8> = words
            .iter()
            .chain(&self.ends)
            .flat_map(|word| word.to_le_bytes())
            .collect();
        bytes.extend(&self.literals);
        bytes.extend(&self.objectives);
        bytes.extend(&self.tail);
        bytes
    }

    /// Where header, ends, literals and objectives stand in the bytes.
    pub fn sections(&self) -> [Range<usize>; 4] {
        let literals_at = HEADER_BYTES + WORD_BYTES * self.ends.len();
        let objectives_at = literals_at + self.literals.len();
        let tail_at = objectives_at + self.objectives.len();
        [
            0..HEADER_BYTES,
            HEADER_BYTES..literals_at,
            literals_at..objectives_at,
            objectives_at..tail_at,
        ]
    }
}

/// Words 4 to 7 for these sizes, modulo 2^32: a reader that wraps would find them right.
fn offsets([_, m, k, l]: [u32; 4]) -> [u32; 4] {
    let ends_at = HEADER_BYTES as u32;
    let literals_at = ends_at.wrapping_add(m.wrapping_mul(WORD_BYTES as u32));
    let objectives_at = literals_at.wrapping_add(l);
    let total = objectives_at.wrapping_add(k);
    [ends_at, literals_at, objectives_at, total]
}

fn running_totals(clauses: &[Vec<i8>]) -> Vec<u32> {
    clauses
        .iter()
        .scan(0u32, |total, clause| {
            *total += u32::try_from(clause.len()).expect("clauses are short");
            Some(*total)
        })
        .collect()
}

fn byte(literal: i8) -> u8 {
    literal.to_le_bytes()[0]
}

#[cfg(test)]
mod tests {
    use super::Draft;

    fn draft() -> Draft {
        Draft {
            sizes: [3, 2, 1, 3],
            slips: [0, u32::MAX, 0, 5],
            ends: vec![7, 1],
            literals: vec![0, 128, 3],
            objectives: vec![9],
            tail: vec![1, 2],
        }
    }

    #[test]
    fn faults_survive_bytes_and_back() {
        assert_eq!(Draft::from_bytes(&draft().bytes()), Some(draft()));
    }

    #[test]
    fn words_follow_the_sizes_and_keep_the_slips() {
        assert_eq!(draft().words(), [3, 2, 1, 3, 32, 39, 43, 49]);
    }

    #[test]
    fn sizes_that_do_not_fit_give_no_parts() {
        let mut cut = draft().bytes();
        cut.truncate(43);
        assert_eq!(Draft::from_bytes(&cut), None);
        let mut wrapping = draft();
        wrapping.sizes[1] += 1 << 30;
        assert_eq!(Draft::from_bytes(&wrapping.bytes()), None);
    }
}
