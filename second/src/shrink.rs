//! Makes bytes on which two answers differ as small as it can, greedily.

use crate::parts::Part;
use crate::sheet::{HEADER_BYTES, WORD_BYTES};
use std::ops::Range;

/// A difference is worth some seconds, not the whole run, and a step without success
/// in a long sheet has to leave some trials to the next.
const TRIALS_PER_STEP: u32 = 20_000;
const MOST_TRIALS: u32 = 100_000;

/// Whole parts first: what remains then still looks like a sheet.
const STEPS: [fn(&mut Search); 8] = [
    |search| search.cut_the_tail(),
    |search| search.drop_ranges(Part::Clauses),
    |search| search.drop_ranges(Part::Literals),
    |search| search.drop_ranges(Part::Objectives),
    |search| search.drop_ranges(Part::Bytes),
    |search| search.clear_ranges(),
    |search| search.lower_words(),
    |search| search.lower_bytes(),
];

pub fn shrink(bytes: &[u8], still_differ: &dyn Fn(&[u8]) -> bool) -> Vec<u8> {
    let mut search = Search {
        smallest: bytes.to_vec(),
        still_differ,
        trials_left: 0,
    };
    let mut trials_left = MOST_TRIALS;
    loop {
        let before = search.smallest.clone();
        for step in STEPS {
            let given = trials_left.min(TRIALS_PER_STEP);
            search.trials_left = given;
            step(&mut search);
            trials_left -= given - search.trials_left;
        }
        if search.smallest == before {
            return before;
        }
    }
}

struct Search<'a> {
    smallest: Vec<u8>,
    still_differ: &'a dyn Fn(&[u8]) -> bool,
    trials_left: u32,
}

impl Search<'_> {
    /// Whatever is taken is smaller, so no step undoes another.
    fn take(&mut self, candidate: Vec<u8>) -> bool {
        if self.trials_left == 0 || !is_smaller(&candidate, &self.smallest) {
            return false;
        }
        self.trials_left -= 1;
        let taken = (self.still_differ)(&candidate);
        if taken {
            self.smallest = candidate;
        }
        taken
    }

    fn cut_the_tail(&mut self) {
        for cut in halvings(self.smallest.len()) {
            while cut <= self.smallest.len() {
                let kept = self.smallest.len() - cut;
                if !self.take(self.smallest[..kept].to_vec()) {
                    break;
                }
            }
        }
    }

    fn drop_ranges(&mut self, part: Part) {
        for size in halvings(part.count(&self.smallest)) {
            let mut start = 0;
            while start + size <= part.count(&self.smallest) && self.trials_left > 0 {
                let shorter = part.without(&self.smallest, start..start + size);
                if !self.take(shorter) {
                    start += size;
                }
            }
        }
    }

    fn clear_ranges(&mut self) {
        let length = self.smallest.len();
        for size in halvings(length) {
            for start in (0..=length - size).step_by(size) {
                self.clear(start..start + size);
            }
        }
    }

    fn clear(&mut self, range: Range<usize>) {
        if self.smallest[range.clone()].iter().any(|&byte| byte > 0) {
            let mut candidate = self.smallest.clone();
            candidate[range].fill(0);
            self.take(candidate);
        }
    }

    fn lower_words(&mut self) {
        let header_words = self.smallest.len().min(HEADER_BYTES) / WORD_BYTES;
        let ends = Part::Clauses.count(&self.smallest);
        for word in 0..header_words + ends {
            let place = WORD_BYTES * word;
            self.lower_number(place, WORD_BYTES);
        }
    }

    fn lower_bytes(&mut self) {
        for place in 0..self.smallest.len() {
            self.lower_number(place, 1);
        }
    }

    /// To 0 if that can be, else down by ever smaller amounts.
    fn lower_number(&mut self, place: usize, width: usize) {
        let value = number(&self.smallest[place..place + width]);
        for amount in halvings(value) {
            let value = number(&self.smallest[place..place + width]);
            if let Some(lower) = value.checked_sub(amount) {
                let mut candidate = self.smallest.clone();
                candidate[place..place + width].copy_from_slice(&lower.to_le_bytes()[..width]);
                self.take(candidate);
            }
        }
    }
}

/// Shorter, or as long and less as one little-endian number.
fn is_smaller(candidate: &[u8], than: &[u8]) -> bool {
    let shorter = candidate.len() < than.len();
    shorter || candidate.len() == than.len() && candidate.iter().rev().lt(than.iter().rev())
}

fn number(little_endian: &[u8]) -> usize {
    little_endian
        .iter()
        .rev()
        .fold(0, |number, &byte| number << 8 | usize::from(byte))
}

/// The number itself, its half, and so on down to 1.
pub fn halvings(number: usize) -> impl Iterator<Item = usize> {
    std::iter::successors(Some(number), |&number| Some(number / 2)).take_while(|&number| number > 0)
}

#[cfg(test)]
mod tests;
