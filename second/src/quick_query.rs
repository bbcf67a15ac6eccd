//! A whole query by the quick walk, with the shape of the core's.

use crate::containment::Containment;
use crate::query::checked;
use crate::quick::{walk, Walked};

/// As [`core::query`](crate::core::query).
pub fn query<C: Containment>(
    sheet: &[u8],
    question: u8,
    allowance: u64,
    store: &mut [u64],
    witness: &mut [u8],
    counts: &mut [u64; 3],
) -> u8 {
    let (sheet, question) = match checked(sheet, question, witness.len()) {
        Ok(checked) => checked,
        Err(refusal) => {
            *counts = [0, 0, 0];
            return refusal;
        }
    };
    let walked = walk::<C>(&sheet, question, allowance, store);
    *counts = [walked.steps, walked.tests, walked.stored as u64];
    write_witness(&walked, &mut witness[..sheet.n as usize]);
    walked.code
}

fn write_witness(walked: &Walked, values: &mut [u8]) {
    if let Some(atoms) = walked.witness {
        for (place, value) in values.iter_mut().enumerate() {
            *value = (atoms >> place & 1) as u8;
        }
    }
}

#[cfg(test)]
mod tests;
