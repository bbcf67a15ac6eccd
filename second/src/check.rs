//! What a check of the sheet alone answers.

use crate::core;
use crate::sheet::Sheet;
use std::fmt;

pub const ACCEPTED: u8 = 0;

/// In the order of the checks.
pub const ANSWERS: [u8; 7] = [ACCEPTED, 10, 11, 12, 13, 14, 15];

/// Stands in the three places before a check. No sheet has such sizes,
/// so a refusal that writes there is seen.
pub const UNTOUCHED: [u32; 3] = [0xA5C3_0F1E, 0x96B4_2D78, 0xE187_4BD2];

#[derive(Clone, Copy, Debug, PartialEq, Eq)]
pub struct CheckAnswer {
    pub code: u8,
    /// n, m and k after the check.
    pub sizes: [u32; 3],
}

impl CheckAnswer {
    pub fn by_core(bytes: &[u8]) -> CheckAnswer {
        let mut sizes = UNTOUCHED;
        let code = core::check(bytes, &mut sizes);
        CheckAnswer { code, sizes }
    }

    pub fn by_own_reader(bytes: &[u8]) -> CheckAnswer {
        match Sheet::read(bytes) {
            Ok(sheet) => CheckAnswer {
                code: ACCEPTED,
                sizes: sheet.sizes(),
            },
            Err(code) => CheckAnswer {
                code,
                sizes: UNTOUCHED,
            },
        }
    }
}

impl fmt::Display for CheckAnswer {
    fn fmt(&self, out: &mut fmt::Formatter) -> fmt::Result {
        if self.sizes == UNTOUCHED {
            return write!(out, "code {}, sizes untouched", self.code);
        }
        let [n, m, k] = self.sizes;
        write!(out, "code {}, sizes {n} {m} {k}", self.code)
    }
}
