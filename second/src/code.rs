//! The codes of document 01 that a query can give.

pub const YES: u8 = 1;
pub const NO: u8 = 2;
pub const QUESTION_BYTE: u8 = 16;
pub const SHORT_WITNESS: u8 = 17;
pub const ALLOWANCE_SPENT: u8 = 18;
pub const STORE_FULL: u8 = 19;

/// In the order of the table.
pub const OF_A_QUERY: [u8; 12] = [
    YES,
    NO,
    10,
    11,
    12,
    13,
    14,
    15,
    QUESTION_BYTE,
    SHORT_WITNESS,
    ALLOWANCE_SPENT,
    STORE_FULL,
];
