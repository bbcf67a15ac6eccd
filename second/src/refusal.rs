//! The codes of document 01 that refuse a sheet, in the order of the checks.

pub type Refusal = u8;

pub const UNDER_32_BYTES: Refusal = 10;
pub const SIZE_OUT_OF_RANGE: Refusal = 11;
pub const LAYOUT_OR_LENGTH: Refusal = 12;
pub const CLAUSE_ENDS: Refusal = 13;
pub const CLAUSE_BYTE: Refusal = 14;
pub const OBJECTIVE_BYTE: Refusal = 15;

pub const ALL: [Refusal; 6] = [
    UNDER_32_BYTES,
    SIZE_OUT_OF_RANGE,
    LAYOUT_OR_LENGTH,
    CLAUSE_ENDS,
    CLAUSE_BYTE,
    OBJECTIVE_BYTE,
];
