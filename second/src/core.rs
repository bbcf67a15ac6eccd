//! The proved core for Rust programs: its C interface as two safe functions of the same shape.
//! The only unsafe code of this package.
//!
//! Both functions answer every argument: no sheet, question or length of a buffer has to be
//! checked before, and empty slices will do. The core keeps no state, allocates nothing, keeps
//! none of what it is lent and can be called from several threads at once. A query needs about
//! 73 KiB of stack at the deepest; it touches its stack page by page, so that a thread with too
//! little of it ends at the guard page.

extern "C" {
    fn jarvulpe_check(sheet: *const u8, sheet_length: usize, sizes: *mut [u32; 3]) -> u8;

    fn jarvulpe_query(
        sheet: *const u8,
        sheet_length: usize,
        question: u8,
        allowance: u64,
        store: *mut u64,
        places: usize,
        witness: *mut u8,
        witness_length: usize,
        counts: *mut [u64; 3],
    ) -> u8;
}

/// The shape of [`query`], for what can stand in its place.
pub type Answering = fn(&[u8], u8, u64, &mut [u64], &mut [u8], &mut [u64; 3]) -> u8;

/// Checks a sheet alone.
///
/// Gives 0 for a sheet that is accepted, and its numbers of atoms, clauses and objectives stand
/// in `sizes`. Gives the refusal for any other, one of [`refusal::ALL`](crate::refusal::ALL),
/// and `sizes` keeps its values.
pub fn check(sheet: &[u8], sizes: &mut [u32; 3]) -> u8 {
    // SAFETY: pointer and length are those of one slice, and the three places are lent to
    // the call alone.
    unsafe { jarvulpe_check(sheet.as_ptr(), sheet.len(), sizes) }
}

/// Asks whether some optimal model of the sheet satisfies the question.
///
/// The question is a literal as one byte: an atom, or 256 less an atom for its negation, as in
/// `(-3i8) as u8`. The walk makes at most `allowance` visits and stores at most as many parts as
/// `store` has places.
///
/// | code | what it says | `witness` | `store` |
/// |---|---|---|---|
/// | 1 | yes | the first such model | the parts stored on the way |
/// | 2 | no | untouched | the parts stored on the way |
/// | 10 to 15 | the sheet is refused, as by [`check`] | untouched | untouched |
/// | 16 | the question is no literal of the sheet | untouched | untouched |
/// | 17 | `witness` has fewer bytes than the sheet has atoms | untouched | untouched |
/// | 18 | another visit is due and the allowance is spent | untouched | the parts stored so far |
/// | 19 | a part is to be stored and no place is free | untouched | the parts stored so far |
///
/// The first n bytes of the witness hold 1 for a true atom and 0 for a false one, from atom 1 on.
/// A part has bit i for objective position i; the parts stand in the first places in the order
/// found. What lies behind is untouched in both buffers. `counts` is always written: steps,
/// tests and stored parts, all 0 for a refusal.
pub fn query(
    sheet: &[u8],
    question: u8,
    allowance: u64,
    store: &mut [u64],
    witness: &mut [u8],
    counts: &mut [u64; 3],
) -> u8 {
    // SAFETY: each pointer and the length after it are those of one slice. The sheet is only
    // read; the two buffers and the three counts are lent to the call alone.
    unsafe {
        jarvulpe_query(
            sheet.as_ptr(),
            sheet.len(),
            question,
            allowance,
            store.as_mut_ptr(),
            store.len(),
            witness.as_mut_ptr(),
            witness.len(),
            counts,
        )
    }
}

#[cfg(test)]
mod tests;
