//! What the shrinker takes away: plain bytes, or parts of a sheet together with
//! all that counts them, since bytes alone can rarely go without breaking the offsets.

use crate::draft::Draft;
use std::ops::Range;

#[derive(Clone, Copy, Debug, PartialEq, Eq)]
pub enum Part {
    Bytes,
    Clauses,
    Literals,
    Objectives,
}

impl Part {
    pub fn count(self, bytes: &[u8]) -> usize {
        if self == Part::Bytes {
            return bytes.len();
        }
        Draft::from_bytes(bytes).map_or(0, |draft| match self {
            Part::Clauses => draft.ends.len(),
            Part::Literals => draft.literals.len(),
            _ => draft.objectives.len(),
        })
    }

    /// The range lies within the count.
    pub fn without(self, bytes: &[u8], range: Range<usize>) -> Vec<u8> {
        let mut shorter = bytes.to_vec();
        if self == Part::Bytes {
            shorter.drain(range);
            return shorter;
        }
        let Some(mut draft) = Draft::from_bytes(bytes) else {
            return shorter;
        };
        match self {
            Part::Clauses => drop_clauses(&mut draft, range),
            Part::Literals => drop_literals(&mut draft, range),
            _ => drop(draft.objectives.drain(range)),
        }
        draft.count_parts();
        draft.bytes()
    }
}

/// With their literals, if the ends before and at the range tell which those are.
fn drop_clauses(draft: &mut Draft, range: Range<usize>) {
    let start = range.start.checked_sub(1).map_or(0, |i| draft.ends[i]);
    let end = draft.ends[range.end - 1];
    draft.ends.drain(range);
    if start < end && end as usize <= draft.literals.len() {
        drop_literals(draft, start as usize..end as usize);
    }
}

fn drop_literals(draft: &mut Draft, range: Range<usize>) {
    let dropped_before = |end: u32| (end as usize).clamp(range.start, range.end) - range.start;
    for end in &mut draft.ends {
        *end -= dropped_before(*end) as u32;
    }
    draft.literals.drain(range);
}

#[cfg(test)]
mod tests {
    use super::Part;
    use crate::sheet::Sheet;

    fn sheet(clauses: &[&[i8]], objectives: &[i8]) -> Vec<u8> {
        Sheet::of(4, clauses, objectives).write()
    }

    #[test]
    fn clauses_go_with_their_literals() {
        let bytes = sheet(&[&[1, 2], &[], &[3], &[-4, 4]], &[1]);
        let shorter = Part::Clauses.without(&bytes, 1..3);
        assert_eq!(shorter, sheet(&[&[1, 2], &[-4, 4]], &[1]));
    }

    #[test]
    fn literals_go_from_every_clause_of_the_range() {
        let bytes = sheet(&[&[1, 2], &[3], &[-4, 4]], &[]);
        let shorter = Part::Literals.without(&bytes, 1..4);
        assert_eq!(shorter, sheet(&[&[1], &[], &[4]], &[]));
    }

    #[test]
    fn objectives_go_and_the_rest_stays() {
        let bytes = sheet(&[&[1]], &[1, 2, 3]);
        let shorter = Part::Objectives.without(&bytes, 1..2);
        assert_eq!(shorter, sheet(&[&[1]], &[1, 3]));
    }

    #[test]
    fn bytes_without_a_header_have_no_other_parts() {
        assert_eq!(Part::Clauses.count(&[1; 20]), 0);
        assert_eq!(Part::Bytes.count(&[1; 20]), 20);
    }
}
