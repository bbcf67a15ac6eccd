//! Two faults in one sheet, for every ordered pair of codes: the check that comes first answers.

use super::clause_ends;
use super::valid;
use crate::draft::Draft;
use crate::random::Random;
use crate::refusal::{self, Refusal};
use crate::sheet::{HEADER_BYTES, MAX_CLAUSES, MAX_LITERALS, MAX_OBJECTIVES};

pub fn both(index: u64, random: &mut Random) -> Vec<u8> {
    let (first, second) = codes(index);
    let mut draft = Draft::of(&valid::sheet_with_all_parts(random));
    add_fault(first, &mut draft, random);
    add_fault(second, &mut draft, random);
    let mut bytes = draft.bytes();
    if [first, second].contains(&refusal::UNDER_32_BYTES) {
        bytes.truncate(random.place_in(HEADER_BYTES));
    }
    bytes
}

/// Both orders, since the fault put in later may be built on the earlier one.
pub fn codes(index: u64) -> (Refusal, Refusal) {
    let count = refusal::ALL.len();
    let case = index as usize % (count * (count - 1));
    let first = case / (count - 1);
    let second = (first + 1 + case % (count - 1)) % count;
    (refusal::ALL[first], refusal::ALL[second])
}

fn add_fault(code: Refusal, draft: &mut Draft, random: &mut Random) {
    match code {
        refusal::SIZE_OUT_OF_RANGE => put_a_size_out_of_range(draft, random),
        refusal::LAYOUT_OR_LENGTH => break_the_layout(draft, random),
        refusal::CLAUSE_ENDS => break_the_ends(draft, random),
        refusal::CLAUSE_BYTE => {
            let place = random.place_in(draft.literals.len());
            draft.literals[place] = never_a_literal(random);
        }
        refusal::OBJECTIVE_BYTE => break_an_objective(draft, random),
        // A cut is made last, on the joined bytes.
        _ => {}
    }
}

fn put_a_size_out_of_range(draft: &mut Draft, random: &mut Random) {
    match random.below(20) {
        0..=9 => draft.sizes[0] = random.pick(&[0, 65, 128, 256, u32::MAX]),
        10..=13 => {
            let word = random.place_in(3) + 1;
            draft.sizes[word] = random.pick(&[u32::MAX, 1 << 16, 1 << 30]);
        }
        14..=17 => {
            draft.objectives.resize(MAX_OBJECTIVES as usize + 1, 1);
            draft.count_parts();
        }
        18 => {
            draft.ends.resize(MAX_CLAUSES as usize + 1, draft.sizes[3]);
            draft.count_parts();
        }
        _ => {
            draft.literals.resize(MAX_LITERALS as usize + 1, 1);
            draft.count_parts();
        }
    }
}

fn break_the_layout(draft: &mut Draft, random: &mut Random) {
    if random.one_in(3) {
        let length = random.between(1, 9) as usize;
        draft.tail = random.bytes(length);
        return;
    }
    let slip = random.place_in(draft.slips.len());
    draft.slips[slip] = random.pick(&[1, 4, 256, 1 << 16, 1 << 31, u32::MAX]);
}

fn break_the_ends(draft: &mut Draft, random: &mut Random) {
    match random.below(3) {
        0 => clause_ends::fall_after_some_end(draft, random),
        // An m out of range is the other fault and has to stay.
        1 if draft.sizes[1] <= MAX_CLAUSES => clause_ends::leave_literals_without_a_clause(draft),
        _ => clause_ends::move_the_last(draft, random),
    }
}

fn break_an_objective(draft: &mut Draft, random: &mut Random) {
    let place = random.place_in(draft.objectives.len() - 1);
    draft.objectives[place] = match random.one_in(2) {
        true => draft.objectives[place + 1],
        false => never_a_literal(random),
    };
}

/// For no n up to 65, the first that the other fault may put there.
fn never_a_literal(random: &mut Random) -> u8 {
    random.pick(&[0, 128, 127, 129])
}
