//! Clause ends that fall, stop short of L or pass it, and neighbours that are sound.

use super::valid;
use crate::draft::Draft;
use crate::random::Random;

pub fn changed(_index: u64, random: &mut Random) -> Vec<u8> {
    let mut draft = Draft::of(&valid::sheet_with_all_parts(random));
    match random.below(7) {
        0 => fall_after_some_end(&mut draft, random),
        1 => move_the_last(&mut draft, random),
        2 => move_all(&mut draft, random),
        3 => leave_literals_without_a_clause(&mut draft),
        4 => swap_two(&mut draft, random),
        5 => empty_some_clause(&mut draft, random),
        _ => replace_one(&mut draft, random),
    }
    draft.bytes()
}

pub fn fall_after_some_end(draft: &mut Draft, random: &mut Random) {
    let place = random.place_in(draft.ends.len() - 1);
    let next = draft.ends[place + 1];
    let above = random.pick(&[1, 1, 2, 256, 1 << 31, u32::MAX - next]);
    draft.ends[place] = next.saturating_add(above);
}

pub fn move_the_last(draft: &mut Draft, random: &mut Random) {
    let last = draft.ends.last_mut().expect("a sheet with all parts");
    *last = random.pick(&[
        last.wrapping_sub(1),
        last.wrapping_add(1),
        last.wrapping_add(1 << 16),
        last.wrapping_add(1 << 31),
        u32::MAX,
    ]);
}

fn move_all(draft: &mut Draft, random: &mut Random) {
    let by = random.pick(&[1, 2, 255, u32::MAX]);
    for end in &mut draft.ends {
        *end = end.wrapping_add(by);
    }
}

pub fn leave_literals_without_a_clause(draft: &mut Draft) {
    draft.ends.clear();
    draft.sizes[1] = 0;
}

fn swap_two(draft: &mut Draft, random: &mut Random) {
    let one = random.place_in(draft.ends.len());
    let other = random.place_in(draft.ends.len());
    draft.ends.swap(one, other);
}

fn empty_some_clause(draft: &mut Draft, random: &mut Random) {
    let place = random.place_in(draft.ends.len() - 1);
    draft.ends[place] = draft.ends[place + 1];
}

fn replace_one(draft: &mut Draft, random: &mut Random) {
    let place = random.place_in(draft.ends.len());
    draft.ends[place] = match random.one_in(4) {
        true => random.word(),
        false => random.between(0, draft.sizes[3] + 1),
    };
}
