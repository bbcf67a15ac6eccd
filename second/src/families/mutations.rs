//! Valid sheets with bytes or words changed anywhere.

use super::valid;
use crate::draft::Draft;
use crate::random::Random;
use crate::sheet::{HEADER_BYTES, WORD_BYTES};

pub fn one_byte(_index: u64, random: &mut Random) -> Vec<u8> {
    mutated(1, random, change_byte)
}

pub fn one_word(_index: u64, random: &mut Random) -> Vec<u8> {
    mutated(1, random, change_word)
}

pub fn several(_index: u64, random: &mut Random) -> Vec<u8> {
    let times = random.between(2, 6);
    mutated(times, random, |bytes, draft, random| {
        if random.one_in(2) {
            change_byte(bytes, draft, random);
        } else {
            change_word(bytes, draft, random);
        }
    })
}

fn mutated(times: u32, random: &mut Random, change: fn(&mut [u8], &Draft, &mut Random)) -> Vec<u8> {
    let draft = Draft::of(&valid::sheet(random));
    let mut bytes = draft.bytes();
    for _ in 0..times {
        change(&mut bytes, &draft, random);
    }
    bytes
}

fn change_byte(bytes: &mut [u8], draft: &Draft, random: &mut Random) {
    let place = place_in_some_section(draft, random);
    let old = bytes[place];
    let n = draft.sizes[0] as u8;
    bytes[place] = match random.below(5) {
        0 => random.byte(),
        1 => old.wrapping_add(1),
        2 => old.wrapping_sub(1),
        3 => old ^ (1 << random.below(8)),
        _ => random.pick(&[0, 1, 127, 128, 129, 255, n + 1, 255 - n]),
    };
}

/// Sections first, since in a large sheet the header would hardly ever be met.
fn place_in_some_section(draft: &Draft, random: &mut Random) -> usize {
    let mut sections = draft.sections().to_vec();
    sections.retain(|section| !section.is_empty());
    let section = &sections[random.place_in(sections.len())];
    section.start + random.place_in(section.len())
}

fn change_word(bytes: &mut [u8], draft: &Draft, random: &mut Random) {
    let (place, limit) = word_and_limit(draft, random);
    let word = &mut bytes[place..place + WORD_BYTES];
    let old = u32::from_le_bytes([word[0], word[1], word[2], word[3]]);
    word.copy_from_slice(&changed_word(old, limit, random).to_le_bytes());
}

fn word_and_limit(draft: &Draft, random: &mut Random) -> (usize, u32) {
    const HEADER_LIMITS: [u32; 8] = [64, 1_024, 64, 8_192, 32, 4_128, 12_320, 12_384];
    if draft.ends.is_empty() || random.one_in(2) {
        let word = random.place_in(HEADER_LIMITS.len());
        return (WORD_BYTES * word, HEADER_LIMITS[word]);
    }
    let end = match random.below(4) {
        0 => 0,
        1 => draft.ends.len() - 1,
        _ => random.place_in(draft.ends.len()),
    };
    (HEADER_BYTES + WORD_BYTES * end, draft.sizes[3])
}

pub fn changed_word(old: u32, limit: u32, random: &mut Random) -> u32 {
    match random.below(8) {
        0 => 0,
        1 => limit,
        2 => limit + 1,
        3 => u32::MAX,
        4 => old.wrapping_add(1),
        5 => old.wrapping_sub(1),
        6 => old ^ (1 << random.below(32)),
        _ => random.word(),
    }
}
