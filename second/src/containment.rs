//! Whether one part contains another, in two ways with the same answers.

/// How a walk compares parts: bit i of a part stands for objective position i.
pub trait Containment {
    /// Whether every position of the other part is one of this.
    fn contains(part: u64, other: u64) -> bool;

    fn strictly_contains(part: u64, other: u64) -> bool {
        Self::contains(part, other) && !Self::contains(other, part)
    }
}

/// Through the positions one by one: the core's way, so that times can be compared.
pub struct ByPositions;

impl Containment for ByPositions {
    fn contains(part: u64, other: u64) -> bool {
        let has = |part: u64, position| part >> position & 1 == 1;
        (0..u64::BITS).all(|position| !has(other, position) || has(part, position))
    }
}

/// On whole words: what one would write in Rust.
pub struct OnWords;

impl Containment for OnWords {
    fn contains(part: u64, other: u64) -> bool {
        part & other == other
    }
}
