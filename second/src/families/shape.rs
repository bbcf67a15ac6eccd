//! How large a sheet is to be.

use crate::random::Random;
use crate::sheet::{MAX_ATOMS, MAX_CLAUSES, MAX_LITERALS, MAX_OBJECTIVES};

#[derive(Clone, Copy, Debug, PartialEq, Eq)]
pub struct Shape {
    pub n: u32,
    pub m: u32,
    pub k: u32,
    pub literals: u32,
}

/// 32 + 4 * 1,024 + 8,192 + 64 bytes.
pub const LARGEST: Shape = Shape {
    n: MAX_ATOMS,
    m: MAX_CLAUSES,
    k: MAX_OBJECTIVES,
    literals: MAX_LITERALS,
};

impl Shape {
    /// Mostly small, since a fault is reached sooner where little stands beside it.
    pub fn any(random: &mut Random) -> Shape {
        match random.below(400) {
            0 => LARGEST,
            1..=8 => Shape::within(LARGEST, random),
            9..=50 => Shape::within(limits(MAX_ATOMS, 40, MAX_OBJECTIVES, 200), random),
            _ => Shape::within(limits(8, 6, 6, 12), random),
        }
    }

    /// Enough parts for every fault to find a place.
    pub fn with_all_parts(random: &mut Random) -> Shape {
        let shape = Shape::any(random);
        Shape {
            m: shape.m.max(2),
            k: shape.k.max(2),
            literals: shape.literals.max(2),
            ..shape
        }
    }

    fn within(limits: Shape, random: &mut Random) -> Shape {
        let n = random.between(1, limits.n);
        let m = random.between(0, limits.m);
        let most_literals = if m == 0 { 0 } else { limits.literals };
        Shape {
            n,
            m,
            k: random.between(0, limits.k.min(most_objectives(n))),
            literals: random.between(0, most_literals),
        }
    }
}

/// No literal stands twice among the objectives.
pub fn most_objectives(n: u32) -> u32 {
    MAX_OBJECTIVES.min(2 * n)
}

fn limits(n: u32, m: u32, k: u32, literals: u32) -> Shape {
    Shape { n, m, k, literals }
}
