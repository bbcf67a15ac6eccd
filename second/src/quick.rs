//! The walk of document 01 on words: the same visits as the plain walk, written to be fast.
//!
//! Its method is the core's. Each visit looks at the clauses until one is false, without
//! tables or propagation, so that the time of a visit can be set beside the core's. How
//! parts are compared is the caller's choice.

use crate::code;
use crate::containment::Containment;
use crate::sheet::Sheet;
use crate::walk::branch_order;
use std::marker::PhantomData;
use std::ops::ControlFlow::{self, Break, Continue};

#[derive(Clone, Copy, Debug, PartialEq, Eq)]
pub struct Walked {
    pub code: u8,
    pub steps: u64,
    pub tests: u64,
    /// So many parts stand in the first places of the store, in the order found.
    pub stored: usize,
    /// On yes, the true atoms, bit i for atom i + 1.
    pub witness: Option<u64>,
}

pub fn walk<C: Containment>(
    sheet: &Sheet,
    question: i8,
    allowance: u64,
    store: &mut [u64],
) -> Walked {
    let sheet = Words::of(sheet);
    let question = Literals::one(question);
    let mut walk = Walk::<C> {
        sheet: &sheet,
        question,
        allowance,
        steps: 0,
        tests: 0,
        stored: 0,
        store,
        comparing: PhantomData,
    };
    let negation = question.complements();
    let (code, witness) = match walk.below(Literals::NONE, 0, negation, Walk::candidate) {
        Continue(()) => (code::NO, None),
        Break(Stop::Met(End::Yes(witness))) => (code::YES, Some(witness)),
        Break(Stop::Met(End::StoreFull)) => (code::STORE_FULL, None),
        Break(Stop::AllowanceSpent) => (code::ALLOWANCE_SPENT, None),
    };
    Walked {
        code,
        steps: walk.steps,
        tests: walk.tests,
        stored: walk.stored,
        witness,
    }
}

/// A set of literals as two sets of atoms, bit i for atom i + 1.
/// A node is the set of those that are true there.
#[derive(Clone, Copy)]
struct Literals {
    plain: u64,
    negated: u64,
}

impl Literals {
    const NONE: Literals = Literals {
        plain: 0,
        negated: 0,
    };

    fn one(literal: i8) -> Literals {
        let plain = Literals {
            plain: 1 << (literal.unsigned_abs() - 1),
            negated: 0,
        };
        match literal > 0 {
            true => plain,
            false => plain.complements(),
        }
    }

    fn of(literals: &[i8]) -> Literals {
        let ones = literals.iter().copied().map(Literals::one);
        ones.fold(Literals::NONE, Literals::with)
    }

    fn with(self, other: Literals) -> Literals {
        Literals {
            plain: self.plain | other.plain,
            negated: self.negated | other.negated,
        }
    }

    fn common(self, other: Literals) -> Literals {
        Literals {
            plain: self.plain & other.plain,
            negated: self.negated & other.negated,
        }
    }

    fn complements(self) -> Literals {
        Literals {
            plain: self.negated,
            negated: self.plain,
        }
    }

    fn is_empty(self) -> bool {
        self.plain | self.negated == 0
    }

    fn lies_within(self, other: Literals) -> bool {
        (self.plain & !other.plain) | (self.negated & !other.negated) == 0
    }
}

/// The sheet as the walk uses it.
struct Words {
    clauses: Vec<Literals>,
    /// By position, one literal each.
    objectives: Vec<Literals>,
    all_objectives: Literals,
    /// The literals of the first children by depth.
    order: Vec<Literals>,
}

impl Words {
    fn of(sheet: &Sheet) -> Words {
        let ones = |literals: &[i8]| literals.iter().copied().map(Literals::one).collect();
        let sets = sheet.clauses.iter().map(|clause| Literals::of(clause));
        Words {
            clauses: sets.collect(),
            objectives: ones(&sheet.objectives),
            all_objectives: Literals::of(&sheet.objectives),
            order: ones(&branch_order(sheet)),
        }
    }

    fn a_clause_is_false(&self, node: Literals) -> bool {
        let false_literals = node.complements();
        let is_false = |clause: &Literals| clause.lies_within(false_literals);
        self.clauses.iter().any(is_false)
    }

    fn part(&self, node: Literals) -> u64 {
        let mut part = 0;
        for (position, objective) in self.objectives.iter().enumerate() {
            part |= u64::from(objective.lies_within(node)) << position;
        }
        part
    }
}

/// Why a walk ends before its last node.
enum Stop<T> {
    AllowanceSpent,
    /// A full node ends it, with this.
    Met(T),
}

/// What a candidate ends the candidate walk with.
enum End {
    Yes(u64),
    StoreFull,
}

struct Walk<'a, C> {
    sheet: &'a Words,
    question: Literals,
    allowance: u64,
    steps: u64,
    tests: u64,
    stored: usize,
    store: &'a mut [u64],
    comparing: PhantomData<C>,
}

impl<C: Containment> Walk<'_, C> {
    /// Either walk from a node on. A node is also closed if a literal of the ban is true there.
    fn below<T, M>(
        &mut self,
        node: Literals,
        depth: usize,
        ban: Literals,
        meet: M,
    ) -> ControlFlow<Stop<T>>
    where
        M: Fn(&mut Self, Literals) -> ControlFlow<Stop<T>> + Copy,
    {
        if self.steps == self.allowance {
            return Break(Stop::AllowanceSpent);
        }
        self.steps += 1;
        if !ban.common(node).is_empty() || self.sheet.a_clause_is_false(node) {
            return Continue(());
        }
        let Some(&first) = self.sheet.order.get(depth) else {
            return meet(self, node);
        };
        self.below(node.with(first), depth + 1, ban, meet)?;
        self.below(node.with(first.complements()), depth + 1, ban, meet)
    }

    fn candidate(&mut self, node: Literals) -> ControlFlow<Stop<End>> {
        let part = self.sheet.part(node);
        if self.lies_within_a_stored_part(part) {
            return Continue(());
        }
        self.tests += 1;
        let met = self.sheet.all_objectives.common(node);
        let ban = self.question.with(met.complements());
        let above = move |walk: &mut Self, node| walk.above(part, node);
        match self.below(Literals::NONE, 0, ban, above) {
            Continue(()) => Break(Stop::Met(End::Yes(node.plain))),
            Break(Stop::Met(found)) => self.keep(found),
            Break(Stop::AllowanceSpent) => Break(Stop::AllowanceSpent),
        }
    }

    /// The newest first, as the core looks at them.
    fn lies_within_a_stored_part(&self, part: u64) -> bool {
        let mut newest_first = self.store[..self.stored].iter().rev();
        newest_first.any(|&stored| C::strictly_contains(stored, part))
    }

    /// What a full node of a test does: it is found if its part is above the candidate's.
    fn above(&self, candidate: u64, node: Literals) -> ControlFlow<Stop<u64>> {
        let part = self.sheet.part(node);
        match C::strictly_contains(part, candidate) {
            true => Break(Stop::Met(part)),
            false => Continue(()),
        }
    }

    fn keep(&mut self, part: u64) -> ControlFlow<Stop<End>> {
        let Some(place) = self.store.get_mut(self.stored) else {
            return Break(Stop::Met(End::StoreFull));
        };
        *place = part;
        self.stored += 1;
        Continue(())
    }
}

#[cfg(test)]
mod tests;
