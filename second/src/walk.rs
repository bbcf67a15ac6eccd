//! The walk of document 01, put down as it stands there: slow and plain.

use crate::code;
use crate::sheet::Sheet;

#[derive(Clone, Debug, PartialEq, Eq)]
pub struct Walked {
    pub code: u8,
    pub steps: u64,
    pub tests: u64,
    /// The parts in the order found, bit i for objective position i.
    pub stored: Vec<u64>,
    /// On yes, the values of the atoms from 1.
    pub witness: Option<Vec<bool>>,
}

pub fn walk(sheet: &Sheet, question: i8, allowance: u64, places: usize) -> Walked {
    let mut walk = Walk {
        sheet,
        question,
        allowance,
        places,
        order: branch_order(sheet),
        steps: 0,
        tests: 0,
        stored: Vec::new(),
    };
    let (code, witness) = match walk.candidate_walk(&Node::root(sheet.n)) {
        Ok(()) => (code::NO, None),
        Err(End::Yes(witness)) => (code::YES, Some(witness)),
        Err(End::AllowanceSpent) => (code::ALLOWANCE_SPENT, None),
        Err(End::StoreFull) => (code::STORE_FULL, None),
    };
    Walked {
        code,
        steps: walk.steps,
        tests: walk.tests,
        stored: walk.stored,
        witness,
    }
}

/// One literal for each atom: the atom with the value it has first.
pub(crate) fn branch_order(sheet: &Sheet) -> Vec<i8> {
    let mut order: Vec<i8> = Vec::new();
    for literal in sheet.objectives.iter().copied().chain(1..=sheet.n as i8) {
        if !order.contains(&literal) && !order.contains(&-literal) {
            order.push(literal);
        }
    }
    order
}

/// A prefix of the branch order with values.
#[derive(Clone)]
struct Node {
    depth: usize,
    /// Of the atoms from 1, none where the prefix does not reach.
    values: Vec<Option<bool>>,
}

impl Node {
    fn root(n: u32) -> Node {
        Node {
            depth: 0,
            values: vec![None; n as usize],
        }
    }

    fn child(&self, literal: i8) -> Node {
        let mut child = self.clone();
        child.depth += 1;
        child.values[place(literal)] = Some(literal > 0);
        child
    }

    fn is_true(&self, literal: i8) -> bool {
        self.values[place(literal)] == Some(literal > 0)
    }

    fn is_false(&self, literal: i8) -> bool {
        self.is_true(-literal)
    }

    fn part(&self, objectives: &[i8]) -> u64 {
        let positions = 0..objectives.len();
        let met = positions.filter(|&position| self.is_true(objectives[position]));
        met.map(|position| 1u64 << position).sum()
    }
}

fn place(literal: i8) -> usize {
    usize::from(literal.unsigned_abs()) - 1
}

enum End {
    Yes(Vec<bool>),
    AllowanceSpent,
    StoreFull,
}

struct Walk<'a> {
    sheet: &'a Sheet,
    question: i8,
    allowance: u64,
    places: usize,
    order: Vec<i8>,
    steps: u64,
    tests: u64,
    stored: Vec<u64>,
}

impl Walk<'_> {
    fn candidate_walk(&mut self, node: &Node) -> Result<(), End> {
        self.visit()?;
        if self.a_clause_is_false(node) || node.is_false(self.question) {
            return Ok(());
        }
        if self.is_full(node) {
            return self.candidate(node);
        }
        for child in self.children(node) {
            self.candidate_walk(&child)?;
        }
        Ok(())
    }

    fn candidate(&mut self, node: &Node) -> Result<(), End> {
        let part = node.part(&self.sheet.objectives);
        if self
            .stored
            .iter()
            .any(|&stored| strictly_contains(stored, part))
        {
            return Ok(());
        }
        self.tests += 1;
        match self.test(&Node::root(self.sheet.n), node)? {
            None => Err(End::Yes(node.values.iter().copied().flatten().collect())),
            Some(_) if self.stored.len() == self.places => Err(End::StoreFull),
            Some(found) => {
                self.stored.push(found);
                Ok(())
            }
        }
    }

    /// The part of the first full node that is above the candidate.
    fn test(&mut self, node: &Node, candidate: &Node) -> Result<Option<u64>, End> {
        self.visit()?;
        if self.a_clause_is_false(node)
            || node.is_true(self.question)
            || self.an_objective_is_lost(node, candidate)
        {
            return Ok(None);
        }
        if self.is_full(node) {
            let part = node.part(&self.sheet.objectives);
            let above = strictly_contains(part, candidate.part(&self.sheet.objectives));
            return Ok(above.then_some(part));
        }
        for child in self.children(node) {
            if let Some(found) = self.test(&child, candidate)? {
                return Ok(Some(found));
            }
        }
        Ok(None)
    }

    fn visit(&mut self) -> Result<(), End> {
        if self.steps == self.allowance {
            return Err(End::AllowanceSpent);
        }
        self.steps += 1;
        Ok(())
    }

    fn a_clause_is_false(&self, node: &Node) -> bool {
        let is_false = |clause: &Vec<i8>| clause.iter().all(|&literal| node.is_false(literal));
        self.sheet.clauses.iter().any(is_false)
    }

    fn an_objective_is_lost(&self, node: &Node, candidate: &Node) -> bool {
        let is_lost = |&objective| candidate.is_true(objective) && node.is_false(objective);
        self.sheet.objectives.iter().any(is_lost)
    }

    fn is_full(&self, node: &Node) -> bool {
        node.depth == self.order.len()
    }

    fn children(&self, node: &Node) -> [Node; 2] {
        let first = self.order[node.depth];
        [node.child(first), node.child(-first)]
    }
}

fn strictly_contains(part: u64, other: u64) -> bool {
    part & other == other && part != other
}

#[cfg(test)]
mod tests;
