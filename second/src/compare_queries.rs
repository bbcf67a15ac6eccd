//! Runs a family of queries: asks both, compares whole outcomes, and holds the core's
//! against the meaning.

use crate::code;
use crate::counts::Counts;
use crate::judge::violation;
use crate::queries::QueryFamily;
use crate::query::{Outcome, Query};
use crate::shrink_query::{shrink_query, Trial};

/// Asks the core, or in tests something that stands for it.
pub type Ask = fn(&Query) -> Outcome;

pub struct Found {
    pub index: u64,
    pub found: Query,
    pub shrunk: Query,
}

/// All faults of one kind. The first is enough to go by.
#[derive(Default)]
pub struct Faults {
    pub count: u64,
    pub first: Option<Found>,
}

/// How much the queries asked of the core, by the own walk.
#[derive(Clone, Debug, PartialEq, Eq)]
pub struct Reach {
    pub codes: Counts,
    pub several_tests: u64,
    pub several_stored: u64,
}

pub struct QueryComparison {
    pub reach: Reach,
    pub differences: Faults,
    pub violations: Faults,
}

impl Reach {
    pub fn none() -> Reach {
        Reach {
            codes: Counts::of(&code::OF_A_QUERY),
            several_tests: 0,
            several_stored: 0,
        }
    }

    pub fn add(&mut self, other: &Reach) {
        self.codes.add(&other.codes);
        self.several_tests += other.several_tests;
        self.several_stored += other.several_stored;
    }

    fn count(&mut self, outcome: &Outcome) {
        let [_, tests, stored] = outcome.counts;
        self.codes.count(outcome.code);
        self.several_tests += u64::from(tests > 1);
        self.several_stored += u64::from(stored > 1);
    }
}

impl QueryComparison {
    pub fn passes(&self) -> bool {
        self.differences.count == 0 && self.violations.count == 0
    }
}

pub fn compare_queries(family: &QueryFamily, seed: u64, queries: u64, ask: Ask) -> QueryComparison {
    let mut comparison = QueryComparison {
        reach: Reach::none(),
        differences: Faults::default(),
        violations: Faults::default(),
    };
    for index in 0..queries {
        let query = family.query(seed, index);
        let own = Outcome::by_own_walk(&query);
        let core = ask(&query);
        comparison.reach.count(&own);
        if own != core {
            comparison.differences.add(index, &query, ask, differs);
        }
        if violation(&query, &core).is_some() {
            comparison.violations.add(index, &query, ask, violates);
        }
    }
    comparison
}

type Fault = fn(&Query, own: &Outcome, core: &Outcome) -> bool;

fn differs(_query: &Query, own: &Outcome, core: &Outcome) -> bool {
    own != core
}

fn violates(query: &Query, _own: &Outcome, core: &Outcome) -> bool {
    violation(query, core).is_some()
}

impl Faults {
    fn add(&mut self, index: u64, query: &Query, ask: Ask, fault: Fault) {
        self.count += 1;
        self.first.get_or_insert_with(|| Found {
            index,
            found: query.clone(),
            shrunk: shrink_query(query, &|smaller| trial(smaller, ask, fault)),
        });
    }
}

fn trial(query: &Query, ask: Ask, fault: Fault) -> Trial {
    let own = Outcome::by_own_walk(query);
    let core = ask(query);
    let visits = own.counts[0] + 1;
    Trial {
        shows_the_fault: fault(query, &own, &core),
        work: visits * (query.sheet.len() as u64 + 1),
    }
}

#[cfg(test)]
mod tests;
