//! Holds an outcome against the meaning of its query, whatever the walk says.

use crate::code;
use crate::meaning::{Meaning, MOST_ATOMS};
use crate::query::{Outcome, Query};
use std::collections::HashSet;

/// What in the outcome goes against the meaning. Refused queries and sheets with too many
/// models are not judged.
pub fn violation(query: &Query, outcome: &Outcome) -> Option<&'static str> {
    let (sheet, question) = query.checked().ok()?;
    if sheet.n > MOST_ATOMS {
        return None;
    }
    let meaning = Meaning::of(&sheet, question);
    let witness = &outcome.lent_witness()[..sheet.n as usize];
    let answer = match outcome.code {
        code::YES => wrong_yes(&meaning, witness),
        code::NO => wrong_no(&meaning),
        code::ALLOWANCE_SPENT => None,
        code::STORE_FULL => wrong_store_full(&meaning, query.places),
        _ => Some("the code is none for a query past the checks"),
    };
    answer.or_else(|| wrong_counts(&meaning, outcome))
}

fn wrong_yes(meaning: &Meaning, witness: &[u8]) -> Option<&'static str> {
    let Some(model) = meaning.model(witness) else {
        return Some("yes, and the witness is no model");
    };
    if !meaning.affirms(model) {
        return Some("yes, and the witness does not satisfy the question");
    }
    if !meaning.is_optimal(model) {
        return Some("yes, and the witness is not optimal");
    }
    let is_first = meaning.first_optimal_affirming() == Some(model);
    (!is_first).then_some("yes, and an optimal affirming model stands before the witness")
}

fn wrong_no(meaning: &Meaning) -> Option<&'static str> {
    let some = meaning.first_optimal_affirming();
    some.map(|_| "no, and an optimal model satisfies the question")
}

fn wrong_store_full(meaning: &Meaning, places: usize) -> Option<&'static str> {
    let enough = places as u64 >= meaning.denying_parts();
    enough.then_some("19, and there are places for all maximal parts of denying models")
}

fn wrong_counts(meaning: &Meaning, outcome: &Outcome) -> Option<&'static str> {
    let [_, tests, stored] = outcome.counts;
    if tests > meaning.affirming_parts() {
        return Some("more tests than maximal parts of affirming models");
    }
    if stored > meaning.denying_parts() {
        return Some("more stored than maximal parts of denying models");
    }
    let Some(parts) = outcome.lent_store().get(..stored as usize) else {
        return Some("more stored than places");
    };
    let distinct: HashSet<&u64> = parts.iter().collect();
    (distinct.len() < parts.len()).then_some("a part is stored twice")
}

#[cfg(test)]
mod tests;
