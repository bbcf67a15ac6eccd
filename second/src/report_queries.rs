//! The lines on queries that went wrong.

use crate::compare_queries::{Ask, Faults, Found, QueryComparison};
use crate::judge::violation;
use crate::query::{Outcome, Query};
use crate::report::{hex, hex_of_start};
use crate::sheet::Sheet;
use std::fmt::Write;

pub fn fault_lines(seed: u64, name: &str, comparison: &QueryComparison, ask: Ask) -> String {
    let place = format!("seed {seed}, family \"{name}\"");
    let differences = lines_of("differences", &place, &comparison.differences, ask);
    let violations = lines_of("against the meaning", &place, &comparison.violations, ask);
    differences + &violations
}

fn lines_of(kind: &str, place: &str, faults: &Faults, ask: Ask) -> String {
    let Some(first) = &faults.first else {
        return String::new();
    };
    let Found {
        index,
        found,
        shrunk,
    } = first;
    let mut lines = format!("  {} {kind}\n", faults.count);
    let _ = writeln!(lines, "  first: {place}, query {index}");
    let _ = writeln!(lines, "  as found: {}", hex_of_start(&found.sheet));
    lines += &query_lines(found, ask);
    let _ = writeln!(lines, "  shrunk: {}", hex(&shrunk.sheet));
    lines += &query_lines(shrunk, ask);
    lines
}

fn query_lines(query: &Query, ask: Ask) -> String {
    let mut lines = format!("    sheet {}\n", readable(&query.sheet));
    let _ = writeln!(
        lines,
        "    question byte {} ({}), allowance {}, places {}, witness length {}",
        query.question,
        i8::from_le_bytes([query.question]),
        query.allowance,
        query.places,
        query.witness_length
    );
    lines += &outcome_lines("own walk", query, &Outcome::by_own_walk(query));
    lines += &outcome_lines("core", query, &ask(query));
    lines
}

fn outcome_lines(whose: &str, query: &Query, outcome: &Outcome) -> String {
    let mut lines = format!("    {whose}: {outcome}\n");
    if let Some(violation) = violation(query, outcome) {
        let _ = writeln!(lines, "      {violation}");
    }
    lines
}

/// As n:clauses:objectives, with a point for an empty clause.
fn readable(bytes: &[u8]) -> String {
    let sheet = match Sheet::read(bytes) {
        Ok(sheet) => sheet,
        Err(code) => return format!("refused {code}"),
    };
    let clauses: Vec<String> = sheet.clauses.iter().map(|clause| signed(clause)).collect();
    let clauses = clauses.join("/");
    let objectives = signed(&sheet.objectives);
    let objectives = objectives.trim_start_matches('.');
    format!("{}:{clauses}:{objectives}", sheet.n)
}

fn signed(literals: &[i8]) -> String {
    if literals.is_empty() {
        return ".".to_string();
    }
    let literals: Vec<String> = literals.iter().map(i8::to_string).collect();
    literals.join(" ")
}

#[cfg(test)]
mod tests {
    use super::readable;
    use crate::sheet::Sheet;

    #[test]
    fn sheets_are_readable() {
        let sheet = Sheet::of(3, &[&[-1, -2], &[], &[3]], &[1, -2]);
        assert_eq!(readable(&sheet.write()), "3:-1 -2/./3:1 -2");
        assert_eq!(readable(&Sheet::of(2, &[], &[]).write()), "2::");
        assert_eq!(readable(&[0; 31]), "refused 10");
    }
}
