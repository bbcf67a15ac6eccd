//! The whole comparison, family by family.

use crate::check::{self, CheckAnswer};
use crate::compare::compare;
use crate::compare_queries::{compare_queries, Reach};
use crate::counts::Counts;
use crate::families::{self, Family};
use crate::options::Options;
use crate::queries::{self, QueryFamily};
use crate::query::Outcome;
use crate::{report, report_queries};
use std::io::Write;
use std::process::ExitCode;

/// An answer reached less often would be compared too little.
const AT_LEAST_PER_ANSWER: u64 = 1_000;

/// With the arguments of the program.
pub fn main(arguments: impl Iterator<Item = String>) -> ExitCode {
    match Options::from_arguments(arguments) {
        Ok(options) => run(options),
        Err(complaint) => {
            eprintln!("{complaint}");
            ExitCode::from(2)
        }
    }
}

fn run(options: Options) -> ExitCode {
    let mut tally = Tally::default();
    run_sheets(options, &mut tally);
    run_queries(options, &mut tally);
    println!("{} passed, {} failed", tally.passed, tally.failed);
    ExitCode::from(u8::from(tally.failed > 0))
}

#[derive(Default)]
struct Tally {
    passed: u32,
    failed: u32,
}

impl Tally {
    fn count(&mut self, passes: bool) {
        if passes {
            self.passed += 1;
        } else {
            self.failed += 1;
        }
    }
}

fn run_sheets(options: Options, tally: &mut Tally) {
    let mut total = Counts::of(&check::ANSWERS);
    for family in &families::ALL {
        tally.count(family_passes(family, options, &mut total));
    }
    tally.count(each_is_reached("answer", &total, "sheets"));
}

fn family_passes(family: &Family, options: Options, total: &mut Counts) -> bool {
    begin_line(family.name);
    let sheets = family.part_of(options.sheets);
    let comparison = compare(family, options.seed, sheets, CheckAnswer::by_core);
    let passes = comparison.differences == 0;
    let rest = report::rest_of_line(&comparison.counts, "sheets", passes);
    println!("{rest}");
    let by_core = CheckAnswer::by_core;
    let lines = report::difference_lines(options.seed, family.name, &comparison, by_core);
    print!("{lines}");
    total.add(&comparison.counts);
    passes
}

fn run_queries(options: Options, tally: &mut Tally) {
    let mut total = Reach::none();
    for family in &queries::ALL {
        tally.count(query_family_passes(family, options, &mut total));
    }
    tally.count(each_is_reached("code", &total.codes, "queries"));
    tally.count(several_are_reached(&total));
}

fn query_family_passes(family: &QueryFamily, options: Options, total: &mut Reach) -> bool {
    begin_line(family.name);
    let queries = family.part_of(options.queries);
    let comparison = compare_queries(family, options.seed, queries, Outcome::by_core);
    let passes = comparison.passes();
    let rest = report::rest_of_line(&comparison.reach.codes, "queries", passes);
    println!("{rest}");
    let by_core = Outcome::by_core;
    let lines = report_queries::fault_lines(options.seed, family.name, &comparison, by_core);
    print!("{lines}");
    total.add(&comparison.reach);
    passes
}

fn each_is_reached(name: &str, total: &Counts, things: &str) -> bool {
    begin_line(&format!("each {name} {AT_LEAST_PER_ANSWER} times"));
    let passes = total.each_at_least(AT_LEAST_PER_ANSWER);
    println!("{}", report::rest_of_line(total, things, passes));
    passes
}

/// Most of what a walk can do wrong takes more than one test to show.
fn several_are_reached(total: &Reach) -> bool {
    begin_line("several tests, stored");
    let [tests, stored] = [total.several_tests, total.several_stored];
    let passes = tests.min(stored) >= AT_LEAST_PER_ANSWER;
    let verdict = report::verdict(passes);
    println!("{tests:>7} with several tests, {stored} with several stored  {verdict}");
    passes
}

/// Printed before the work, so that a core that stops the run shows where it did.
fn begin_line(name: &str) {
    print!("{}", report::start_of_line(name));
    // A closed output shows when the line is finished.
    let _ = std::io::stdout().flush();
}
