//! Makes many sheets and queries, answers each on its own and by the core, and compares.
//!
//! `--seed N` gives others, `--sheets N` and `--queries N` more or fewer of them; with too few
//! the checks that every answer was reached often enough fail.

use std::process::ExitCode;

fn main() -> ExitCode {
    second::comparison::main(std::env::args().skip(1))
}
