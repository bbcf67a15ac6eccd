//! How long a visit takes, by the core and by the second program's quick walk, on realistic sheets.
//!
//! Both are asked what the program `suspects` asks: for every objective its complement, with as
//! many steps and places. Whole queries are timed on either side, from the sheet's bytes to the
//! witness. The answers are compared; if they differ, that is said and the status is 1.
//!
//! The quick walk compares parts as the core does, or with the argument `words` on whole words.

mod measure;
mod pass;
mod sheets;
mod table;

use measure::{measure, Measured};
use second::containment::{ByPositions, OnWords};
use second::core::Answering;
use second::quick_query;
use std::env;
use std::process::ExitCode;

fn main() -> ExitCode {
    match run() {
        Ok(()) => ExitCode::SUCCESS,
        Err(complaint) => {
            eprintln!("{complaint}");
            ExitCode::FAILURE
        }
    }
}

fn run() -> Result<(), String> {
    let quick = chosen(env::args().skip(1).collect())?;
    let mut whole = Measured::default();
    println!("{}", table::heading());
    for (place, sheet) in sheets::all()?.iter().enumerate() {
        let measured = measure(&sheet.bytes, place, quick)
            .map_err(|complaint| format!("{}: {complaint}", sheet.name))?;
        println!("{}", table::line(&sheet.name, &measured));
        whole.add(&measured);
    }
    println!("{}", table::line("whole", &whole));
    Ok(())
}

fn chosen(arguments: Vec<String>) -> Result<Answering, String> {
    match arguments.join(" ").as_str() {
        "" => Ok(quick_query::query::<ByPositions>),
        "words" => Ok(quick_query::query::<OnWords>),
        other => Err(format!("expected nothing or 'words', got '{other}'")),
    }
}
