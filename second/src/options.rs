//! The arguments of the program.

use crate::families;
use crate::queries;

const DEFAULT_SEED: u64 = 20_180_101;

#[derive(Clone, Copy, Debug, PartialEq, Eq)]
pub struct Options {
    pub seed: u64,
    pub sheets: u64,
    pub queries: u64,
}

impl Options {
    pub fn from_arguments(arguments: impl Iterator<Item = String>) -> Result<Options, String> {
        let mut options = Options {
            seed: DEFAULT_SEED,
            sheets: families::default_sheets(),
            queries: queries::default_queries(),
        };
        let mut arguments = arguments;
        while let Some(name) = arguments.next() {
            let target = match name.as_str() {
                "--seed" => &mut options.seed,
                "--sheets" => &mut options.sheets,
                "--queries" => &mut options.queries,
                _ => return Err(format!("unknown argument {name}")),
            };
            let value = arguments.next().ok_or(format!("{name} takes a number"))?;
            *target = value
                .parse()
                .map_err(|_| format!("{name} takes a number, not {value}"))?;
        }
        Ok(options)
    }
}

#[cfg(test)]
mod tests {
    use super::Options;

    fn options(arguments: &[&str]) -> Result<Options, String> {
        Options::from_arguments(arguments.iter().map(|text| text.to_string()))
    }

    #[test]
    fn the_default_run_is_long_enough() {
        let default = options(&[]).unwrap();
        assert!(default.sheets >= 240_000);
        assert!(default.queries >= 300_000);
    }

    #[test]
    fn the_numbers_can_be_given() {
        let given = options(&["--sheets", "12", "--seed", "7", "--queries", "5"]);
        assert_eq!(
            given,
            Ok(Options {
                seed: 7,
                sheets: 12,
                queries: 5
            })
        );
    }

    #[test]
    fn anything_else_is_refused() {
        for wrong in [&["--seed"][..], &["--seed", "x"], &["7"]] {
            assert!(options(wrong).is_err());
        }
    }
}
