//! The lines the program prints.

use crate::check::CheckAnswer;
use crate::compare::{Check, Comparison, Difference};
use crate::counts::Counts;
use std::fmt::Write;

/// The bytes of a sheet as found are shown up to here, the shrunk ones to their end.
const SHOWN_AS_FOUND: usize = 256;
const LONG_RUN: usize = 64;

pub fn start_of_line(name: &str) -> String {
    format!("{name:<24}")
}

/// The counted things are named in the plural.
pub fn rest_of_line(counts: &Counts, things: &str, passed: bool) -> String {
    let total = counts.total();
    let columns = columns(counts);
    let verdict = verdict(passed);
    format!("{total:>7} {things:<7}  {columns}  {verdict}")
}

pub fn verdict(passed: bool) -> &'static str {
    if passed {
        "passed"
    } else {
        "FAILED"
    }
}

pub fn difference_lines(seed: u64, name: &str, comparison: &Comparison, core: Check) -> String {
    let Some(difference) = &comparison.first else {
        return String::new();
    };
    let Difference {
        index,
        found,
        shrunk,
    } = difference;
    let mut lines = format!("  {} differences\n", comparison.differences);
    let _ = writeln!(
        lines,
        "  first: seed {seed}, family \"{name}\", sheet {index}"
    );
    let _ = writeln!(lines, "  as found: {}", hex_of_start(found));
    lines += &answers(found, core);
    let _ = writeln!(lines, "  shrunk to {} bytes: {}", shrunk.len(), hex(shrunk));
    lines += &answers(shrunk, core);
    lines
}

fn answers(bytes: &[u8], core: Check) -> String {
    let own = CheckAnswer::by_own_reader(bytes);
    format!("    own reader: {own}\n    core: {}\n", core(bytes))
}

fn columns(counts: &Counts) -> String {
    let columns: Vec<String> = counts
        .by_code()
        .map(|(code, times)| format!("{code}: {times:<6}"))
        .collect();
    columns.join(" ")
}

pub fn hex_of_start(bytes: &[u8]) -> String {
    if bytes.len() <= SHOWN_AS_FOUND {
        return hex(bytes);
    }
    let start = hex(&bytes[..SHOWN_AS_FOUND]);
    format!("{start} ... ({} bytes)", bytes.len())
}

/// Only a long run of one byte at the end is not written out.
pub fn hex(bytes: &[u8]) -> String {
    let same_as_last = |byte: &&u8| Some(*byte) == bytes.last();
    let run = bytes.iter().rev().take_while(same_as_last).count();
    if run <= LONG_RUN {
        return groups(bytes);
    }
    let (before, repeated) = bytes.split_at(bytes.len() - run);
    let run = format!("{run} times {:02X}", repeated[0]);
    if before.is_empty() {
        return run;
    }
    format!("{} then {run}", groups(before))
}

/// Four bytes to a group, as the words of the header stand.
fn groups(bytes: &[u8]) -> String {
    let groups: Vec<String> = bytes
        .chunks(4)
        .map(|group| group.iter().map(|byte| format!("{byte:02X}")).collect())
        .collect();
    groups.join(" ")
}

#[cfg(test)]
mod tests {
    use super::{hex, hex_of_start};

    #[test]
    fn bytes_stand_in_groups_of_four() {
        assert_eq!(hex(&[1, 0, 0, 0, 255, 128]), "01000000 FF80");
    }

    #[test]
    fn a_long_run_at_the_end_is_counted() {
        let bytes = [&[7; 4][..], &[0; 500]].concat();
        assert_eq!(hex(&bytes), "07070707 then 500 times 00");
        assert_eq!(hex(&[3; 65]), "65 times 03");
    }

    #[test]
    fn long_bytes_as_found_are_shown_in_part() {
        let bytes: Vec<u8> = (0..1000).map(|place| place as u8).collect();
        let shown = hex_of_start(&bytes);
        assert!(shown.starts_with("00010203 04050607 "));
        assert!(shown.ends_with(" FCFDFEFF ... (1000 bytes)"));
    }
}
