//! The lines of the table.

use crate::measure::Measured;
use std::time::Duration;

pub fn heading() -> String {
    format!(
        "{:<14} {:>10} {:>14} {:>14} {:>7}",
        "sheet", "visits", "core ns/visit", "Rust ns/visit", "ratio"
    )
}

/// The ratio says how many times as long the core takes.
pub fn line(name: &str, measured: &Measured) -> String {
    let visits = measured.visits;
    let [core, quick] = measured.times.map(|time| nanoseconds(time) / visits as f64);
    let ratio = core / quick;
    format!("{name:<14} {visits:>10} {core:>14.1} {quick:>14.1} {ratio:>7.2}")
}

fn nanoseconds(time: Duration) -> f64 {
    time.as_secs_f64() * 1e9
}
