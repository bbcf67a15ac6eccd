//! Passes of both sides over one sheet, in turn.

use crate::pass::Pass;
use second::core::{self, Answering};
use std::time::Duration;

/// For all passes of a side over one sheet together.
const LONG_ENOUGH: Duration = Duration::from_millis(200);

/// Visits and times of one pass, on average: in a sum, every sheet counts once, however often
/// it was repeated.
#[derive(Default)]
pub struct Measured {
    pub visits: u64,
    /// Of the core and of the quick walk.
    pub times: [Duration; 2],
}

impl Measured {
    pub fn add(&mut self, other: &Measured) {
        self.visits += other.visits;
        for (time, more) in self.times.iter_mut().zip(other.times) {
            *time += more;
        }
    }
}

/// The sides begin by turns, from round to round and, by its place, from sheet to sheet.
pub fn measure(sheet: &[u8], place: usize, quick: Answering) -> Result<Measured, String> {
    let sides = [core::query, quick];
    let mut pass = Pass::on(sheet)?;
    let mut times = [Duration::ZERO; 2];
    let mut rounds = 0;
    while times.iter().any(|&time| time < LONG_ENOUGH) {
        let begins = (place + rounds as usize) % sides.len();
        round(&mut pass, sides, begins, &mut times)?;
        rounds += 1;
    }
    Ok(Measured {
        visits: pass.visits(),
        times: times.map(|time| time / rounds),
    })
}

fn round(
    pass: &mut Pass,
    sides: [Answering; 2],
    begins: usize,
    times: &mut [Duration; 2],
) -> Result<(), String> {
    let follows = 1 - begins;
    times[begins] += pass.timed(sides[begins]);
    let answers = pass.answers().to_vec();
    times[follows] += pass.timed(sides[follows]);
    let pairs = answers.iter().zip(pass.answers());
    match pairs.enumerate().find(|(_, (one, other))| one != other) {
        None => Ok(()),
        Some((position, _)) => Err(format!(
            "the core and the quick walk differ on objective {}",
            position + 1
        )),
    }
}
