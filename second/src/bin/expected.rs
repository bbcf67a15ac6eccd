//! Prints what the program `suspects` must print for the sheet on standard input.

use std::io;

fn main() -> io::Result<()> {
    print!("{}", second::suspects::printed_for(io::stdin().lock())?);
    Ok(())
}
