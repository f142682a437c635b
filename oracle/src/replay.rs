//! Replays the recording on standard input with the original's own clocks. A refusal's number comes on standard
//! output, and its place on standard error.

include!("original.rs");

#[allow(dead_code)]
mod bench;
mod recording;
#[allow(dead_code)]
mod tween;

use std::io::{self, Read, Write};

fn main() -> io::Result<()> {
    let mut input = Vec::new();
    // One byte over the most is enough to know that there are too many.
    let most = recording::MOST as u64 + 1;
    io::stdin().take(most).read_to_end(&mut input)?;
    match recording::replay(&input) {
        Ok(reports) => io::stdout().write_all(reports.as_bytes()),
        Err(refusal) => {
            io::stderr().write_all(refusal.place().as_bytes())?;
            writeln!(io::stdout(), "{}", refusal.number())
        }
    }
}
