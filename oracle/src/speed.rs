//! Runs a case a number of times with the original's own types, for tools/speed to count instructions. It reads
//! the lines of the Rattle program `speed`, and prints the same answers. Nothing is judged and nothing undone.

#[path = "speed/cases.rs"]
mod cases;
#[path = "speed/made.rs"]
mod made;
#[path = "speed/station.rs"]
mod station;

include!("original.rs");

#[allow(dead_code)]
mod tween;

use std::io::{self, Read, Write};

/// The bytes of input that are read.
const MOST: u64 = 65536;

fn main() -> io::Result<()> {
    let mut input = Vec::new();
    io::stdin().take(MOST).read_to_end(&mut input)?;
    let lines = input.strip_suffix(b"\n").unwrap_or(&input);
    if input.is_empty() {
        return Ok(());
    }
    for line in lines.split(|byte| *byte == b'\n') {
        let text = answer(line).unwrap_or_else(|| "error".to_string());
        writeln!(io::stdout(), "{text}")?;
    }
    Ok(())
}

/// The answer to a line: a case's name, a count, and nothing more.
fn answer(line: &[u8]) -> Option<String> {
    let line = std::str::from_utf8(line).ok()?;
    let mut words = line.split(' ').filter(|word| !word.is_empty());
    let (name, count) = (words.next()?, decimal(words.next()?)?);
    if words.next().is_some() {
        return None;
    }
    let told = match name {
        "frame" => cases::frames(count),
        "catchup" => cases::catchups(count),
        "command" => cases::commands(count),
        "update" => cases::updates(count),
        "empty" => cases::frames(0),
        _ => return None,
    };
    Some(told.to_string())
}

/// Digits with no zero in front.
fn decimal(word: &str) -> Option<u64> {
    let zero = word.len() > 1 && word.starts_with('0');
    if zero || !word.bytes().all(|byte| byte.is_ascii_digit()) {
        return None;
    }
    word.parse().ok()
}
