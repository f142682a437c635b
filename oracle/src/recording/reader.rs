//! The records of a recording, read byte by byte.

/// The most bytes that a record may have.
const LONGEST: usize = 64;

/// What a record's lines begin with, in their order.
const NAMES: [&str; 4] = ["op=", "slot=", "gen=", "arg="];

const OPS: [&str; 7] = ["add", "drop", "start", "stop", "reset", "speed", "frame"];

const LARGEST_SLOT: u64 = 15;
const LARGEST_GENERATION: u64 = 4_294_967_295;
const NO_ARG: &str = "0000000000000000";

/// What a whole record says. Its texts keep the digits as they were written: each value has one writing.
pub(super) struct Record<'a> {
    pub(super) op: &'a str,
    slot: &'a str,
    generation: &'a str,
    pub(super) arg: &'a str,
}

impl Record<'_> {
    pub(super) fn id(&self) -> String {
        format!("{}:{}", self.slot, self.generation)
    }

    pub(super) fn slot(&self) -> u32 {
        self.slot.parse().expect("the reader has judged it")
    }
}

/// The record that starts here and where it ends, or the offset at which the recording is bad.
pub(super) fn record(recording: &[u8], start: usize) -> Result<(Record<'_>, usize), usize> {
    let mut said = Vec::new();
    let mut line = start;
    for at in start..recording.len() {
        // This byte would be one too many, and the record is not whole.
        if at - start == LONGEST {
            return Err(line);
        }
        if recording[at] != b'\n' {
            continue;
        }
        said.push(value(&said, &recording[line..at]).ok_or(line)?);
        line = at + 1;
        if let [op, slot, generation, arg] = said[..] {
            let record = Record {
                op,
                slot,
                generation,
                arg,
            };
            return Ok((record, line));
        }
    }
    Err(recording.len())
}

/// A line's value, after those that its record has said. None where the line is bad.
fn value<'a>(said: &[&str], line: &'a [u8]) -> Option<&'a str> {
    let name = NAMES[said.len()];
    let value = std::str::from_utf8(line).ok()?.strip_prefix(name)?;
    let good = match said {
        [] => OPS.contains(&value),
        ["frame"] | ["frame", _] => value == "0",
        [_] => is_number(value, LARGEST_SLOT),
        [_, _] => is_number(value, LARGEST_GENERATION),
        ["add" | "speed" | "frame", ..] => is_double(value),
        _ => value == NO_ARG,
    };
    good.then_some(value)
}

/// Digits alone, with no zero in front of others. Rust's own parser would take a plus sign and zeros too.
fn is_number(text: &str, most: u64) -> bool {
    let digits_only = text.bytes().all(|byte| byte.is_ascii_digit());
    let leading_zero = text.len() > 1 && text.starts_with('0');
    digits_only && !leading_zero && text.parse().is_ok_and(|number: u64| number <= most)
}

/// The bits of any double.
fn is_double(text: &str) -> bool {
    text.len() == 16
        && text
            .bytes()
            .all(|byte| matches!(byte, b'0'..=b'9' | b'a'..=b'f'))
}
