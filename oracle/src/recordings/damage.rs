//! One random edit of a recording: of a byte, a line or a record, or a cut.

use crate::random::Random;

/// The lines of a record.
const LINES: usize = 4;

pub(crate) fn any(recording: &[u8], random: &mut Random) -> Vec<u8> {
    if recording.is_empty() {
        return vec![random.pick(b"\nx0")];
    }
    match random.below(8) {
        0..=2 => of_byte(recording, random),
        3 => recording[..random.index(recording.len())].to_vec(),
        4 | 5 => of_parts(parts(recording, 1), random),
        _ => of_parts(records(recording), random),
    }
}

fn of_byte(recording: &[u8], random: &mut Random) -> Vec<u8> {
    let at = random.index(recording.len());
    let (before, byte, after) = (&recording[..at], recording[at], &recording[at + 1..]);
    let other = match random.below(3) {
        0 => random.below(256) as u8,
        1 => byte ^ 1 << random.below(8),
        _ => random.pick(b"\n\r 0=19af"),
    };
    let edited: &[u8] = match random.below(4) {
        0 => &[],
        1 => &[byte, byte],
        2 => &[other, byte],
        _ => &[other],
    };
    [before, edited, after].concat()
}

/// Every four lines.
pub(crate) fn records(recording: &[u8]) -> Vec<&[u8]> {
    parts(recording, LINES)
}

/// Pieces of so many lines each, with their LFs.
fn parts(recording: &[u8], lines: usize) -> Vec<&[u8]> {
    let each: Vec<&[u8]> = recording.split_inclusive(|byte| *byte == b'\n').collect();
    let mut rest = recording;
    let mut parts = Vec::new();
    for chunk in each.chunks(lines) {
        let length = chunk.iter().map(|line| line.len()).sum();
        let (part, after) = rest.split_at(length);
        parts.push(part);
        rest = after;
    }
    parts
}

/// One part is swapped with the next, swapped with any, doubled or removed.
fn of_parts(mut parts: Vec<&[u8]>, random: &mut Random) -> Vec<u8> {
    let count = parts.len();
    let at = random.index(count);
    match random.below(4) {
        0 => parts.swap(at, (at + 1) % count),
        1 => parts.swap(at, random.index(count)),
        2 => parts.insert(at, parts[at]),
        _ => drop(parts.remove(at)),
    }
    parts.concat()
}
