//! Recordings in portions: good, refused, damaged and cut-off ones, cut anywhere, with reads and calls of the station
//! between the portions, and with more calls behind a refusal and behind the end.

mod cuts;
mod cuttings;
mod rows;
mod texts;

use std::{cell::RefCell, collections::VecDeque};

use super::{Family, random::Random};

pub(super) use cuttings::print as print_cuttings;

/// The most bytes that a recording may have.
const MOST: u64 = 1 << 63;

/// The most bytes of a portion that one line holds.
const LONGEST: usize = 509;

/// What is no portion. A line of 1,025 bytes is too long.
const NO_PORTIONS: [&str; 12] = [
    "feed",
    "feed 0",
    "feed 6f7",
    "feed 6F70",
    "feed 0A",
    "feed 6f 70",
    "feed --",
    "feed -6f",
    "feed - -",
    "feed 0x6f",
    "feed op=add",
    "feed 6f:70",
];

/// Calls of the station, which has its own clocks.
const STATION_CALLS: [&str; 8] = [
    "new",
    "clock.add fix tps 4014000000000000",
    "clock.start 0:1",
    "frame 3fe0000000000000",
    "clock.report 0:1 96",
    "clock.time 1:1",
    "clock.stop 0:1",
    "clock.drop 0:1",
];

pub(super) fn family() -> Family {
    let lines = RefCell::new(VecDeque::new());
    Family {
        limits: rows::all(),
        random: Box::new(move |random| {
            let mut lines = lines.borrow_mut();
            // Where a feeding has no beginning and no end, it may have no line.
            while lines.is_empty() {
                lines.extend(feeding(random));
            }
            lines.pop_front().expect("a line was made")
        }),
    }
}

/// The call that feeds these bytes.
fn feed(portion: &[u8]) -> String {
    if portion.is_empty() {
        return "feed -".to_string();
    }
    let digits: String = portion.iter().map(|byte| format!("{byte:02x}")).collect();
    format!("feed {digits}")
}

/// One recording from its beginning on; rarely it comes behind the one before it.
fn feeding(random: &mut Random) -> Vec<String> {
    let text = texts::any(random);
    let mut lines = Vec::new();
    if !random.chance(16) {
        lines.push("feed.new".to_string());
    }
    for _ in 0..random.pick(&[0, 0, 0, 0, 0, 0, 1, 1, 2]) {
        lines.push(format!("feed.at {}", place(&text, random)));
    }
    for portion in cuts::any(&text, random) {
        between(&mut lines, random);
        lines.push(feed(portion));
    }
    if random.chance(16) {
        return lines;
    }
    lines.extend(["feed.end", "feed.show"].map(str::to_string));
    for _ in 0..random.below(4) {
        lines.push(behind(&text, random));
    }
    lines
}

/// What may stand between two portions.
fn between(lines: &mut Vec<String>, random: &mut Random) {
    match random.below(36) {
        0..=5 => lines.push("feed.show".to_string()),
        6 | 7 => lines.push(random.pick(&STATION_CALLS).to_string()),
        8 => lines.push(random.pick(&NO_PORTIONS).to_string()),
        9 => lines.push(format!("feed.at {}", random.below(3))),
        _ => {}
    }
}

/// What comes behind a recording's end.
fn behind(text: &[u8], random: &mut Random) -> String {
    match random.below(6) {
        0 | 1 => feed(&text[..text.len().min(LONGEST)]),
        2 => feed(b""),
        3 => format!("feed.at {}", place(text, random)),
        4 => "feed.show".to_string(),
        _ => "feed.end".to_string(),
    }
}

/// Where a feed stands: mostly so that the most bytes lie within the text or just behind it.
fn place(text: &[u8], random: &mut Random) -> u64 {
    let length = text.len() as u64;
    match random.below(10) {
        0 => random.pick(&[0, 1, MOST, MOST + 1, u64::MAX, MOST - 1]),
        1 => random.next() >> (1 + random.below(40)),
        2 => MOST - length,
        3 => MOST - length - 1 - random.below(3),
        4..=6 => MOST - line_end(text, random),
        _ => MOST - random.below(length + 1),
    }
}

/// How many bytes there are up to an LF, with it or without it.
fn line_end(text: &[u8], random: &mut Random) -> u64 {
    let ends: Vec<u64> = (0..)
        .zip(text)
        .filter(|(_, byte)| **byte == b'\n')
        .map(|(at, _)| at)
        .collect();
    match ends.is_empty() {
        true => text.len() as u64,
        false => random.pick(&ends) + random.below(2),
    }
}
