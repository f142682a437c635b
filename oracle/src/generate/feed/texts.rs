//! Recordings worth feeding.

use crate::{random::Random, runs, spoilt, text::record};

/// The lines of a record of the ops that a bad line is tried in, up to each of their values.
const LINES: [&str; 4] = ["op=", "speed\nslot=", "15\ngen=", "4294967295\narg="];

/// Bad lines that may come first in a record.
const BAD_LINES: [&str; 9] = [
    "\n",
    "x\n",
    "op=adds\n",
    "op=add \n",
    "op=add\r\n",
    "slot=0\n",
    "op=frame\nslot=1\n",
    "op=add\nslot=0\ngen=01\n",
    "op=stop\nslot=0\ngen=1\narg=0000000000000001\n",
];

const SLOTS: usize = 16;

pub(super) fn add() -> Vec<u8> {
    record("add", 0, 1, 5.0)
}

pub(super) fn start() -> Vec<u8> {
    record("start", 0, 1, 0.0)
}

pub(super) fn frame() -> Vec<u8> {
    record("frame", 0, 0, 0.5)
}

/// Three records that are accepted.
pub(super) fn good() -> Vec<u8> {
    [add(), start(), frame()].concat()
}

/// Recordings that a call refuses, each by another number: 1, 3, 3, 7, 8, 9, 14, 14 and 15.
pub(super) fn refused() -> Vec<Vec<u8>> {
    let full: Vec<u8> = (0..SLOTS)
        .flat_map(|slot| record("add", slot, 1, 1.0))
        .collect();
    let fast = [record("add", 0, 1, 1_048_576.0), start()].concat();
    let dropped = [add(), record("drop", 0, 1, 0.0)].concat();
    vec![
        [add(), record("frame", 0, 0, -1.0)].concat(),
        [add(), record("speed", 0, 1, -1.0)].concat(),
        record("add", 0, 1, f64::NAN),
        [dropped.clone(), start()].concat(),
        [full, record("add", 0, 2, 1.0)].concat(),
        [fast, record("frame", 0, 0, 60.0)].concat(),
        record("add", 1, 1, 5.0),
        [dropped, add()].concat(),
        [add(), record("stop", 3, 1, 0.0)].concat(),
    ]
}

pub(super) fn bad_lines() -> Vec<Vec<u8>> {
    BAD_LINES.map(|line| line.as_bytes().to_vec()).to_vec()
}

/// A record that junk in one of its lines makes this long. It is closed by an LF, which is its last byte, or open.
pub(super) fn stretched(line: usize, length: usize, closed: bool) -> Vec<u8> {
    let mut made = LINES[..=line].concat().into_bytes();
    made.resize(length, b'0');
    if closed {
        made[length - 1] = b'\n';
    }
    made
}

/// A random run: most are good up to something that is refused, bad or cut off, with more behind it.
pub(super) fn any(random: &mut Random) -> Vec<u8> {
    let run = first_records(runs::run(random), random);
    let more = if random.chance(2) { good() } else { Vec::new() };
    match random.below(14) {
        0..=2 => run,
        3 => spoilt::any(&run, random),
        4..=7 => run[..random.index(run.len() + 1)].to_vec(),
        8 => {
            let length = 60 + random.index(8);
            let long = stretched(random.index(4), length, random.chance(2));
            [run, long, more].concat()
        }
        9 | 10 => {
            let wrong = record("add", random.index(SLOTS), 1_000_000, 5.0);
            [run, wrong, more].concat()
        }
        11 => {
            let wrong = random.index(SLOTS);
            [run, record("stop", wrong, 1_000_000, 0.0), more].concat()
        }
        12 => {
            let all = refused();
            let refused = &all[random.index(all.len())];
            [&refused[..], &more].concat()
        }
        _ => {
            let bad = random.pick(&BAD_LINES);
            [&run, bad.as_bytes(), &more].concat()
        }
    }
}

/// Mostly a few of a run's records.
fn first_records(run: Vec<u8>, random: &mut Random) -> Vec<u8> {
    let records = spoilt::records(&run);
    let most = random.pick(&[2, 4, 4, 8, 8, 16, 60]);
    let count = records.len().min(random.index(most + 1));
    records[..count].concat()
}
