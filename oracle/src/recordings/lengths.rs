//! Recordings whose lengths matter: records of about 64 bytes, and recordings of about 65,536.

use crate::{made::record, recording::MOST};

pub(crate) fn all() -> Vec<Vec<u8>> {
    [long_records(), long_recordings()].concat()
}

/// In each line, junk makes the record 60 to 70 bytes long: the recording ends there, or the line does, or the line
/// does and a whole record follows.
fn long_records() -> Vec<Vec<u8>> {
    let (add, frame) = (record("add", 0, 1, 5.0), record("frame", 0, 0, 0.5));
    let mut made = Vec::new();
    for before in [&b""[..], &add] {
        for (line, junk) in (0..4).flat_map(|line| [(line, b'x'), (line, b'0')]) {
            for length in 60..=70 {
                let open = stretched(line, junk, length);
                let mut closed = open.clone();
                closed[length - 1] = b'\n';
                made.push([before, &open].concat());
                made.push([before, &closed].concat());
                made.push([before, &closed, &frame].concat());
            }
        }
    }
    made
}

/// The record's lines before this one, the start of it, and junk up to the length.
fn stretched(line: usize, junk: u8, length: usize) -> Vec<u8> {
    let lines = ["op=", "speed\nslot=", "15\ngen=", "4294967295\narg="];
    let mut made = lines[..=line].concat().into_bytes();
    made.resize(length, junk);
    made
}

fn long_recordings() -> Vec<Vec<u8>> {
    let mut made = Vec::new();
    for length in [MOST - 1, MOST, MOST + 1, 70_000, 2 * MOST, 1 << 20] {
        made.push(whole(length));
        for junk in [b'x', b'\n', 0, b'0'] {
            made.push(vec![junk; length]);
        }
        let frame = record("frame", 0, 0, 0.5);
        for part in [1, 9, 30, frame.len() - 1] {
            made.push([whole(length - part), frame[..part].to_vec()].concat());
        }
        let refused = record("stop", 0, 2, 0.0);
        made.push([whole(length - refused.len()), refused].concat());
        made.push([whole(length - 1), b"\n".to_vec()].concat());
    }
    made
}

/// Whole records of just this many bytes in all. A stop's record is a byte shorter than a frame's or a start's.
fn whole(length: usize) -> Vec<u8> {
    let (add, stop) = (record("add", 0, 1, 5.0), record("stop", 0, 1, 0.0));
    let (start, frame) = (record("start", 0, 1, 0.0), record("frame", 0, 0, 0.011));
    let rest = length - add.len() - start.len();
    let stops = (frame.len() - rest % frame.len()) % frame.len();
    let frames = (rest - stops * stop.len()) / frame.len();
    let made = [add, stop.repeat(stops), start, frame.repeat(frames)].concat();
    assert_eq!(made.len(), length);
    made
}
