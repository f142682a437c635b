//! Rows made by hand from the customer's words.

use super::{Refusal, replay};

const ADD: &str = "op=add\nslot=0\ngen=1\narg=4014000000000000\n";
const START: &str = "op=start\nslot=0\ngen=1\narg=0000000000000000\n";
const FRAME: &str = "op=frame\nslot=0\ngen=0\narg=3fe0000000000000\n";

fn trace(recording: &str, offset: usize) {
    assert_eq!(
        replay(recording.as_bytes()),
        Err(Refusal::Trace(offset)),
        "{recording:?}"
    );
}

fn refused(recording: &str, number: u8, record: usize) {
    assert_eq!(
        replay(recording.as_bytes()),
        Err(Refusal::Call(number, record)),
        "{recording:?}"
    );
}

fn record(op: &str, slot: u8, generation: u32, arg: f64) -> String {
    let arg = arg.to_bits();
    format!("op={op}\nslot={slot}\ngen={generation}\narg={arg:016x}\n")
}

fn report(slot: u8, generation: u32, rest: &str) -> String {
    format!("slot={slot}\ngen={generation}\n{rest}\n")
}

/// The next double above a positive one, and the one below it.
fn above(x: f64) -> f64 {
    f64::from_bits(x.to_bits() + 1)
}

fn below(x: f64) -> f64 {
    f64::from_bits(x.to_bits() - 1)
}

/// The customer's row of 5 ticks a second, half a second at a time.
#[test]
fn a_recording_ends_with_the_reports() {
    let once = report(
        0,
        1,
        "ticking=1\nstarted=1\nticks=2\nfraction=3fe0000000000000",
    );
    let twice = report(
        0,
        1,
        "ticking=1\nstarted=1\nticks=5\nfraction=0000000000000000",
    );
    let run = [ADD, START, FRAME].concat();
    assert_eq!(replay(run.as_bytes()), Ok(once));
    assert_eq!(replay([&run, FRAME].concat().as_bytes()), Ok(twice));
    assert_eq!(replay(b""), Ok(String::new()));
}

#[test]
fn living_clocks_are_reported_in_slot_order() {
    let adds = record("add", 0, 1, 1.0) + &record("add", 1, 1, 1.0) + &record("add", 2, 1, 1.0);
    let again = record("drop", 0, 1, 0.0)
        + &record("drop", 1, 1, 0.0)
        + &record("add", 0, 2, 1.0)
        + &record("start", 0, 2, 0.0);
    let still = "ticking=0\nstarted=0\nticks=0\nfraction=0000000000000000";
    let expected = report(0, 2, &still.replacen('0', "1", 1)) + &report(2, 1, still);
    assert_eq!(replay((adds + &again).as_bytes()), Ok(expected));
}

/// A speed acts at the next frame, in which no old speed is left.
#[test]
fn every_op_acts() {
    let ops = [
        record("speed", 0, 1, 8.0),
        record("frame", 0, 0, 0.25),
        record("stop", 0, 1, 0.0),
        record("frame", 0, 0, 1.0),
    ];
    let run = [ADD, START].concat() + &ops.concat();
    let stopped = report(
        0,
        1,
        "ticking=0\nstarted=1\nticks=2\nfraction=0000000000000000",
    );
    let reset = report(
        0,
        1,
        "ticking=0\nstarted=0\nticks=0\nfraction=0000000000000000",
    );
    assert_eq!(replay(run.as_bytes()), Ok(stopped));
    let run = run + &record("reset", 0, 1, 0.0);
    assert_eq!(replay(run.as_bytes()), Ok(reset));
    let run = run + &record("drop", 0, 1, 0.0);
    assert_eq!(replay(run.as_bytes()), Ok(String::new()));
}

const ZEROS: &str = "arg=0000000000000000";

/// A record's lines, and which of them is the bad one.
const BAD: [([&str; 4], usize); 38] = [
    (["op=adds", "slot=0", "gen=1", ZEROS], 0),
    (["op=", "slot=0", "gen=1", ZEROS], 0),
    (["op=Add", "slot=0", "gen=1", ZEROS], 0),
    ([" op=add", "slot=0", "gen=1", ZEROS], 0),
    (["op=add ", "slot=0", "gen=1", ZEROS], 0),
    (["op=add\r", "slot=0", "gen=1", ZEROS], 0),
    (["op =add", "slot=0", "gen=1", ZEROS], 0),
    (["", "op=add", "slot=0", "gen=1"], 0),
    (["slot=0", "op=add", "gen=1", ZEROS], 0),
    (["op=add", "gen=1", "slot=0", ZEROS], 1),
    (["op=add", "slot=16", "gen=1", ZEROS], 1),
    (["op=add", "slot=00", "gen=1", ZEROS], 1),
    (["op=add", "slot=01", "gen=1", ZEROS], 1),
    (["op=add", "slot=", "gen=1", ZEROS], 1),
    (["op=add", "slot=+1", "gen=1", ZEROS], 1),
    (["op=add", "slot=-0", "gen=1", ZEROS], 1),
    (["op=add", "slot= 1", "gen=1", ZEROS], 1),
    (["op=add", "slot=a", "gen=1", ZEROS], 1),
    (["op=frame", "slot=1", "gen=0", ZEROS], 1),
    (["op=frame", "slot=00", "gen=0", ZEROS], 1),
    (["op=add", "slot=0", "gen=4294967296", ZEROS], 2),
    (["op=add", "slot=0", "gen=18446744073709551617", ZEROS], 2),
    (["op=add", "slot=0", "gen=01", ZEROS], 2),
    (["op=add", "slot=0", "gen=", ZEROS], 2),
    (["op=add", "slot=0", "gen=+1", ZEROS], 2),
    (["op=add", "slot=0", "gen=1.", ZEROS], 2),
    (["op=frame", "slot=0", "gen=1", ZEROS], 2),
    (["op=add", "slot=0", ZEROS, "gen=1"], 2),
    (["op=add", "slot=0", "gen=1", "arg=400000000000000"], 3),
    (["op=add", "slot=0", "gen=1", "arg=40000000000000000"], 3),
    (["op=add", "slot=0", "gen=1", "arg=3FF0000000000000"], 3),
    (["op=add", "slot=0", "gen=1", "arg=0x00000000000000"], 3),
    (["op=add", "slot=0", "gen=1", "arg="], 3),
    (["op=add", "slot=0", "gen=1", "arg=g000000000000000"], 3),
    (["op=stop", "slot=0", "gen=1", "arg=0000000000000001"], 3),
    (["op=drop", "slot=0", "gen=1", "arg=8000000000000000"], 3),
    (["op=start", "slot=0", "gen=1", "arg=000000000000000"], 3),
    (["op=reset", "slot=0", "gen=1", "arg=0000000000000010"], 3),
];

#[test]
fn a_bad_line_is_refused_where_it_starts() {
    for (lines, bad) in BAD {
        let before: usize = lines[..bad].iter().map(|line| line.len() + 1).sum();
        let text = lines.join("\n") + "\n";
        trace(&text, before);
        trace(
            &[ADD, FRAME, &text].concat(),
            ADD.len() + FRAME.len() + before,
        );
    }
}

/// The last line of a record of this many bytes, LF counted, is made as long as that needs.
fn stretched(length: usize) -> String {
    let head = "op=add\nslot=0\ngen=1\narg=";
    format!("{head:0<width$}\n", width = length - 1)
}

#[test]
fn the_65th_byte_of_a_record_makes_its_line_bad() {
    let line = "op=add\nslot=0\ngen=1\n".len();
    for length in [60, 64, 65, 66, 200] {
        trace(&stretched(length), line);
        trace(&[ADD, &stretched(length)].concat(), ADD.len() + line);
    }
    // The line has no LF: 64 bytes are an end inside the record, and the next byte makes it bad.
    for length in [1, 21, 63, 64] {
        trace(&"x".repeat(length), length);
        trace(&[ADD, &"x".repeat(length)].concat(), ADD.len() + length);
    }
    trace(&"x".repeat(65), 0);
    trace(&"x".repeat(66), 0);
    let open = stretched(65);
    trace(open.trim_end(), 64);
    trace(&stretched(66).trim_end(), line);
    trace(&[ADD, &"x".repeat(65)].concat(), ADD.len());
}

#[test]
fn an_end_inside_a_record_is_refused_at_the_length() {
    let run = [ADD, START, FRAME].concat();
    let ends = [0, ADD.len(), ADD.len() + START.len(), run.len()];
    for length in 0..run.len() {
        if ends.contains(&length) {
            assert!(replay(&run.as_bytes()[..length]).is_ok());
        } else {
            trace(&run[..length], length);
        }
    }
}

#[test]
fn a_call_is_refused_with_its_number_and_its_record() {
    for dt in [-0.0, -1.0, above(60.0), f64::INFINITY, f64::NAN] {
        refused(&record("frame", 0, 0, dt), 1, 0);
    }
    let bad = [-1.0, above(1_048_576.0), f64::INFINITY, f64::NAN, 5e-324];
    for speed in bad.into_iter().chain([below(1.0 / 1_048_576.0)]) {
        refused(&record("add", 0, 1, speed), 3, 0);
        refused(&(ADD.to_string() + &record("speed", 0, 1, speed)), 3, 1);
    }
    let adds: String = (0..16).map(|slot| record("add", slot, 1, 1.0)).collect();
    assert!(replay(adds.as_bytes()).is_ok());
    refused(&(adds + &record("add", 0, 1, 1.0)), 8, 16);
}

/// A clock that was dropped is dead, and so are all before it in its slot; every other id was never given.
#[test]
fn an_id_that_does_not_live_is_dead_or_was_never_given() {
    let dropped = ADD.to_string() + &record("drop", 0, 1, 0.0);
    let again = dropped.clone() + &record("add", 0, 2, 1.0);
    // A speed that is bad too comes behind its id.
    for (op, arg) in ["drop", "start", "stop", "reset"]
        .map(|op| (op, 0.0))
        .into_iter()
        .chain([("speed", 5.0), ("speed", f64::NAN)])
    {
        let last = |slot, generation| record(op, slot, generation, arg);
        refused(&last(0, 1), 15, 0);
        refused(&last(0, 0), 15, 0);
        for (slot, generation) in [(0, 0), (0, 2), (1, 1), (15, 4_294_967_295)] {
            refused(&(ADD.to_string() + &last(slot, generation)), 15, 1);
        }
        refused(&(dropped.clone() + &last(0, 0)), 15, 2);
        refused(&(dropped.clone() + &last(0, 1)), 7, 2);
        refused(&(dropped.clone() + &last(0, 2)), 15, 2);
        refused(&(again.clone() + &last(0, 1)), 7, 3);
        refused(&(again.clone() + &last(0, 3)), 15, 3);
        refused(&(again.clone() + &last(1, 1)), 15, 3);
    }
}

#[test]
fn a_frame_goes_too_far_just_above_65536_ticks() {
    let fast = record("add", 0, 1, 1_048_576.0) + START;
    let at_most = fast.clone() + &record("frame", 0, 0, 0.0625);
    let end = report(
        0,
        1,
        "ticking=1\nstarted=1\nticks=65536\nfraction=0000000000000000",
    );
    assert_eq!(replay(at_most.as_bytes()), Ok(end));
    refused(&(fast + &record("frame", 0, 0, above(0.0625))), 9, 2);
}

#[test]
fn limits_that_are_accepted() {
    for speed in [0.0, -0.0, 1.0 / 1_048_576.0, 1_048_576.0] {
        let run = record("add", 0, 1, speed) + &record("speed", 0, 1, speed);
        assert!(replay(run.as_bytes()).is_ok());
    }
    for dt in [0.0, 5e-324, 60.0] {
        assert!(replay(record("frame", 0, 0, dt).as_bytes()).is_ok());
    }
}

#[test]
fn an_add_that_gives_another_id_is_refused() {
    for (slot, generation) in [(1, 1), (0, 0), (0, 2), (15, 4_294_967_295)] {
        refused(&record("add", slot, generation, 1.0), 14, 0);
    }
    refused(&[ADD, ADD].concat(), 14, 1);
    let again = ADD.to_string() + &record("drop", 0, 1, 0.0);
    refused(&(again.clone() + ADD), 14, 2);
    refused(&(again.clone() + START), 7, 2);
    assert!(replay((again + &record("add", 0, 2, 1.0)).as_bytes()).is_ok());
}

#[test]
fn one_record_is_judged_in_order_and_the_first_refusal_is_the_answer() {
    // The line before the call, and the call before the id.
    trace("op=start\nslot=9\ngen=9\narg=0000000000000001\n", 22);
    refused(&record("add", 9, 9, f64::NAN), 3, 0);
    let adds: String = (0..16).map(|slot| record("add", slot, 1, 1.0)).collect();
    refused(&(adds + &record("add", 3, 7, 1.0)), 8, 16);
    // An earlier record before a later one, and a call before the lines behind it.
    refused(&(record("add", 9, 9, 1.0) + "x\n"), 14, 0);
    refused(&(record("stop", 0, 1, 0.0) + "\n"), 15, 0);
    trace(
        &(ADD.to_string() + "\n" + &record("stop", 0, 9, 0.0)),
        ADD.len(),
    );
    refused(&(record("frame", 0, 0, 61.0) + "op=fr"), 1, 0);
}

#[test]
fn a_recording_has_65536_bytes_at_most() {
    let junk = "x".repeat(65_537);
    trace(&junk[..65_536], 0);
    assert_eq!(replay(junk.as_bytes()), Err(Refusal::TooLong));
    let frames = FRAME.repeat(65_537 / FRAME.len() + 1);
    trace(&frames[..65_536], 65_536);
    assert_eq!(replay(&frames.as_bytes()[..65_537]), Err(Refusal::TooLong));
}

#[test]
fn a_refusal_says_its_number_and_its_place() {
    let rows = [
        (Refusal::TooLong, 11, ""),
        (Refusal::Trace(64), 13, "refused 13 at byte 64\n"),
        (Refusal::Call(9, 2), 9, "refused 9 in record 2\n"),
        (Refusal::Call(14, 0), 14, "refused 14 in record 0\n"),
        (Refusal::Call(15, 7), 15, "refused 15 in record 7\n"),
    ];
    for (refusal, number, place) in rows {
        assert_eq!(
            (refusal.number(), refusal.place()),
            (number, place.to_string())
        );
    }
}
