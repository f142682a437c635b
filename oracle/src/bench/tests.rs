//! The customer's worked rows and the line rules, through the whole of the bench.

mod ids;

use super::{answer, station::Station};

fn answers(lines: &str) -> Vec<String> {
    let mut station = Station::new();
    let answered = lines
        .lines()
        .filter_map(|line| answer(line.trim_start().as_bytes(), &mut station));
    answered.collect()
}

fn one(line: &str) -> String {
    answer(line.as_bytes(), &mut Station::new()).expect("the line is a call")
}

#[test]
fn lines_that_are_no_call_are_skipped_or_errors() {
    let mut station = Station::new();
    for skipped in ["", "   ", "#", "# f.abs", &" ".repeat(1024)] {
        assert_eq!(answer(skipped.as_bytes(), &mut station), None);
    }
    let long_comment = format!("#{}", " ".repeat(1024));
    let wrong = [
        " #",
        "f.abs",
        "f.abs 0",
        "f.abs\t0000000000000000",
        "\u{e9}",
    ];
    for line in wrong.into_iter().chain([long_comment.as_str()]) {
        assert_eq!(one(line), "error");
    }
    assert_eq!(one("  f.abs   bff0000000000000  "), "3ff0000000000000");
    assert_eq!(one("f.abs fff0000000000001"), "7ff8000000000000");
}

#[test]
fn times_are_as_in_the_worked_rows() {
    let rows = [
        ("time.fromf 400c000000000000", "3 3fe0000000000000"),
        (
            "time.addf 2 3fe0000000000000 3ffc000000000000",
            "4 3fd0000000000000",
        ),
        (
            "time.subf 5 3fe0000000000000 3ff4000000000000",
            "4 3fd0000000000000",
        ),
        (
            "time.subf 0 3fd0000000000000 3fe0000000000000",
            "refused 12",
        ),
        (
            "time.subf 5 0000000000000000 3c30000000000000",
            "5 0000000000000000",
        ),
        (
            "time.addf 1 3c30000000000000 8000000000000000",
            "1 3c30000000000000",
        ),
    ];
    for (call, expected) in rows {
        assert_eq!(one(call), expected);
    }
}

#[test]
fn curves_are_as_in_the_worked_rows() {
    let rows = [
        ("speed.tps tpm 405e000000000000", "4000000000000000"),
        ("ease io 2 3fd0000000000000", "3fc0000000000000"),
        ("ease io 2 3fe8000000000000", "3fec000000000000"),
        ("wave tri 0000000000000000", "0000000000000000"),
        ("wave tri 3fd0000000000000", "3ff0000000000000"),
        ("wave tri bfec000000000000", "3ff8000000000000"),
        ("tween.default", "imm 10000000 lin"),
    ];
    for (call, expected) in rows {
        assert_eq!(one(call), expected);
    }
}

#[test]
fn a_clock_ticks_as_in_the_worked_rows() {
    let lines = "clock.add fix tps 4014000000000000
        clock.start 0:1
        frame 3fe0000000000000
        clock.time 0:1
        frame 3fe0000000000000
        clock.time 0:1
        clock.add fix tps 0000000000000000
        clock.start 1:1
        frame 0000000000000000
        frame 0000000000000000";
    let expected = [
        "id 0:1",
        "ok",
        "frame 0=2",
        "2 3fe0000000000000",
        "frame 0=5",
        "5 0000000000000000",
        "id 1:1",
        "ok",
        "frame 0=- 1=0",
        "frame 0=- 1=-",
    ];
    assert_eq!(answers(lines), expected);
}

#[test]
fn a_delayed_tween_runs_as_in_the_worked_row() {
    let lines = "fp.new 3 fix 0000000000000000 0000000000000000
        fp.set 3 fix 4020000000000000 del 1000000000 1000000000 lin
        fp.up 3 3fe0000000000000
        fp.up 3 3fe0000000000000
        fp.up 3 3fe0000000000000
        fp.up 3 3fe0000000000000
        fp.up 4 3fe0000000000000";
    let expected = [
        "ok",
        "ok",
        "0 0000000000000000",
        "0 0000000000000000",
        "0 4010000000000000",
        "1 4020000000000000",
        "error",
    ];
    assert_eq!(answers(lines), expected);
}

/// The second clock goes too far: the first clock and the LFO must stand as before.
#[test]
fn a_refused_frame_is_undone() {
    let lines = "clock.add fix tps 4014000000000000
        clock.add fix tps 4130000000000000
        lfo.add saw fix 3fd0000000000000 fix 3ff0000000000000 fix 0000000000000000 0000000000000000
        clock.start 0:1
        clock.start 1:1
        frame 3fe0000000000000
        mod.value 0:1
        clock.report 0:1 96";
    let report = "slot=0;gen=1;ticking=1;started=0;ticks=0;fraction=0000000000000000;";
    let expected = ["refused 9", "0000000000000000", &format!("{report:.<96}")];
    assert_eq!(answers(lines)[5..], expected);
}

/// The LFO's offset is linked to itself, and so to its value before the frame.
#[test]
fn a_slot_sees_itself_as_before_the_frame() {
    let lines = "tweener.add 3ff0000000000000
        lfo.add pul 4000000000000000 fix 0000000000000000 fix 3ff0000000000000 \
        mod 1:1 0000000000000000 4024000000000000 0000000000000000 4024000000000000 lin 0000000000000000
        frame 0000000000000000
        mod.value 1:1
        frame 0000000000000000
        mod.value 1:1";
    let expected = ["frame", "3ff0000000000000", "frame", "4000000000000000"];
    assert_eq!(answers(lines)[2..], expected);
}
