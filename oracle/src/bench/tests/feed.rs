//! Rows of the calls `feed.*`, made by hand from the customer's words.

use super::answers;

const ADD: &str = "op=add\nslot=0\ngen=1\narg=4014000000000000\n";
const START: &str = "op=start\nslot=0\ngen=1\narg=0000000000000000\n";
const FRAME: &str = "op=frame\nslot=0\ngen=0\narg=3fe0000000000000\n";

const STILL: &str = "slot=0;gen=1;ticking=0;started=0;ticks=0;fraction=0000000000000000;";
const RUNNING: &str = "slot=0;gen=1;ticking=1;started=1;ticks=2;fraction=3fe0000000000000;";

/// The call that feeds a text.
fn feed(text: &str) -> String {
    let digits: String = text.bytes().map(|byte| format!("{byte:02x}")).collect();
    match text {
        "" => "feed -".to_string(),
        _ => format!("feed {digits}"),
    }
}

/// Rows of a call and its answer; what a quote begins is a text to be fed.
fn rows(rows: &[(&str, &str)]) {
    let call = |(call, _): &(&str, &str)| match call.strip_prefix('"') {
        Some(text) => feed(text),
        None => call.to_string(),
    };
    let calls: Vec<String> = rows.iter().map(call).collect();
    let expected: Vec<&str> = rows.iter().map(|(_, answer)| *answer).collect();
    assert_eq!(answers(&calls.join("\n")), expected, "{rows:?}");
}

fn quoted(text: &str) -> String {
    format!("\"{text}")
}

#[test]
fn a_recording_in_portions_ends_as_the_whole() {
    let text = [ADD, START, FRAME].concat();
    for cut in 0..=text.len() {
        let (first, second) = (quoted(&text[..cut]), quoted(&text[cut..]));
        rows(&[
            (&first, "ok"),
            ("feed -", "ok"),
            (&second, "ok"),
            ("feed.end", "ok"),
            ("feed.show", RUNNING),
        ]);
    }
}

#[test]
fn a_feed_begins_fresh_and_shows_what_is_whole() {
    let open = quoted(&START[..START.len() - 1]);
    rows(&[
        ("feed.show", ""),
        (&quoted(ADD), "ok"),
        ("feed.show", STILL),
        (&open, "ok"),
        ("feed.show", STILL),
        ("feed.new", "ok"),
        ("feed.show", ""),
        ("feed.end", "ok"),
        ("feed.end", "ok"),
        (&quoted("x\n"), "ok"),
        ("feed.show", ""),
    ]);
}

#[test]
fn a_refusal_is_said_again_and_nothing_changes() {
    let refused = [
        ("x\n", "refused 13 41"),
        ("op=add\nslot=16\n", "refused 13 48"),
        (
            "op=add\nslot=0\ngen=1\narg=4014000000000000\n",
            "refused 14 1",
        ),
        (
            "op=stop\nslot=3\ngen=1\narg=0000000000000000\n",
            "refused 15 1",
        ),
        (
            "op=frame\nslot=0\ngen=0\narg=bff0000000000000\n",
            "refused 1 1",
        ),
    ];
    for (text, answer) in refused {
        rows(&[
            (&quoted(ADD), "ok"),
            (&quoted(text), answer),
            ("feed.show", STILL),
            (&quoted(START), answer),
            ("feed -", answer),
            ("feed.end", answer),
            (&quoted(START), answer),
            ("feed.end", answer),
            ("feed.show", STILL),
            ("feed.at 0", "error"),
        ]);
    }
}

#[test]
fn an_end_inside_a_record_is_16_and_stays_so() {
    let (open, rest) = START.split_at(20);
    rows(&[
        (&quoted(ADD), "ok"),
        (&quoted(open), "ok"),
        ("feed.end", "refused 16"),
        ("feed.end", "refused 16"),
        (&quoted(rest), "refused 16"),
        ("feed.show", STILL),
    ]);
}

/// 64 bytes are an open record, and the next is one too many, an LF too.
#[test]
fn the_65th_byte_decides() {
    let junk = "x".repeat(64);
    rows(&[(&quoted(&junk), "ok"), ("feed.end", "refused 16")]);
    for byte in ["x", "\n"] {
        rows(&[(&quoted(&junk), "ok"), (&quoted(byte), "refused 13 0")]);
    }
    let long = format!("op=add\nslot=0\ngen=1\narg={}", "0".repeat(40));
    rows(&[(&quoted(&long), "ok"), ("feed 0a", "refused 13 20")]);
}

const END: &str = "refused 13 9223372036854775808";

#[test]
fn the_byte_behind_the_most_is_refused_there() {
    // An add's record has 41 bytes.
    rows(&[
        ("feed.at 9223372036854775767", "ok"),
        (&quoted(ADD), "ok"),
        ("feed -", "ok"),
        ("feed 0a", END),
        ("feed.end", END),
        ("feed.show", STILL),
    ]);
    rows(&[
        ("feed.at 9223372036854775767", "ok"),
        (&quoted(ADD), "ok"),
        ("feed.end", "ok"),
        ("feed 0a", "ok"),
    ]);
    // It comes before the LF that would make the line bad, and behind one that does.
    rows(&[("feed.at 9223372036854775807", "ok"), (&quoted("x\n"), END)]);
    rows(&[
        ("feed.at 9223372036854775806", "ok"),
        (&quoted("x\nyz"), "refused 13 9223372036854775806"),
    ]);
    rows(&[
        ("feed.at 9223372036854775744", "ok"),
        (&quoted(&"x".repeat(65)), END),
    ]);
    rows(&[("feed.at 9223372036854775808", "ok"), ("feed.end", "ok")]);
    rows(&[("feed.at 9223372036854775808", "ok"), ("feed 6f", END)]);
    rows(&[
        ("feed.at 9223372036854775807", "ok"),
        ("feed 6f", "ok"),
        ("feed.end", "refused 16"),
    ]);
}

#[test]
fn only_a_fresh_feed_is_put_at_a_byte() {
    rows(&[
        ("feed.at 5", "ok"),
        ("feed -", "ok"),
        ("feed.at 9223372036854775809", "error"),
        ("feed.at 18446744073709551615", "error"),
        ("feed.at 18446744073709551616", "error"),
        ("feed.at 07", "error"),
        ("feed.at", "error"),
        ("feed.at 7", "ok"),
        ("feed 780a", "refused 13 7"),
        ("feed.at 7", "error"),
        ("feed.new", "ok"),
        ("feed 780a", "refused 13 0"),
        ("feed.new", "ok"),
        ("feed 6f", "ok"),
        ("feed.at 0", "error"),
        ("feed.new", "ok"),
        ("feed.end", "ok"),
        ("feed.at 0", "error"),
    ]);
    // Records are counted from there on.
    let wrong = ADD.replace("slot=0", "slot=1");
    rows(&[("feed.at 420", "ok"), (&quoted(&wrong), "refused 14 0")]);
}

#[test]
fn words_that_are_no_bytes_change_nothing() {
    let wrong = [
        "feed",
        "feed 0",
        "feed 6F",
        "feed 6g",
        "feed 6f 6f",
        "feed --",
        "feed.end 0",
        "feed.show -",
    ];
    for line in wrong {
        rows(&[
            (line, "error"),
            ("feed.at 3", "ok"),
            (line, "error"),
            (&quoted("x\n"), "refused 13 3"),
            (line, "error"),
        ]);
    }
    // The longest line holds 509 bytes.
    let (most, more) = ("x".repeat(509), "x".repeat(510));
    rows(&[(&quoted(&more), "error"), (&quoted(&most), "refused 13 0")]);
}

#[test]
fn the_station_and_the_feed_do_not_touch_each_other() {
    rows(&[
        ("clock.add fix tps 3ff0000000000000", "id 0:1"),
        ("feed.show", ""),
        (&quoted(ADD), "ok"),
        ("new", "ok"),
        ("feed.show", STILL),
        ("clock.time 0:1", "refused 15"),
        ("clock.add fix tps 3ff0000000000000", "id 0:1"),
        ("clock.start 0:1", "ok"),
        ("frame 3ff0000000000000", "frame 0=1"),
        ("feed.show", STILL),
        ("feed.new", "ok"),
        ("clock.time 0:1", "1 0000000000000000"),
    ]);
}
