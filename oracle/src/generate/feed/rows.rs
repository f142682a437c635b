//! Feedings that every run begins with.

use super::{LONGEST, MOST, NO_PORTIONS, STATION_CALLS, cuts, feed, texts};

/// Texts of at most so many bytes are fed byte by byte.
const BYTEWISE: usize = 90;

pub(super) fn all() -> Vec<String> {
    [fresh(), cut(), records(), placed(), near_most(), beside()].concat()
}

/// What comes before the first `feed.new`, and calls that are none.
fn fresh() -> Vec<String> {
    let mut lines = strings(&["feed.show", "feed -", "feed.end", "feed.end", "feed.show"]);
    for line in NO_PORTIONS {
        lines.extend(strings(&["feed.new", line, "feed 780a", line, "feed.end"]));
    }
    let wrong = [
        "feed.new 0",
        "feed.end 0",
        "feed.show 0",
        "feed.at",
        "feed.at -",
    ];
    lines.extend(strings(&wrong));
    // The longest line, and one that is too long.
    for length in [LONGEST, LONGEST + 1] {
        lines.extend(strings(&["feed.new", &feed(&vec![b'x'; length])]));
        lines.extend(strings(&["feed.end", "feed.show"]));
    }
    lines
}

fn strings(lines: &[&str]) -> Vec<String> {
    lines.iter().map(|line| line.to_string()).collect()
}

/// A feeding of these portions, its end twice, and what is tried behind it.
fn fed(portions: Vec<&[u8]>) -> Vec<String> {
    let mut lines = strings(&["feed.new"]);
    lines.extend(portions.into_iter().map(feed));
    let more = feed(&texts::add());
    let behind = [
        "feed.end",
        "feed.show",
        &more,
        "feed -",
        "feed.end",
        "feed.show",
    ];
    lines.extend(strings(&behind));
    lines
}

/// Good, refused, bad and cut-off recordings, each cut in several ways.
fn cut() -> Vec<String> {
    let good = texts::good();
    let ends = [0, 1, 6, 7, 40, 41, 42, 83, good.len() - 1, good.len()];
    let cut_off = ends.map(|end| good[..end].to_vec());
    let behind_add = |bad: Vec<u8>| [texts::add(), bad].concat();
    let bad = texts::bad_lines().into_iter().map(behind_add).collect();
    let mut lines = Vec::new();
    for text in [cut_off.to_vec(), texts::refused(), bad].concat() {
        lines.extend(fed(cuts::whole(&text)));
        lines.extend(fed(cuts::behind_ends(&text)));
        lines.extend(fed(cuts::before_ends(&text)));
    }
    for text in [&good[..50], &texts::refused()[6], b"x\nop=add\n"] {
        assert!(text.len() <= BYTEWISE);
        lines.extend(fed(cuts::bytewise(text)));
    }
    lines
}

/// Records of about 64 bytes, open and closed, with the last bytes one by one.
fn records() -> Vec<String> {
    let mut lines = Vec::new();
    for line in 0..4 {
        for (length, closed) in [(63, true), (64, true), (65, true), (64, false), (66, false)] {
            let long = texts::stretched(line, length, closed);
            let text = [texts::add(), long].concat();
            let ends = (text.len() - 4..text.len()).collect();
            lines.extend(fed(cuts::at_places(&text, ends)));
        }
    }
    lines
}

/// `feed.at` with each number that matters, on a feed that is fresh and on others.
fn placed() -> Vec<String> {
    let numbers = [0, 1, 65_536, MOST - 1, MOST, MOST + 1, u64::MAX];
    let mut lines = Vec::new();
    for number in numbers {
        let at = format!("feed.at {number}");
        lines.extend(strings(&["feed.new", &at, "feed -", &at, "feed.end", &at]));
        lines.extend(strings(&["feed.new", &at, "feed 780a", &at, "feed.end"]));
        lines.extend(strings(&[
            "feed.new",
            "feed 6f",
            &at,
            "feed.end",
            "feed.show",
        ]));
    }
    lines
}

/// The most bytes lie inside a line, at an LF, behind a record, and at the 65th byte of one, with bytes behind them in
/// the same portion and in the next.
fn near_most() -> Vec<String> {
    let (add, start) = (texts::add(), texts::start());
    let long = texts::stretched(0, 70, false);
    let bad = [&add[..], b"x\n", &start].concat();
    let rows = [
        (
            [&add[..], &start].concat(),
            vec![0, 1, 3, 6, 7, 40, 41, 42, 83, 84],
        ),
        (
            [&add[..], &long].concat(),
            vec![41, 104, 105, 106, 110, 111],
        ),
        (bad, vec![41, 42, 43, 44]),
        (texts::refused()[7].clone(), vec![82, 83, 122, 123, 124]),
    ];
    let mut lines = Vec::new();
    for (text, rooms) in rows {
        for room in rooms {
            let place = room.min(text.len());
            for places in [vec![], vec![place], vec![place.saturating_sub(1), place]] {
                let at = format!("feed.at {}", MOST - room as u64);
                let mut feeding = fed(cuts::at_places(&text, places));
                feeding.insert(1, at);
                lines.extend(feeding);
            }
        }
    }
    lines
}

/// Calls of the station between portions, and the other way round.
fn beside() -> Vec<String> {
    let (good, mut lines) = (texts::good(), strings(&["new"]));
    for call in STATION_CALLS {
        lines.extend(strings(&["feed.new", &feed(&good[..60]), call]));
        lines.extend(strings(&["feed.show", &feed(&good[60..]), call]));
        lines.extend(strings(&["feed.end", "feed.show", "clock.report 0:1 96"]));
    }
    lines
}
