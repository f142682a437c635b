//! Recordings in which one line of one record is written in a way worth trying. Most such lines are bad.

const OPS: [&str; 7] = ["add", "drop", "start", "stop", "reset", "speed", "frame"];

/// What may stand in place of a number.
const NUMBERS: [&str; 24] = [
    "",
    "0",
    "1",
    "9",
    "10",
    "15",
    "16",
    "00",
    "01",
    "015",
    "4294967295",
    "4294967296",
    "18446744073709551615",
    "18446744073709551616",
    "18446744073709551617",
    "340282366920938463463374607431768211457",
    "+1",
    "-0",
    " 1",
    "1 ",
    "1\r",
    "1\0",
    "a",
    "0x1",
];

/// What may stand in place of a double's bits.
const ARGS: [&str; 14] = [
    "",
    "0000000000000000",
    "0000000000000001",
    "8000000000000000",
    "1000000000000000",
    "4000000000000000",
    "000000000000000",
    "00000000000000000",
    "400000000000000A",
    "400000000000000g",
    "0x40000000000000",
    " 400000000000000",
    "400000000000000 ",
    "4000000000000000\r",
];

/// What may stand in place of a whole line.
const LINES: [&str; 18] = [
    "",
    " ",
    "\r",
    "=",
    "op",
    "op=",
    "op=adds",
    "op=ad",
    "op=ADD",
    "op=add ",
    "op:add",
    "oq=add",
    "slot=0",
    "gen=1",
    "arg=0000000000000000",
    "slot",
    "gen=",
    "\u{e9}",
];

pub(crate) fn all() -> Vec<Vec<u8>> {
    let mut made = Vec::new();
    for op in OPS {
        let number = if op == "frame" { "0" } else { "1" };
        let lines = [
            format!("op={op}"),
            "slot=0".to_string(),
            format!("gen={number}"),
            "arg=0000000000000000".to_string(),
        ];
        made.extend(NUMBERS.map(|text| with(&lines, 1, format!("slot={text}"))));
        made.extend(NUMBERS.map(|text| with(&lines, 2, format!("gen={text}"))));
        made.extend(ARGS.map(|text| with(&lines, 3, format!("arg={text}"))));
        if ["add", "frame", "stop"].contains(&op) {
            let places = (0..4).flat_map(|place| LINES.map(|text| (place, text)));
            made.extend(places.map(|(place, text)| with(&lines, place, text.to_string())));
        }
    }
    made
}

/// The record with this line in place of one of its own. A clock lives where the record is no add.
fn with(lines: &[String; 4], place: usize, line: String) -> Vec<u8> {
    let mut lines = lines.clone();
    let first = if lines[0] == "op=add" {
        ""
    } else {
        "op=add\nslot=0\ngen=1\narg=4014000000000000\n"
    };
    lines[place] = line;
    format!("{first}{}\n", lines.join("\n")).into_bytes()
}
