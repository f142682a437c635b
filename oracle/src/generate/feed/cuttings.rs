//! Every cutting of short recordings, every pair of cuts of longer ones, and random cuttings of long ones. Each
//! recording is fed whole first.

use std::io::{self, BufWriter, Write};

use crate::{random::Random, runs, text::record};

use super::{MOST, cuts, feed, texts};

/// How many long recordings there are, and how many times each is cut.
const LONG: usize = 60;
const TIMES: usize = 20;

/// The most bytes that are cut in every way.
const EVERY: usize = 12;

/// A recording: where it stands, what is fed first, and what is cut.
struct Text {
    at: u64,
    head: Vec<u8>,
    tail: Vec<u8>,
}

impl Text {
    fn new(head: &[u8], tail: &[u8]) -> Self {
        let (head, tail) = (head.to_vec(), tail.to_vec());
        Self { at: 0, head, tail }
    }

    /// Only so many bytes of it are allowed.
    fn with_room(self, room: usize) -> Self {
        let at = MOST - room as u64;
        Self { at, ..self }
    }

    fn feeding(&self, name: &str, portions: Vec<&[u8]>) -> String {
        let mut lines = vec![format!("# {name}"), "feed.new".to_string()];
        if self.at > 0 {
            lines.push(format!("feed.at {}", self.at));
        }
        lines.extend(portions.into_iter().map(feed));
        let more = feed(&texts::add());
        let behind = ["feed.end", "feed.show", &more, "feed.end", "feed.show"];
        lines.extend(behind.map(str::to_string));
        lines.join("\n") + "\n"
    }

    fn whole(&self) -> String {
        let text = [&self.head[..], &self.tail].concat();
        self.feeding("whole", cuts::whole(&text))
    }

    fn cut<'a>(&'a self, mut portions: Vec<&'a [u8]>) -> String {
        if !self.head.is_empty() {
            portions.insert(0, &self.head);
        }
        self.feeding("cut", portions)
    }
}

/// Prints all of them.
pub(crate) fn print(seed: u64, output: impl Write) -> io::Result<()> {
    let mut output = BufWriter::new(output);
    let mut random = Random::new(seed);
    for text in short() {
        output.write_all(text.whole().as_bytes())?;
        for cutting in every(&text.tail) {
            output.write_all(text.cut(cutting).as_bytes())?;
        }
    }
    for text in longer() {
        output.write_all(text.whole().as_bytes())?;
        for places in pairs(text.tail.len()) {
            let portions = cuts::at_places(&text.tail, places);
            output.write_all(text.cut(portions).as_bytes())?;
        }
    }
    for _ in 0..LONG {
        let text = long(&mut random);
        output.write_all(text.whole().as_bytes())?;
        for _ in 0..TIMES {
            let portions = cuts::anywhere(&text.tail, &mut random);
            output.write_all(text.cut(portions).as_bytes())?;
        }
    }
    output.flush()
}

/// A byte of a text is the last of its portion or not; the last one is.
fn every(text: &[u8]) -> Vec<Vec<&[u8]>> {
    assert!(text.len() <= EVERY);
    let inner = text.len().saturating_sub(1);
    let places = |mask: usize| (1..=inner).filter(|at| mask >> (at - 1) & 1 == 1).collect();
    let cuttings = (0..1usize << inner).map(places);
    cuttings
        .map(|places| cuts::at_places(text, places))
        .collect()
}

/// Two places, the ends and equal ones too.
fn pairs(length: usize) -> Vec<Vec<usize>> {
    let seconds = |first| (first..=length).map(move |second| vec![first, second]);
    (0..=length).flat_map(seconds).collect()
}

/// Beginnings of recordings; and the bytes about a record's end, its 65th byte and the most bytes.
fn short() -> Vec<Text> {
    let mut short: Vec<Text> = beginnings();
    let (good, x) = (texts::good(), [b'x'; 80]);
    short.push(Text::new(&good[..35], &good[35..47]));
    short.push(Text::new(&good[..74], &good[74..86]));
    let wrong = [record("add", 1, 1, 5.0), texts::start()].concat();
    short.push(Text::new(&wrong[..35], &wrong[35..47]));
    let bad = [texts::add(), b"\nop=add\n".to_vec()].concat();
    short.push(Text::new(&bad[..37], &bad[37..49]));
    short.push(Text::new(&x[..59], &x[..12]));
    for closed in [63, 64, 65] {
        let text = texts::stretched(3, closed, true);
        let text = [text, texts::add()].concat();
        short.push(Text::new(&text[..59], &text[59..69]));
    }
    for room in [0, 1, 6, 7, 9, 10] {
        short.push(Text::new(b"", &good[..10]).with_room(room));
    }
    for room in [40, 41, 42] {
        short.push(Text::new(&good[..36], &good[36..47]).with_room(room));
        short.push(Text::new(&wrong[..36], &wrong[36..47]).with_room(room));
    }
    for room in [64, 65] {
        short.push(Text::new(&x[..59], &x[..10]).with_room(room));
    }
    short
}

fn beginnings() -> Vec<Text> {
    let good = texts::good();
    let mut texts: Vec<Vec<u8>> = (0..EVERY).map(|length| good[..length].to_vec()).collect();
    let others = [
        "op=add\nslot=",
        "op=add\nslo=\n",
        "op=frame\nslo",
        "op=drop\r\nsl",
        "op=ad\nop=add",
        "slot=0\nop=ad",
        "\nop=add\nslot",
        "op=add\n\nslot",
        "op=\nslot=0\n",
        "op=stop \ns",
        "Op=stop\n",
        "op=adds\n",
        "op\n=add\n",
        "\n\n\n\n\n\n\n",
        "x\nx\nx\n",
        "\0\n\0\n",
        "\r\n",
        " \n",
        "x\n",
    ];
    texts.extend(others.map(|text| text.as_bytes().to_vec()));
    texts.push(vec![0xff, 0x0a, 0x80, 0x0a, 0xc3, 0xa9, 0x0a]);
    texts.iter().map(|text| Text::new(b"", text)).collect()
}

/// Two or three records: good ones, refused ones and cut-off ones.
fn longer() -> Vec<Text> {
    let good = texts::good();
    let (add, start) = (texts::add(), texts::start());
    let refused = texts::refused();
    let again = [add.clone(), add.clone(), start].concat();
    let bad = |line: &str| [&add[..], line.as_bytes(), &add].concat();
    let long = [add.clone(), texts::stretched(1, 65, true)].concat();
    let open = [add.clone(), texts::stretched(3, 64, false)].concat();
    let wrong_first = [record("add", 1, 1, 5.0), add.clone()].concat();
    let four = [&good[..], &record("stop", 0, 1, 0.0)].concat();
    let mut all = vec![
        Text::new(b"", &four[..150]),
        Text::new(b"", &good),
        Text::new(b"", &good[..100]),
        Text::new(b"", &good[..83]),
        Text::new(b"", &good[..60]),
        Text::new(b"", &again[..90]),
        Text::new(b"", &wrong_first),
        Text::new(b"", &refused[0]),
        Text::new(b"", &refused[3]),
        Text::new(b"", &bad("\n")),
        Text::new(b"", &bad("op=add\nslot=0\ngen=01\n")),
        Text::new(b"", &long),
        Text::new(b"", &open),
    ];
    for room in [41, 60, 64] {
        all.push(Text::new(b"", &good[..84]).with_room(room));
    }
    all
}

/// Dozens of records: a run as it comes, cut off, or with something refused or bad near its end.
fn long(random: &mut Random) -> Text {
    let mut text = Vec::new();
    while text.len() < 1000 {
        text = runs::run(random);
    }
    let end = text.len() - 1 - random.index(40);
    match random.below(6) {
        0 => text.truncate(end),
        1 => text[end] = random.pick(b"\n\r 0x"),
        2 => text.extend(record("add", 9, 9, 5.0)),
        3 => text.extend(texts::stretched(3, 66, true)),
        _ => {}
    }
    let room = text.len() - random.index(50);
    let placed = random.chance(6);
    let text = Text::new(b"", &text);
    if placed { text.with_room(room) } else { text }
}

#[cfg(test)]
mod tests {
    use std::collections::HashSet;

    use super::*;

    #[test]
    fn every_cutting_comes_once() {
        assert_eq!(every(b""), [[b""]]);
        let all: HashSet<Vec<&[u8]>> = every(b"abcdef").into_iter().collect();
        assert_eq!(all.len(), 32);
        for portions in all {
            assert!(portions.iter().all(|portion| !portion.is_empty()));
            assert_eq!(portions.concat(), b"abcdef");
        }
    }

    #[test]
    fn pairs_are_in_order_and_may_be_the_same() {
        let expected = [[0, 0], [0, 1], [0, 2], [1, 1], [1, 2], [2, 2]];
        assert_eq!(pairs(2), expected);
    }
}
