//! Lines that are no call, and calls that look strange: the ways in which a line may be spoilt.

use super::random::Random;

/// How one line becomes another.
type Damage = fn(&str, &mut Random) -> Vec<u8>;

/// The most bytes that a call may have.
const LONGEST: usize = 1024;

const KINDS: [Damage; 32] = [
    |line, _| without_last_word(line).into(),
    |line, random| join(line, &[" x", " 0", " 0000000000000000", " #"], random),
    |line, _| last_word_as(line, |word| word.to_uppercase()),
    |line, _| last_word_as(line, |word| word.replace(|_| true, "A")),
    |line, _| last_word_as(line, a_digit_less),
    |line, _| last_word_as(line, a_digit_more),
    |line, _| last_word_as(line, |word| format!("0x{word}")),
    bad_byte,
    |line, random| change_word(line, random, |word| format!("0{word}")),
    |line, random| change_word(line, random, |word| format!("+{word}")),
    |line, random| change_word(line, random, |word| format!("-{word}")),
    |line, random| change_word(line, random, |_| "18446744073709551616".to_string()),
    |line, random| change_word(line, random, |_| String::new()),
    |line, random| change_word(line, random, |word| format!("{word} {word}")),
    |line, _| format!("x{line}").into(),
    |line, _| line.replacen('.', "..", 1).into(),
    |line, _| line.replace(' ', "   ").into(),
    |line, _| format!("  {line}").into(),
    |line, _| format!("{line}   ").into(),
    |line, random| {
        line.replacen(' ', random.pick(&["\t", "\u{a0}", "\u{b}", ","]), 1)
            .into()
    },
    |line, _| format!("{line}\r").into(),
    |line, _| format!("# {line}").into(),
    |line, _| format!(" # {line}").into(),
    |_, random| {
        random
            .pick(&["", " ", "    ", "\r", "\t", "#", "##"])
            .into()
    },
    |line, _| padded(line, LONGEST),
    |line, _| padded(line, LONGEST + 1),
    |line, _| padded(&format!("#{line}"), LONGEST),
    |line, _| padded(&format!("#{line}"), LONGEST + 1),
    |_, _| padded("", LONGEST),
    |_, _| padded("", LONGEST + 1),
    |line, _| padded(&format!("{line} {}", "0".repeat(900)), LONGEST),
    |line, random| padded(line, random.pick(&[LONGEST - 1, LONGEST + 2, 3000, 70_000])),
];

/// Every kind of damage, each done to some of these lines.
pub(super) fn every_kind(lines: &[String], random: &mut Random) -> Vec<Vec<u8>> {
    let each = KINDS.iter().flat_map(|damage| [damage; 3]);
    each.map(|damage| damage(&lines[random.index(lines.len())], random))
        .collect()
}

pub(super) fn any(line: &str, random: &mut Random) -> Vec<u8> {
    random.pick(&KINDS)(line, random)
}

fn without_last_word(line: &str) -> &str {
    line.rsplit_once(' ').map_or(line, |(start, _)| start)
}

fn last_word_as(line: &str, change: fn(&str) -> String) -> Vec<u8> {
    match line.rsplit_once(' ') {
        Some((start, last)) => format!("{start} {}", change(last)).into(),
        None => change(line).into(),
    }
}

/// A power must not become another that is accepted, so only a double's digits are taken off or added.
fn a_digit_less(word: &str) -> String {
    if word.len() < 16 {
        return format!("{word}x");
    }
    word[1..].to_string()
}

fn a_digit_more(word: &str) -> String {
    if word.len() < 16 {
        return format!("x{word}");
    }
    format!("{word}0")
}

fn change_word(line: &str, random: &mut Random, change: fn(&str) -> String) -> Vec<u8> {
    let mut words: Vec<String> = line.split(' ').map(str::to_string).collect();
    let place = random.index(words.len());
    words[place] = change(&words[place]);
    words.join(" ").into()
}

fn join(line: &str, ends: &[&str], random: &mut Random) -> Vec<u8> {
    format!("{line}{}", random.pick(ends)).into()
}

/// One byte of the line becomes one that no call holds there. None of them is an LF.
fn bad_byte(line: &str, random: &mut Random) -> Vec<u8> {
    let mut bytes = line.as_bytes().to_vec();
    let place = random.index(bytes.len());
    bytes[place] = random.pick(b"\x00\x0b\x0d\x1fgG-+.:\x7f\x80\xff");
    bytes
}

/// The line with blanks behind it, up to a width.
fn padded(line: &str, width: usize) -> Vec<u8> {
    let mut bytes = line.as_bytes().to_vec();
    bytes.resize(width.max(bytes.len()), b' ');
    bytes
}
