//! Ways to cut a recording into portions.

use crate::random::Random;

use super::LONGEST;

/// The longest text that is fed byte by byte.
const BYTEWISE: usize = 130;

/// About the most portions of a longer one.
const PORTIONS: usize = 40;

/// One portion, or as few as lines can hold.
pub(super) fn whole(text: &[u8]) -> Vec<&[u8]> {
    text.chunks(LONGEST).collect()
}

pub(super) fn bytewise(text: &[u8]) -> Vec<&[u8]> {
    text.chunks(1).collect()
}

/// Cut behind each LF.
pub(super) fn behind_ends(text: &[u8]) -> Vec<&[u8]> {
    short(text.split_inclusive(|byte| *byte == b'\n').collect())
}

/// Cut before each LF, so that portions begin with it.
pub(super) fn before_ends(text: &[u8]) -> Vec<&[u8]> {
    let ends = (1..text.len()).filter(|at| text[*at] == b'\n');
    short(at_places(text, ends.collect()))
}

/// Cut at these places, which are in order. Where two are the same, no byte lies between them.
pub(super) fn at_places(text: &[u8], places: Vec<usize>) -> Vec<&[u8]> {
    let mut portions = Vec::new();
    let mut from = 0;
    for place in places {
        portions.push(&text[from..place]);
        from = place;
    }
    portions.push(&text[from..]);
    portions
}

/// Cut at random, some portions empty.
pub(super) fn anywhere<'a>(text: &'a [u8], random: &mut Random) -> Vec<&'a [u8]> {
    let most = random.pick(&[2, 6, 20, 44, 100, LONGEST]);
    let most = most.max(2 * text.len() / PORTIONS);
    let mut portions = Vec::new();
    let mut rest = text;
    while !rest.is_empty() {
        let length = match random.chance(6) {
            true => 0,
            false => 1 + random.index(most),
        };
        let (portion, behind) = rest.split_at(length.min(rest.len()));
        portions.push(portion);
        rest = behind;
    }
    if random.chance(3) {
        portions.push(&[]);
    }
    portions
}

pub(super) fn any<'a>(text: &'a [u8], random: &mut Random) -> Vec<&'a [u8]> {
    match random.below(8) {
        0 => whole(text),
        1 if text.len() <= BYTEWISE => bytewise(text),
        2 => behind_ends(text),
        3 => before_ends(text),
        4 => {
            let mut places = [0; 3].map(|_| random.index(text.len() + 1));
            places.sort();
            short(at_places(text, places.to_vec()))
        }
        _ => anywhere(text, random),
    }
}

/// Portions that lines can hold; empty ones stay.
fn short(portions: Vec<&[u8]>) -> Vec<&[u8]> {
    let held = |portion: &'_ [u8]| portion.len() <= LONGEST;
    let cut = portions
        .into_iter()
        .flat_map(|portion| match held(portion) {
            true => vec![portion],
            false => whole(portion),
        });
    cut.collect()
}

#[cfg(test)]
mod tests {
    use super::*;
    use crate::feed::texts;

    #[test]
    fn every_way_keeps_the_bytes_and_fits_into_lines() {
        let mut random = Random::new(9);
        for _ in 0..2000 {
            let text = texts::any(&mut random);
            let portions = any(&text, &mut random);
            assert!(portions.iter().all(|portion| portion.len() <= LONGEST));
            assert_eq!(portions.concat(), text);
        }
    }

    #[test]
    fn an_lf_ends_a_portion_or_begins_one() {
        let text = b"\nab\n\nc";
        assert_eq!(behind_ends(text), [&b"\n"[..], b"ab\n", b"\n", b"c"]);
        assert_eq!(before_ends(text), [&b"\nab"[..], b"\n", b"\nc"]);
    }
}
