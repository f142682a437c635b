//! Doubles worth trying.

use super::random::Random;

const SIGN: u64 = 1 << 63;

pub(super) fn word(x: f64) -> String {
    format!("{:016x}", x.to_bits())
}

pub(super) fn words(doubles: Vec<f64>) -> Vec<String> {
    doubles.into_iter().map(word).collect()
}

/// A double and its two neighbours, each with both signs. Zero and infinity have patterns beside them too.
pub(super) fn around(x: f64) -> Vec<f64> {
    let bits = x.to_bits();
    let near = [bits.saturating_sub(1), bits, bits + 1];
    let signed = near.iter().flat_map(|bits| [*bits, *bits | SIGN]);
    signed.map(f64::from_bits).collect()
}

/// Where a double's shape changes, and NaN patterns.
pub(super) fn corners() -> Vec<f64> {
    let patterns = [
        0.0,
        f64::MIN_POSITIVE,
        0.25,
        0.5,
        1.0,
        2f64.powi(52),
        2f64.powi(53),
        2f64.powi(63),
        2f64.powi(64),
        f64::MAX,
        f64::INFINITY,
    ];
    let mut corners: Vec<f64> = patterns.into_iter().flat_map(around).collect();
    let nans = [
        0x7ff8 << 48,
        0x7fff_ffff_ffff_ffff,
        0x7ff0_0000_0000_0001,
        0x7ffc_dead_beef_0123,
    ];
    for bits in nans {
        corners.push(f64::from_bits(bits));
        corners.push(f64::from_bits(bits | SIGN));
    }
    corners
}

/// Powers of two with their neighbours, where whole parts change.
pub(super) fn powers() -> Vec<f64> {
    let exponents = -60..=70;
    exponents
        .flat_map(|exponent| around(2f64.powi(exponent)))
        .collect()
}

/// Small whole numbers plus a half, and their neighbours.
pub(super) fn halves() -> Vec<f64> {
    let wholes = [1u64, 2, 3, 7, 1000, 1 << 31, (1 << 51) - 1, 1 << 51];
    wholes
        .into_iter()
        .flat_map(|whole| around(whole as f64 + 0.5))
        .collect()
}

fn signed(x: f64, random: &mut Random) -> f64 {
    if random.chance(2) { -x } else { x }
}

/// Any pattern of bits.
pub(super) fn pattern(random: &mut Random) -> f64 {
    f64::from_bits(random.next())
}

/// A double with random digits and a binary exponent from `least` to `most`.
pub(super) fn scaled(least: i32, most: i32, random: &mut Random) -> f64 {
    let exponent = least + random.below((most - least + 1) as u64) as i32;
    (1.0 + random.unit()) * 2f64.powi(exponent)
}

/// A whole number, sometimes plus a half, of 1 to 64 bits.
pub(super) fn whole(random: &mut Random) -> f64 {
    let bits = random.below(64);
    let whole = (random.next() >> bits) as f64;
    let half = if random.chance(3) { 0.5 } else { 0.0 };
    signed(whole + half, random)
}

/// A double of any of the kinds above.
pub(super) fn any(random: &mut Random) -> f64 {
    match random.below(4) {
        0 => pattern(random),
        1 => whole(random),
        _ => {
            let moderate = scaled(-70, 70, random);
            signed(moderate, random)
        }
    }
}

/// The next double above a positive one, and the one below it.
pub(super) fn above(x: f64) -> f64 {
    f64::from_bits(x.to_bits() + 1)
}

pub(super) fn below(x: f64) -> f64 {
    f64::from_bits(x.to_bits() - 1)
}
