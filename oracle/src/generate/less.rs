//! Doubles that are taken off times, by `time.subf` and, as negative ones, by `time.addf`: tiny ones, ones beside whole
//! numbers, and ones that are nearly the time or nearly its fraction.

use super::{Family, doubles, random::Random};

const TICKS: [u64; 7] = [0, 1, 5, (1 << 40) - 1, 1 << 40, 1 << 53, u64::MAX];

pub(super) fn family() -> Family {
    let fractions = fractions();
    let amounts = amounts();
    let mut limits = Vec::new();
    for ticks in TICKS {
        for &fraction in &fractions {
            for &amount in &amounts {
                limits.push(subtracted(ticks, fraction, amount));
            }
        }
    }
    // At tick 5 the same by the other call, and with fractions that no call accepts.
    for &amount in &amounts {
        for &fraction in &fractions {
            limits.push(added(5, fraction, -amount));
        }
        for fraction in [1.0, -0.0, -0.5, f64::NAN] {
            limits.push(subtracted(5, fraction, amount));
        }
    }
    Family {
        limits,
        random: Box::new(line),
    }
}

fn subtracted(ticks: u64, fraction: f64, amount: f64) -> String {
    let (fraction, amount) = (doubles::word(fraction), doubles::word(amount));
    format!("time.subf {ticks} {fraction} {amount}")
}

fn added(ticks: u64, fraction: f64, amount: f64) -> String {
    let (fraction, amount) = (doubles::word(fraction), doubles::word(amount));
    format!("time.addf {ticks} {fraction} {amount}")
}

/// Where a tick is borrowed or given back: at 0, by the least doubles, by 2^-54 and its neighbours, at a half, and
/// below 1.
fn fractions() -> Vec<f64> {
    let small = [f64::from_bits(1), f64::MIN_POSITIVE, 2f64.powi(-60)];
    let ties = [-55, -54, -53].map(|exponent| 2f64.powi(exponent));
    let large = [
        0.25,
        doubles::below(0.5),
        0.5,
        doubles::above(0.5),
        doubles::below(1.0),
    ];
    [&[0.0][..], &small, &ties, &large].concat()
}

/// The same, alone and with whole ticks, the next doubles, and the limits of an amount.
fn amounts() -> Vec<f64> {
    let mut amounts = Vec::new();
    for fraction in fractions() {
        amounts.extend([fraction, doubles::above(fraction)]);
        amounts.extend([1.0, 5.0].map(|whole| whole + fraction));
    }
    let most = 2f64.powi(40);
    amounts.extend([
        doubles::above(2f64.powi(-54)),
        doubles::below(2f64.powi(-53)),
    ]);
    amounts.extend([
        doubles::below(5.0),
        doubles::below(6.0),
        doubles::below(most),
        most,
    ]);
    amounts.extend([-0.0, doubles::above(most), f64::NAN]);
    amounts
}

/// Two in three by the one call, one by the other.
fn line(random: &mut Random) -> String {
    let (ticks, fraction) = (ticks(random), fraction(random));
    let amount = amount(ticks, fraction, random);
    if random.chance(3) {
        return added(ticks, fraction, -amount);
    }
    subtracted(ticks, fraction, amount)
}

fn ticks(random: &mut Random) -> u64 {
    match random.below(4) {
        0 => random.below(3),
        1 => random.next() >> (23 + random.below(41)),
        2 => random.next() >> random.below(64),
        _ => random.below(1000),
    }
}

fn fraction(random: &mut Random) -> f64 {
    match random.below(6) {
        0 | 1 => random.below(8) as f64 / 8.0,
        2 => tiny(random),
        3 => 1.0 - doubles::scaled(-53, -1, random),
        4 => doubles::scaled(-60, -1, random),
        _ => random.unit(),
    }
}

/// At most 2^-50, the subnormals too.
fn tiny(random: &mut Random) -> f64 {
    match random.below(4) {
        0 => f64::from_bits(random.next() >> (12 + random.below(52))),
        1 => doubles::scaled(-1074, -60, random),
        _ => doubles::scaled(-58, -51, random),
    }
}

fn amount(ticks: u64, fraction: f64, random: &mut Random) -> f64 {
    let whole = random.below(ticks.min(1 << 39) + 2) as f64;
    let amount = match random.below(9) {
        // Off an eighth, the original is exact here.
        0 => return whole / 8.0,
        // A whole number, or one tick too many, and its neighbours.
        1 => whole,
        // Nearly the fraction, with whole ticks and without.
        2 => whole + fraction,
        3 => fraction,
        // Nearly the time.
        4 => ticks as f64 + fraction,
        5 => whole + doubles::scaled(-60, -1, random),
        6 => whole + random.unit(),
        7 => tiny(random),
        _ => doubles::scaled(-20, 20, random),
    };
    beside(amount, random)
}

/// The double itself, or one of those up to three steps away.
fn beside(x: f64, random: &mut Random) -> f64 {
    let steps = random.below(7);
    f64::from_bits((x.to_bits() + steps).saturating_sub(3))
}
