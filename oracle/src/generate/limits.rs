//! The limits of each kind of number with one step inside and one outside, and words that are no such number.

use super::{doubles, grammar::Grammar, leaves::Leaf};

const TICKS: &str = "0 1 2 4 6 4294967296 1099511627776 9007199254740993 9223372036854775808 \
    18446744073709486080 18446744073709551614 18446744073709551615 18446744073709551616 00 05";

const NANOSECONDS: &str = "0 1 999999999 1000000000 1000000001 10000000 86399999999999 86400000000000 \
    86400000000001 18446744073709551615 18446744073709551616 01";

const IDS: &str = "0:0 0:2 1:1 15:1 16:1 4294967295:4294967295 4294967296:1 0:4294967296 00:1 0:01 \
    0 0: :1 0:1:1 0.1";

/// Powers that are refused, and two that are too large for the grammar.
const POWERS: &str = "0 17 18 100 2147483647 2147483648 4294967295 4294967296 18446744073709551615";

const PLACES: &str = "1 15 16 00 -1";

const LENGTHS: &str = "0 1 95 96 97 256 257 096";

pub(super) fn of(leaf: Leaf, grammar: Grammar) -> Vec<String> {
    match leaf {
        Leaf::Float(_) if grammar.near => doubles::words(few_floats()),
        Leaf::Float(_) => doubles::words(floats()),
        Leaf::Fraction => doubles::words(fractions()),
        Leaf::Speed => doubles::words(speeds()),
        Leaf::Dt => doubles::words(dts()),
        Leaf::Power => powers(grammar.powers),
        Leaf::Ticks => texts(TICKS),
        Leaf::Nanoseconds => texts(NANOSECONDS),
        Leaf::Id => texts(IDS),
        Leaf::Place => texts(PLACES),
        Leaf::Length => texts(LENGTHS),
    }
}

fn texts(words: &str) -> Vec<String> {
    words.split(' ').map(str::to_string).collect()
}

fn floats() -> Vec<f64> {
    let exponents = [-40, -13, -1, 0, 20, 40];
    let mut floats = exponents
        .map(|exponent| doubles::around(2f64.powi(exponent)))
        .concat();
    floats.extend([0.0, -0.0, f64::from_bits(1), f64::MIN_POSITIVE]);
    floats.extend([1e9, 0.1, 2.0, 2f64.powi(-60), 0.25, -0.875, 0.125]);
    floats.extend([f64::INFINITY, f64::NEG_INFINITY, f64::NAN, -f64::NAN]);
    floats
}

/// Where whole stations are tried, the other floats would only repeat what calls without one show.
fn few_floats() -> Vec<f64> {
    let mut floats = doubles::around(2f64.powi(40));
    floats.extend([0.0, -0.0, 1.0, f64::INFINITY, f64::NAN]);
    floats
}

fn fractions() -> Vec<f64> {
    let good = [0.0, f64::from_bits(1), 2f64.powi(-60), 0.25];
    let ends = [doubles::above(0.5), doubles::below(1.0), 1.0, -0.0];
    let bad = [-f64::from_bits(1), -0.5, f64::NAN, f64::INFINITY];
    [good, ends, bad].concat()
}

fn speeds() -> Vec<f64> {
    let ends = [2f64.powi(-20), 2f64.powi(20)];
    let mut speeds = ends.map(doubles::around).concat();
    speeds.extend([0.0, -0.0, f64::from_bits(1), 1.0, -1.0, 60.0]);
    speeds.extend([f64::INFINITY, f64::NAN]);
    speeds
}

fn dts() -> Vec<f64> {
    let ends = [doubles::below(60.0), 60.0, doubles::above(60.0), 1.0];
    let small = [0.0, -0.0, f64::from_bits(1), 5e-10];
    let others = [1.5e-9, -1.0, f64::INFINITY, f64::NAN];
    [ends, small, others].concat()
}

/// Powers that are accepted, as far as they are wanted, and the others.
fn powers(most: u64) -> Vec<String> {
    let inside = (1..=most).map(|power| power.to_string());
    inside.chain(texts(POWERS)).collect()
}
