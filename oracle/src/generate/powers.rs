//! Eased amounts of 0..1 by powers of 3 and more, whose last bits the original leaves open.

use super::{Family, doubles, random::Random};

const CURVES: [&str; 3] = ["in", "out", "io"];

pub(super) fn family() -> Family {
    let ends = [
        0.0,
        f64::MIN_POSITIVE,
        0.25,
        0.5,
        0.75,
        doubles::below(1.0),
        1.0,
    ];
    let powers = 3..=16;
    let limits = powers.flat_map(move |power| {
        CURVES
            .into_iter()
            .flat_map(move |curve| ends.map(|x| line(curve, power, x)))
    });
    Family {
        limits: limits.collect(),
        random: Box::new(|random| {
            let curve = random.pick(&CURVES);
            line(curve, 3 + random.below(14), amount(random))
        }),
    }
}

fn line(curve: &str, power: u64, x: f64) -> String {
    format!("ease {curve} {power} {}", doubles::word(x))
}

/// From 0 to 1, near the ends too.
fn amount(random: &mut Random) -> f64 {
    match random.below(3) {
        0 => doubles::scaled(-60, -1, random),
        1 => 1.0 - doubles::scaled(-60, -1, random),
        _ => random.unit(),
    }
}
