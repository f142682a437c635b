//! dt to whole nanoseconds: a day's delay after one update shows how many nanoseconds dt was worth.

use super::{Family, doubles, random::Random};

const DAY: u64 = 86_400_000_000_000;

pub(super) fn family() -> Family {
    let seconds = [
        5e-10,
        1.5e-9,
        2.5e-9,
        1e-9,
        1e-3,
        1.0 / 1024.0,
        3.0 / 1024.0,
        1.0,
        59.5,
        60.0,
    ];
    let limits = seconds.into_iter().flat_map(doubles::around);
    Family {
        limits: limits.map(line).collect(),
        random: Box::new(|random| line(dt(random))),
    }
}

fn line(dt: f64) -> String {
    format!("start.up del {DAY} {}", doubles::word(dt))
}

/// True ties, near ties, and doubles of every size up to 60.
fn dt(random: &mut Random) -> f64 {
    match random.below(4) {
        0 => tie(random),
        1 => beside(tie(random), random),
        2 => beside((random.below(60_000_000_000) as f64 + 0.5) * 1e-9, random),
        _ => doubles::scaled(-34, 5, random),
    }
}

/// An odd number of 1,024ths of a second ends in half a nanosecond.
fn tie(random: &mut Random) -> f64 {
    (2 * random.below(30 * 1024) + 1) as f64 / 1024.0
}

/// A double, or one of its neighbours.
fn beside(x: f64, random: &mut Random) -> f64 {
    f64::from_bits(x.to_bits() + random.below(3) - 1)
}
