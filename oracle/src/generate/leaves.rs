//! The numbers in calls: each kind with a plain one and random ones.

use super::{doubles, grammar::Grammar, random::Random};

/// One kind of number.
#[derive(Clone, Copy)]
pub(super) enum Leaf {
    /// Any argument that is a double; the plain one differs from place to place.
    Float(f64),
    Fraction,
    Speed,
    Dt,
    Power,
    Ticks,
    Nanoseconds,
    Id,
    /// One of the bench's own parameters.
    Place,
    /// A report's buffer.
    Length,
}

const LONGEST_WAIT: u64 = 86_400_000_000_000;

/// What stands for a kind in the grammar's tables.
pub(super) fn named(name: &str) -> Option<Leaf> {
    Some(match name {
        "FLOAT" => Leaf::Float(0.75),
        "LOW" => Leaf::Float(-1.0),
        "HIGH" => Leaf::Float(3.0),
        "FRACTION" => Leaf::Fraction,
        "PACE" => Leaf::Speed,
        "DT" => Leaf::Dt,
        "POWER" => Leaf::Power,
        "TICKS" => Leaf::Ticks,
        "NS" => Leaf::Nanoseconds,
        "ID" => Leaf::Id,
        "K" => Leaf::Place,
        "LENGTH" => Leaf::Length,
        _ => return None,
    })
}

/// One that is accepted everywhere.
pub(super) fn plain(leaf: Leaf) -> String {
    match leaf {
        Leaf::Float(x) => doubles::word(x),
        Leaf::Fraction => doubles::word(0.5),
        Leaf::Speed => doubles::word(2.0),
        Leaf::Dt => doubles::word(0.25),
        Leaf::Power => "2".to_string(),
        Leaf::Ticks => "5".to_string(),
        Leaf::Nanoseconds => "1500000000".to_string(),
        Leaf::Id => "0:1".to_string(),
        Leaf::Place => "0".to_string(),
        Leaf::Length => "100".to_string(),
    }
}

/// One that most often is accepted. Near ones are such that clocks, tweens and links often meet.
pub(super) fn random(leaf: Leaf, grammar: Grammar, random: &mut Random) -> String {
    let near = grammar.near;
    match leaf {
        Leaf::Float(_) if near => doubles::word(near_argument(random)),
        Leaf::Float(_) => doubles::word(argument(random)),
        Leaf::Fraction => doubles::word(fraction(random)),
        Leaf::Speed if near => doubles::word(random.below(81) as f64 / 8.0),
        Leaf::Speed => doubles::word(speed(random)),
        Leaf::Dt if near => doubles::word(near_dt(random)),
        Leaf::Dt => doubles::word(dt(random)),
        Leaf::Power => (1 + random.below(grammar.powers)).to_string(),
        Leaf::Ticks if near => random.below(24).to_string(),
        Leaf::Ticks => ticks(random).to_string(),
        Leaf::Nanoseconds if near => (random.below(17) * 125_000_000).to_string(),
        Leaf::Nanoseconds => nanoseconds(random).to_string(),
        Leaf::Id => format!("{}:{}", random.below(3), 1 + random.below(5) / 4),
        Leaf::Place => random.below(2).to_string(),
        Leaf::Length => random.below(260).to_string(),
    }
}

fn near_argument(random: &mut Random) -> f64 {
    match random.below(4) {
        0 => random.unit() * 2.0 - 0.5,
        1 => doubles::scaled(-6, 6, random),
        _ => random.below(65) as f64 / 8.0 - 4.0,
    }
}

fn near_dt(random: &mut Random) -> f64 {
    match random.below(4) {
        0 => 1.0 / (1 + random.below(480)) as f64,
        1 => random.unit(),
        _ => random.below(9) as f64 / 8.0,
    }
}

fn argument(random: &mut Random) -> f64 {
    let size = match random.below(5) {
        0 => random.unit(),
        1 => random.below(64) as f64 / 8.0,
        2 => (random.next() >> (24 + random.below(40))) as f64 + 0.5,
        3 => doubles::scaled(-70, 39, random),
        _ => doubles::scaled(-3, 12, random),
    };
    if random.chance(4) { -size } else { size }
}

fn fraction(random: &mut Random) -> f64 {
    match random.below(4) {
        0 => random.below(8) as f64 / 8.0,
        1 => doubles::scaled(-70, -1, random),
        2 => 1.0 - doubles::scaled(-52, -1, random),
        _ => random.unit(),
    }
}

fn speed(random: &mut Random) -> f64 {
    match random.below(8) {
        0 => 0.0,
        1 => (1 + random.below(240)) as f64,
        2 => (1 + random.below(64)) as f64 / 8.0,
        _ => doubles::scaled(-20, 19, random),
    }
}

fn dt(random: &mut Random) -> f64 {
    match random.below(5) {
        0 => random.below(17) as f64 / 8.0,
        1 => 1.0 / (1 + random.below(480)) as f64,
        2 => 60.0 * random.unit(),
        3 => doubles::scaled(-40, 4, random),
        _ => random.unit(),
    }
}

fn ticks(random: &mut Random) -> u64 {
    match random.below(4) {
        0 => u64::MAX - (random.next() >> (23 + random.below(41))),
        1 => random.next() >> random.below(64),
        _ => random.below(20),
    }
}

fn nanoseconds(random: &mut Random) -> u64 {
    match random.below(4) {
        0 => random.below(LONGEST_WAIT + 1),
        1 => (random.next() >> random.below(64)) % LONGEST_WAIT,
        _ => random.below(80) * 125_000_000,
    }
}
