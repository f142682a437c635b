//! Calls on a station: clocks, modulators, frames and parameters.

use super::{Family, grammar::Grammar, random::Random};

/// A small station, so that the calls after it find something to act on.
const SETUP: [&str; 14] = [
    "new",
    "clock.add fix tps 4014000000000000",
    "clock.add mod 1:1 bff0000000000000 3ff0000000000000 tpm 404e000000000000 tpm 405e000000000000 lin",
    "clock.add fix spt 3fe0000000000000",
    "clock.start 0:1",
    "clock.start 1:1",
    "tweener.add 3fe0000000000000",
    "lfo.add tri fix 3fe0000000000000 fix 3ff0000000000000 fix 0000000000000000 0000000000000000",
    "lfo.add saw mod 2:1 bff0000000000000 3ff0000000000000 3ff0000000000000 4000000000000000 lin \
     mod 0:1 0000000000000000 3ff0000000000000 3ff0000000000000 4000000000000000 in 2 fix 3ff0000000000000 \
     3ff0000000000000",
    "fp.new 0 fix 0000000000000000 0000000000000000",
    "fp.new 1 mod 1:1 bff0000000000000 3ff0000000000000 0000000000000000 4024000000000000 io 2 4014000000000000",
    "sp.new 0 fix tps 4000000000000000 tpm 405e000000000000",
    "frame 3fe0000000000000",
    "frame 3fe0000000000000",
];

/// The limits of tables and frames, and document 01's worked rows. Each begins a fresh station.
const ROWS: [&str; 58] = [
    "new",
    "clock.add fix tps 0000000000000000",
    "clock.start 0:1",
    "frame 3ff0000000000000",
    "frame 3ff0000000000000",
    "new",
    "clock.add fix tps 4014000000000000",
    "clock.start 0:1",
    "frame 3fe0000000000000",
    "clock.time 0:1",
    "frame 3fe0000000000000",
    "clock.time 0:1",
    "clock.report 0:1 256",
    "fp.new 0 fix 0000000000000000 0000000000000000",
    "fp.set 0 fix 4020000000000000 del 1000000000 1000000000 lin",
    "fp.up 0 3fe0000000000000",
    "fp.up 0 3fe0000000000000",
    "fp.up 0 3fe0000000000000",
    "fp.up 0 3fe0000000000000",
    "new",
    "clock.add fix tps 40d0000000000000",
    "clock.start 0:1",
    "frame 4010000000000000",
    "frame 4010000000000001",
    "clock.time 0:1",
    "clock.preset 0:1 18446744073709486079 0000000000000000",
    "frame 4010000000000000",
    "clock.report 0:1 96",
    "frame 3f10000000000000",
    "frame 3f0fffffffffffff",
    "new",
    "clock.gen 0:4294967294",
    "clock.add fix tps 0000000000000000",
    "clock.gen 0:1",
    "clock.drop 0:4294967295",
    "clock.add fix tps 0000000000000000",
    "mod.gen 0:4294967295",
    "tweener.add 0000000000000000",
    "mod.gen 16:0",
    "clock.add fix tpm 8000000000000000",
    "clock.report 0:1 95",
    "new",
    "clock.add fix tps 3ff0000000000000",
    "clock.add fix tps 4130000000000000",
    "clock.start 0:1",
    "clock.start 1:1",
    "clock.preset 0:1 18446744073709551615 0000000000000000",
    "frame 3ff0000000000000",
    "clock.time 1:1",
    "new",
    "clock.add fix tps 4130000000000000",
    "clock.add fix tps 3ff0000000000000",
    "clock.start 0:1",
    "clock.start 1:1",
    "clock.preset 1:1 18446744073709551615 0000000000000000",
    "frame 3ff0000000000000",
    "clock.time 0:1",
    "clock.time 1:1",
];

/// How often each form is taken, beside the others.
const FORMS: [(u64, &str); 43] = [
    (0, "new"),
    (8, "clock.add SVAL"),
    (1, "clock.drop ID"),
    (8, "clock.start ID"),
    (2, "clock.stop ID"),
    (3, "clock.reset ID"),
    (8, "clock.speed ID SVAL TWEEN"),
    (6, "clock.time ID"),
    (1, "clock.ticking ID"),
    (4, "clock.getspeed ID"),
    (2, "clock.report ID LENGTH"),
    (2, "clock.preset ID TICKS FRACTION"),
    (1, "clock.gen ID"),
    (1, "mod.gen ID"),
    (4, "tweener.add FLOAT"),
    (8, "tweener.set ID FLOAT TWEEN"),
    (4, "lfo.add WAVE FVAL FVAL FVAL FLOAT"),
    (4, "lfo.freq ID FVAL TWEEN"),
    (4, "lfo.amp ID FVAL TWEEN"),
    (4, "lfo.off ID FVAL TWEEN"),
    (2, "lfo.wave ID WAVE"),
    (2, "lfo.phase ID FLOAT"),
    (10, "mod.value ID"),
    (1, "mod.drop ID"),
    (60, "frame DT"),
    (4, "fp.new K FVAL FLOAT"),
    (4, "sp.new K SVAL SPEED"),
    (8, "fp.set K FVAL TWEEN"),
    (8, "sp.set K SVAL TWEEN"),
    (20, "fp.up K DT"),
    (20, "sp.up K DT"),
    (2, "fp.val K"),
    (2, "sp.val K"),
    (2, "start.up START DT"),
    (4, "start.up clk ID TICKS FRACTION DT"),
    (6, "when ID TICKS FRACTION"),
    (2, "val.raw FVAL"),
    (2, "sval.raw SVAL"),
    (6, "clock.speed ID SVAL clk ID TICKS FRACTION NS EASE"),
    (6, "tweener.set ID FLOAT clk ID TICKS FRACTION NS EASE"),
    (6, "fp.set K FVAL clk ID TICKS FRACTION NS EASE"),
    (3, "fp.new K mod ID FMAP FLOAT"),
    (3, "sp.new K mod ID SMAP SPEED"),
];

/// About how many random calls one station sees.
const LINES_TOGETHER: u64 = 500;

/// How many limits are tried on one small station.
const LIMITS_TOGETHER: usize = 40;

pub(super) fn family(powers: u64) -> Family {
    let grammar = Grammar { powers, near: true };
    let mut limits = texts(&ROWS);
    limits.extend(full_table());
    limits.extend(reports());
    let forms = FORMS.iter().map(|(_, form)| grammar.limits(form));
    for part in forms.collect::<Vec<_>>().concat().chunks(LIMITS_TOGETHER) {
        limits.extend(texts(&SETUP));
        limits.extend_from_slice(part);
        limits.extend(texts(&[
            "frame 3fd0000000000000",
            "fp.up 0 3fd0000000000000",
        ]));
    }
    Family {
        limits,
        random: Box::new(move |random| line(grammar, random)),
    }
}

/// Document 01's own report, and the longest: the last slot, the last generation, the last tick.
fn reports() -> Vec<String> {
    let add = "clock.add fix tps 3ff0000000000000";
    let mut lines = texts(&["new", "clock.gen 15:4294967294"]);
    lines.extend(texts(&[add; 16]));
    for (clock, ticks, fraction) in [
        ("2:1", 3, "3fe0000000000000"),
        ("15:4294967295", u64::MAX, "3fefffffffffffff"),
    ] {
        lines.push(format!("clock.report {clock} 96"));
        lines.push(format!("clock.start {clock}"));
        lines.push(format!("clock.preset {clock} {ticks} {fraction}"));
        for length in [95, 96, 97, 256] {
            lines.push(format!("clock.report {clock} {length}"));
        }
    }
    lines
}

/// Seventeen clocks and modulators, one removed, and one more; then ids that are dead or were never given.
fn full_table() -> Vec<String> {
    let mut lines = texts(&["new"]);
    for _ in 0..17 {
        lines.extend(texts(&[
            "clock.add fix tps 3ff0000000000000",
            "tweener.add 3ff0000000000000",
        ]));
    }
    lines.extend(texts(&[
        "clock.drop 7:1",
        "mod.drop 15:1",
        "clock.add fix tps 4000000000000000",
        "lfo.add saw fix 3ff0000000000000 fix 3ff0000000000000 fix 3ff0000000000000 0000000000000000",
        "clock.time 7:1",
        "clock.time 7:2",
        "mod.value 15:1",
        "mod.value 15:2",
        "clock.drop 7:2",
        "clock.time 7:2",
        "clock.time 7:0",
        "clock.time 7:3",
        "clock.time 16:1",
        "lfo.wave 14:1 tri",
        "lfo.wave 15:1 tri",
        "frame 3ff0000000000000",
    ]));
    lines
}

fn texts(lines: &[&str]) -> Vec<String> {
    lines.iter().map(|line| line.to_string()).collect()
}

fn line(grammar: Grammar, random: &mut Random) -> String {
    if random.chance(LINES_TOGETHER) {
        return "new".to_string();
    }
    let limit = random.pick(&[1000, 1000, 1000, 1000, 30, 4]);
    let all = FORMS.iter().map(|(weight, _)| weight).sum();
    let mut left = random.below(all);
    for (weight, form) in FORMS {
        if left < weight {
            return grammar.random(form, limit, random);
        }
        left -= weight;
    }
    unreachable!("a number below the sum of all weights falls on a form")
}
