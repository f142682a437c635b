//! The calls that need no station: easing, interpolation, waves, speeds, times, mappings and values, and start
//! times while no clock lives.

use super::{Family, grammar::Grammar, random::Random};

const FORMS: [&str; 37] = [
    "ease EASE FLOAT",
    "lerp FLOAT LOW HIGH",
    "wave WAVE FLOAT",
    "speed.spt SPEED",
    "speed.tps SPEED",
    "speed.tpm SPEED",
    "speed.lerp SPEED SPEED FLOAT",
    "speed.lerp SPEED spt PACE FLOAT",
    "speed.lerp SPEED tpm PACE FLOAT",
    "time.fromu TICKS",
    "time.fromf FLOAT",
    "time.addf TICKS FRACTION FLOAT",
    "time.subf TICKS FRACTION FLOAT",
    "time.addu TICKS FRACTION TICKS",
    "time.subu TICKS FRACTION TICKS",
    "time.cmp ID TICKS FRACTION ID TICKS FRACTION",
    "time.cmp 1:1 TICKS FRACTION 1:1 TICKS FRACTION",
    "time.cmp 1:1 7 FRACTION 1:1 7 FRACTION",
    "map.f FMAP FLOAT",
    "map.s SMAP FLOAT",
    "map.add FMAP FLOAT",
    "map.sub FMAP FLOAT",
    "map.mul FMAP FLOAT",
    "map.div FMAP FLOAT",
    "map.rem FMAP FLOAT",
    "map.neg FMAP",
    "val.add FVAL FLOAT",
    "val.sub FVAL FLOAT",
    "val.mul FVAL FLOAT",
    "val.div FVAL FLOAT",
    "val.rem FVAL FLOAT",
    "val.neg FVAL",
    "dur.secs NS",
    "tween.default",
    "start.up START DT",
    "start.up del NS DT",
    "start.up del 86400000000000 DT",
];

/// The customer's worked rows, and cases where several limits meet.
const ROWS: [&str; 28] = [
    "time.fromf 400c000000000000",
    "time.addf 2 3fe0000000000000 3ffc000000000000",
    "time.subf 5 3fe0000000000000 3ff4000000000000",
    "time.subf 0 3fd0000000000000 3fe0000000000000",
    "time.subf 5 0000000000000000 3c30000000000000",
    "time.addf 1 3c30000000000000 8000000000000000",
    "speed.tps tpm 405e000000000000",
    "map.f 0000000000000000 4024000000000000 4059000000000000 4069000000000000 lin 4014000000000000",
    "map.f 0000000000000000 4024000000000000 4059000000000000 4069000000000000 lin 4034000000000000",
    "ease io 2 3fd0000000000000",
    "ease io 2 3fe8000000000000",
    "wave tri 0000000000000000",
    "wave tri 3fd0000000000000",
    "wave tri bfec000000000000",
    "lerp 41cdcd6500000000 3fb999999999999a 3ff0000000000000",
    "time.addu 18446744073709551610 0000000000000000 5",
    "time.addu 18446744073709551610 0000000000000000 6",
    "time.addf 18446744073709551610 3fe0000000000000 4015ffffffffffff",
    "time.addf 18446744073709551610 3fe0000000000000 4016000000000000",
    "time.subf 18446744073709551610 3fe0000000000000 c016000000000000",
    "time.addf 18446744073709551610 3ff0000000000000 4016000000000000",
    "speed.lerp tps 0000000000000000 spt 3ff0000000000000 7ff8000000000000",
    "speed.lerp tps 8000000000000000 spt 3ff0000000000000 3fe0000000000000",
    "map.s 3ff0000000000000 3ff0000000000000 spt 3ff0000000000000 tps 3ff0000000000000 in 0 3ff0000000000000",
    "start.up del 86400000000000 404e000000000000",
    "start.up del 86400000000000 404e000000000001",
    "start.up del 1 3e012e0be826d695",
    "start.up del 2929688 3f68000000000000",
];

pub(super) fn family(powers: u64) -> Family {
    let grammar = Grammar {
        powers,
        near: false,
    };
    let rows = ROWS.iter().map(|row| row.to_string());
    let limits = FORMS.iter().flat_map(|form| grammar.limits(form));
    Family {
        limits: rows.chain(limits).collect(),
        random: Box::new(move |random| line(grammar, random)),
    }
}

/// Most lines have few limits in them, some have many.
fn line(grammar: Grammar, random: &mut Random) -> String {
    let limit = random.pick(&[1000, 1000, 30, 8, 2]);
    let form = random.pick(&FORMS);
    grammar.random(form, limit, random)
}
