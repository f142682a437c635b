//! The calls `speed.*`.

use crate::{Tweenable, clock::ClockSpeed};

use super::{give, judge, show, words::Words};

pub(super) fn answer(call: &str, words: Words) -> Option<String> {
    match call {
        "speed.spt" => read(words, ClockSpeed::as_seconds_per_tick),
        "speed.tps" => read(words, ClockSpeed::as_ticks_per_second),
        "speed.tpm" => read(words, ClockSpeed::as_ticks_per_minute),
        "speed.lerp" => lerp(words),
        _ => None,
    }
}

fn read(mut words: Words, unit: fn(&ClockSpeed) -> f64) -> Option<String> {
    let speed = words.speed()?;
    words.end()?;
    give(judge::speed(speed), || show::float(unit(&speed)))
}

fn lerp(mut words: Words) -> Option<String> {
    let (a, b, amount) = (words.speed()?, words.speed()?, words.float()?);
    words.end()?;
    let ends = judge::speed(a) | judge::speed(b) | judge::speed_change(a, b);
    give(ends | judge::float(amount), || {
        show::speed(ClockSpeed::interpolate(a, b, amount))
    })
}
