//! The calls `time.*`.

use std::cmp::Ordering;

use atomic_arena::Key;

use crate::clock::{ClockId, ClockTime};

use super::{give, judge, less, show, words::Words};

/// Most of these calls name no clock; the answer does not show this one.
const SOME_CLOCK: ClockId = ClockId(Key::new(0, 1));

pub(super) fn answer(call: &str, words: Words) -> Option<String> {
    match call {
        "time.fromu" => from_whole(words),
        "time.fromf" => from_float(words),
        "time.addf" => add_float(words),
        "time.subf" => subtract_float(words),
        "time.addu" => add_whole(words),
        "time.subu" => subtract_whole(words),
        "time.cmp" => compare(words),
        _ => None,
    }
}

fn time(words: &mut Words) -> Option<ClockTime> {
    Some(ClockTime {
        clock: SOME_CLOCK,
        ticks: words.number()?,
        fraction: words.float()?,
    })
}

fn from_whole(mut words: Words) -> Option<String> {
    let ticks = words.number()?;
    words.end()?;
    Some(show::time(ClockTime::from_ticks_u64(SOME_CLOCK, ticks)))
}

fn from_float(mut words: Words) -> Option<String> {
    let ticks = words.float()?;
    words.end()?;
    let faults = judge::float(ticks) | judge::from_ticks(ticks);
    give(faults, || {
        show::time(ClockTime::from_ticks_f64(SOME_CLOCK, ticks))
    })
}

fn add_float(mut words: Words) -> Option<String> {
    let (from, amount) = (time(&mut words)?, words.float()?);
    words.end()?;
    moved(from, amount, || from + amount)
}

fn subtract_float(mut words: Words) -> Option<String> {
    let (from, amount) = (time(&mut words)?, words.float()?);
    words.end()?;
    moved(from, -amount, || from - amount)
}

/// A time that is later by an amount, or earlier by its opposite where it has a minus sign.
fn moved(from: ClockTime, by: f64, original: impl FnOnce() -> ClockTime) -> Option<String> {
    let faults = judge::float(by)
        | judge::fraction(from.fraction)
        | judge::added_amount(from.ticks, from.fraction, by)
        | judge::subtracted_amount(from.ticks, from.fraction, -by);
    give(faults, || {
        let original = original();
        show::time(if by.is_sign_negative() {
            less::left(from, -by, original)
        } else {
            original
        })
    })
}

fn add_whole(mut words: Words) -> Option<String> {
    let (from, ticks) = (time(&mut words)?, words.number()?);
    words.end()?;
    let faults = judge::fraction(from.fraction) | judge::added_ticks(from.ticks, ticks);
    give(faults, || show::time(from + ticks))
}

fn subtract_whole(mut words: Words) -> Option<String> {
    let (from, ticks) = (time(&mut words)?, words.number()?);
    words.end()?;
    let faults = judge::fraction(from.fraction) | judge::subtracted_ticks(from.ticks, ticks);
    give(faults, || show::time(from - ticks))
}

fn compare(mut words: Words) -> Option<String> {
    let (a, b) = (words.clock_time()?, words.clock_time()?);
    words.end()?;
    let faults = judge::fraction(a.fraction) | judge::fraction(b.fraction);
    give(faults, || {
        let order = match a.partial_cmp(&b) {
            Some(Ordering::Less) => "lt",
            Some(Ordering::Equal) => "eq",
            Some(Ordering::Greater) => "gt",
            None => "none",
        };
        order.to_string()
    })
}
