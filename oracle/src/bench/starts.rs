//! What is read from the station: start times and values that are linked to modulators.

use crate::info::WhenToStart;

use super::{give, judge, show, station::Station, words::Words};

pub(super) fn answer(call: &str, words: Words, station: &Station) -> Option<String> {
    match call {
        "start.up" => update(words, station),
        "when" => when(words, station),
        "val.raw" => raw_float(words, station),
        "sval.raw" => raw_speed(words, station),
        _ => None,
    }
}

fn update(mut words: Words, station: &Station) -> Option<String> {
    let (mut start, dt) = (words.start()?, words.float()?);
    words.end()?;
    let faults = judge::start(start) | judge::dt(dt);
    give(faults, || {
        let never = start.update(dt, &station.tables.info());
        format!("{} {}", u8::from(never), show::start(start))
    })
}

fn when(mut words: Words, station: &Station) -> Option<String> {
    let time = words.clock_time()?;
    words.end()?;
    give(judge::fraction(time.fraction), || {
        let when = match station.tables.info().when_to_start(time) {
            WhenToStart::Now => "now",
            WhenToStart::Later => "later",
            WhenToStart::Never => "never",
        };
        when.to_string()
    })
}

fn raw_float(mut words: Words, station: &Station) -> Option<String> {
    let value = words.float_value()?;
    words.end()?;
    give(judge::float_value(&value), || {
        let raw = value.raw_value(&station.tables.info());
        raw.map_or("none".to_string(), show::float)
    })
}

fn raw_speed(mut words: Words, station: &Station) -> Option<String> {
    let value = words.speed_value()?;
    words.end()?;
    give(judge::speed_value(&value), || {
        let raw = value.raw_value(&station.tables.info());
        raw.map_or("none".to_string(), show::speed)
    })
}
