//! The calls `fp.*` and `sp.*`: parameters that the bench itself holds.

use crate::{Parameter, Tweenable};

use super::{clocks, give, judge, show, station::Station, words::Words};

/// The last parameter's number.
const LAST: u64 = 15;

pub(super) fn answer(call: &str, words: Words, station: &mut Station) -> Option<String> {
    match call {
        "fp.new" => new_float(words, station),
        "sp.new" => new_speed(words, station),
        "fp.set" => set_float(words, station),
        "sp.set" => set_speed(words, station),
        "fp.up" => update(words, station, |station| &mut station.floats, show::float),
        "sp.up" => update(words, station, |station| &mut station.speeds, show::speed),
        "fp.val" => value(words, &station.floats, show::float),
        "sp.val" => value(words, &station.speeds, show::speed),
        _ => None,
    }
}

fn place(words: &mut Words) -> Option<usize> {
    Some(words.number_up_to(LAST)? as usize)
}

fn new_float(mut words: Words, station: &mut Station) -> Option<String> {
    let (place, value, default) = (place(&mut words)?, words.float_value()?, words.float()?);
    words.end()?;
    let faults = judge::float_value(&value) | judge::float(default);
    give(faults, || {
        station.floats[place] = Some(Parameter::new(value, default));
        "ok".to_string()
    })
}

fn new_speed(mut words: Words, station: &mut Station) -> Option<String> {
    let (place, value, default) = (place(&mut words)?, words.speed_value()?, words.speed()?);
    words.end()?;
    let faults = judge::speed_value(&value) | judge::speed(default);
    give(faults, || {
        station.speeds[place] = Some(Parameter::new(value, default));
        "ok".to_string()
    })
}

fn set_float(mut words: Words, station: &mut Station) -> Option<String> {
    let (place, value, tween) = (place(&mut words)?, words.float_value()?, words.tween()?);
    words.end()?;
    let parameter = station.floats[place].as_mut()?;
    let faults = judge::float_value(&value) | judge::tween(tween);
    give(faults, || {
        parameter.set(value, tween);
        "ok".to_string()
    })
}

fn set_speed(mut words: Words, station: &mut Station) -> Option<String> {
    let (place, value, tween) = (place(&mut words)?, words.speed_value()?, words.tween()?);
    words.end()?;
    let parameter = station.speeds[place].as_mut()?;
    let faults = judge::speed_value(&value)
        | judge::speed_change(parameter.value(), clocks::unit(&value))
        | judge::tween(tween);
    give(faults, || {
        parameter.set(value, tween);
        "ok".to_string()
    })
}

type Held<T> = [Option<Parameter<T>>];

fn update<T: Tweenable>(
    mut words: Words,
    station: &mut Station,
    held: fn(&mut Station) -> &mut Held<T>,
    show: fn(T) -> String,
) -> Option<String> {
    let (place, dt) = (place(&mut words)?, words.float()?);
    words.end()?;
    // It is taken out, so that the tables can be seen meanwhile.
    let mut parameter = held(station)[place].take()?;
    let answer = give(judge::dt(dt), || {
        let finished = parameter.update(dt, &station.tables.info());
        format!("{} {}", u8::from(finished), show(parameter.value()))
    });
    held(station)[place] = Some(parameter);
    answer
}

fn value<T: Tweenable>(mut words: Words, held: &Held<T>, show: fn(T) -> String) -> Option<String> {
    let place = place(&mut words)?;
    words.end()?;
    Some(show(held[place].as_ref()?.value()))
}
