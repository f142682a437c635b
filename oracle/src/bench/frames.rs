//! The call `frame`: modulators, then clocks, each in slot order. One that is refused leaves no trace.

use std::mem;

use atomic_arena::Key;

use crate::clock::Clock;

use super::{
    clocks, give,
    judge::{self, Faults},
    station::Station,
    words::Words,
};

pub(super) fn answer(call: &str, mut words: Words, station: &mut Station) -> Option<String> {
    if call != "frame" {
        return None;
    }
    let dt = words.float()?;
    words.end()?;
    let faults = judge::dt(dt);
    if faults != Faults::NONE {
        return give(faults, String::new);
    }
    update_modulators(station, dt);
    match update_clocks(station, dt) {
        Ok(reported) => Some(format!("frame{reported}")),
        Err(faults) => {
            station
                .modulators
                .values_mut()
                .for_each(|handle| handle.undo_update());
            give(faults, String::new)
        }
    }
}

/// Each sees the ones before it as they are now, and itself and the others as they were.
fn update_modulators(station: &mut Station, dt: f64) {
    for key in station.tables.modulators.keys() {
        let handle = station.modulators.get_mut(&key);
        let handle = handle.expect("each modulator has its handle");
        handle.update(dt, &station.tables.info());
    }
}

/// Updates a copy of each clock while the clock itself stands in its slot as it was.
fn update_clocks(station: &mut Station, dt: f64) -> Result<String, Faults> {
    let mut reported = String::new();
    let mut before = Vec::new();
    for key in station.tables.clocks.keys() {
        let place = station.tables.clocks.get(key);
        let mut clock = place.expect("the key was just read").clone();
        let info = station.tables.info();
        let faults = clocks::judge_advance(&clock, |clock| clock.advance(dt, &info));
        if faults != Faults::NONE {
            put_back(station, before);
            return Err(faults);
        }
        let tick = clock.update(dt, &info);
        let tick = tick.map_or("-".to_string(), |tick| tick.to_string());
        reported += &format!(" {}={tick}", key.slot());
        before.push((key, exchange(station, key, clock)));
    }
    Ok(reported)
}

fn exchange(station: &mut Station, key: Key, clock: Clock) -> Clock {
    let place = station.tables.clocks.get_mut(key);
    mem::replace(place.expect("no clock is dropped in a frame"), clock)
}

fn put_back(station: &mut Station, before: Vec<(Key, Clock)>) {
    for (key, clock) in before {
        exchange(station, key, clock);
    }
}
