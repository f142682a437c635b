//! The cases: each sets up what it needs, makes its call a number of times, and tells what came of it.

use atomic_arena::Arena;

use crate::clock::Clock;

use super::{
    made,
    station::{SLOTS, Station, Told, mixed},
};

/// The seconds of a frame, and of an update.
const DT: f64 = 0.001953125;

fn next(slot: u32) -> u32 {
    if slot < 15 { slot + 1 } else { 0 }
}

fn playing() -> Station {
    Station::of(made::clocks(), made::modulators())
}

fn framed(mut station: Station, dt: f64, count: u64) -> Told {
    let mut reported = 0;
    for _ in 0..count {
        reported = mixed(reported, station.frame(dt).unwrap_or(0));
    }
    station.tell(reported)
}

/// A table of clocks after a frame of a second, which shows what calls have made of it.
fn shown(clocks: Arena<Clock>) -> Told {
    framed(Station::of(clocks, Arena::new(SLOTS)), 1.0, 1)
}

/// A frame with 16 clocks that tick and 16 modulators.
pub(super) fn frames(count: u64) -> Told {
    framed(playing(), DT, count)
}

/// A frame in which one clock takes 65,536 ticks, and 15 stand.
pub(super) fn catchups(count: u64) -> Told {
    let station = Station::of(made::one_fast(), Arena::new(SLOTS));
    framed(station, 1.0, count)
}

/// A clock's speed is set, with a tween.
pub(super) fn commands(count: u64) -> Told {
    let mut clocks = made::clocks();
    let mut slot = 0;
    for _ in 0..count {
        made::retune(&mut clocks, slot);
        slot = next(slot);
    }
    shown(clocks)
}

/// A parameter in the middle of its tween is updated.
pub(super) fn updates(count: u64) -> Told {
    let mut station = playing();
    station.frame(DT);
    let info = station.info();
    let mut parameter = made::parameter();
    let mut reported = 0;
    for left in (1..=count).rev() {
        if parameter.update(DT, &info) {
            reported = left;
        }
    }
    Told {
        reported,
        values: parameter.value().to_bits(),
        ..Told::default()
    }
}
