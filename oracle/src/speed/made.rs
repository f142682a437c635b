//! What the cases run on: 16 clocks and 16 modulators, 8 tweeners under way and 8 LFOs. The Rattle program's made.rt
//! makes the same of the station's types.

use std::time::Duration;

use atomic_arena::{Arena, Key};

use crate::{
    Easing, Parameter, StartTime, Tween, Value,
    clock::{Clock, ClockId, ClockSpeed, ClockTime},
    modulator::{
        Modulator, ModulatorId,
        lfo::{LfoBuilder, Waveform},
        tweener::TweenerBuilder,
    },
    value::Mapping,
};

use super::station::SLOTS;

pub(super) fn key(slot: u32) -> Key {
    Key::new(slot, 1)
}

/// A number for a slot.
fn size(i: u32) -> f64 {
    [0.5, 1.25, 2.0, 3.75, 0.1, 0.7, 5.5, 7.3][(i & 7) as usize]
}

/// Powers of 1 and 2 alone: those are the same in both programs, bit for bit.
fn easing(i: u32) -> Easing {
    match i & 3 {
        0 => Easing::Linear,
        1 => Easing::InPowi(2),
        2 => Easing::OutPowi(2),
        _ => Easing::InOutPowi(2),
    }
}

/// A tween that no run comes to the end of. Half of them ask a clock, not their own, for their start, at every update.
fn tween(i: u32) -> Tween {
    let start_time = if i & 1 == 0 {
        StartTime::Immediate
    } else {
        StartTime::ClockTime(ClockTime {
            clock: ClockId(key(i ^ 1)),
            ticks: 0,
            fraction: 0.0,
        })
    };
    Tween {
        start_time,
        duration: Duration::from_secs(80_000),
        easing: easing(i),
    }
}

/// Slots 8 to 11 are linked to tweeners, the others fixed.
fn speed(i: u32) -> Value<ClockSpeed> {
    if i & 12 == 8 {
        let output_range = (
            ClockSpeed::TicksPerSecond(1.0),
            ClockSpeed::TicksPerSecond(32.0),
        );
        return linked(i & 3, output_range, easing(i));
    }
    Value::Fixed(match i & 3 {
        0 => ClockSpeed::TicksPerSecond(8.0),
        1 => ClockSpeed::TicksPerMinute(300.0),
        2 => ClockSpeed::SecondsPerTick(0.125),
        _ => ClockSpeed::TicksPerSecond(0.75),
    })
}

fn linked<T>(slot: u32, output_range: (T, T), easing: Easing) -> Value<T> {
    Value::FromModulator {
        id: ModulatorId(key(slot)),
        mapping: Mapping {
            input_range: (0.0, 8.0),
            output_range,
            easing,
        },
    }
}

/// The speed that a clock goes to.
fn new_speed(i: u32) -> Value<ClockSpeed> {
    Value::Fixed(ClockSpeed::TicksPerMinute(size(i) * 120.0))
}

pub(super) fn retune(clocks: &mut Arena<Clock>, i: u32) {
    let clock = clocks.get_mut(key(i)).expect("it lives");
    clock.retune(new_speed(i), tween(i));
}

pub(super) fn toggle(clocks: &mut Arena<Clock>, i: u32, ticking: bool) {
    let clock = clocks.get_mut(key(i)).expect("it lives");
    clock.toggle(ticking);
}

fn add<T>(arena: &mut Arena<T>, value: T) {
    let key = arena.controller().try_reserve().expect("there is room");
    arena
        .insert_with_key(key, value)
        .expect("it was just reserved");
}

/// Sixteen clocks that tick: 8 with a fixed speed, 4 linked, 4 with a speed under way to another.
pub(super) fn clocks() -> Arena<Clock> {
    let mut clocks = Arena::new(SLOTS);
    for i in 0..SLOTS as u32 {
        let (clock, _) = Clock::new(speed(i), ClockId(key(i)));
        add(&mut clocks, clock);
        toggle(&mut clocks, i, true);
        if i > 11 {
            retune(&mut clocks, i);
        }
    }
    clocks
}

/// Sixteen clocks of which one ticks, as fast as a frame of a second allows.
pub(super) fn one_fast() -> Arena<Clock> {
    let mut clocks = Arena::new(SLOTS);
    for i in 0..SLOTS as u32 {
        let speed = Value::Fixed(ClockSpeed::TicksPerSecond(65536.0));
        add(&mut clocks, Clock::new(speed, ClockId(key(i))).0);
    }
    toggle(&mut clocks, 5, true);
    clocks
}

fn waveform(i: u32) -> Waveform {
    match i & 3 {
        0 => Waveform::Triangle,
        1 => Waveform::Saw,
        2 => Waveform::Pulse { width: 0.3 },
        _ => Waveform::Triangle,
    }
}

/// An LFO with its amplitude under way. Every other frequency is linked to a tweener, and every fourth offset to
/// an LFO before it.
fn lfo(i: u32) -> Box<dyn Modulator> {
    let output_range = (0.5, size(i));
    let frequency = match i & 1 {
        0 => Value::Fixed(size(i)),
        _ => linked(i & 7, output_range, easing(i)),
    };
    let offset = match i & 3 {
        3 => linked(8, output_range, easing(i)),
        _ => Value::Fixed(0.25),
    };
    let builder = LfoBuilder {
        waveform: waveform(i),
        frequency,
        amplitude: Value::Fixed(0.5),
        offset,
        starting_phase: 0.0,
    };
    builder.alone(Value::Fixed(1000.0), tween(3))
}

/// Of 16 modulators, 8 are tweeners under way and 8 are LFOs.
fn modulator(i: u32) -> Box<dyn Modulator> {
    if i < 8 {
        let initial_value = size(i);
        return TweenerBuilder { initial_value }.alone(size(i ^ 3), tween(i));
    }
    lfo(i)
}

pub(super) fn modulators() -> Arena<Box<dyn Modulator>> {
    let mut modulators = Arena::new(SLOTS);
    for i in 0..SLOTS as u32 {
        add(&mut modulators, modulator(i));
    }
    modulators
}

/// A parameter on its way from 0.5 to 1,000, begun by the time of a clock.
pub(super) fn parameter() -> Parameter {
    let mut parameter = Parameter::new(Value::Fixed(0.5), 0.0);
    parameter.set(Value::Fixed(1000.0), tween(3));
    parameter
}
