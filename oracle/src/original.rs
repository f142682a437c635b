// The original's modules, all but the tween module, and what they lean on. Names stand at the root as they do
// in the original, whose files ask for them there. Not every program uses all of it.

#[allow(dead_code)]
mod command;
#[allow(dead_code)]
mod held;

#[allow(dead_code)]
mod clock;
#[allow(dead_code)]
mod info;
#[allow(dead_code)]
mod listener;
#[allow(dead_code)]
mod modulator;
#[allow(dead_code)]
mod parameter;
#[allow(dead_code)]
mod start_time;
#[allow(dead_code)]
mod value;

pub(crate) use command::command_writers_and_readers;
pub(crate) use parameter::Parameter;
pub(crate) use start_time::StartTime;
pub(crate) use tween::{Easing, Tween, Tweenable};
pub(crate) use value::Value;

/// A clock's ticks and fraction, 0 and 0.0 where it has not started.
#[allow(dead_code)]
pub(crate) fn position(clock: &clock::Clock) -> (u64, f64) {
    match clock.state() {
        clock::State::NotStarted => (0, 0.0),
        clock::State::Started {
            ticks,
            fractional_position,
        } => (ticks, fractional_position),
    }
}
