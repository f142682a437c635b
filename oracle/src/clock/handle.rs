//! A clock's handle, and what the bench reaches of a clock's private half.

use std::sync::Arc;

use crate::{Tween, Value, command::ValueChangeCommand, info::Info};

use super::{Clock, ClockId, ClockShared, ClockSpeed, CommandWriters, State};

pub struct ClockHandle {
    pub(super) id: ClockId,
    pub(super) shared: Arc<ClockShared>,
    pub(super) command_writers: CommandWriters,
}

impl ClockHandle {
    pub(crate) fn set_speed(&mut self, target: Value<ClockSpeed>, tween: Tween) {
        let command = ValueChangeCommand { target, tween };
        self.command_writers.set_speed.write(command);
    }

    pub(crate) fn set_ticking(&mut self, ticking: bool) {
        self.command_writers.set_ticking.write(ticking);
    }

    pub(crate) fn reset(&mut self) {
        self.command_writers.reset.write(());
    }
}

impl Clone for Clock {
    fn clone(&self) -> Self {
        Self {
            command_readers: self.command_readers.clone(),
            shared: self.shared.clone(),
            ticking: self.ticking,
            speed: self.speed.clone(),
            state: self.state,
        }
    }
}

impl Clock {
    pub(crate) fn present_speed(&self) -> ClockSpeed {
        self.speed.value()
    }

    /// Sets the speed at once, past the handle.
    pub(crate) fn retune(&mut self, target: Value<ClockSpeed>, tween: Tween) {
        self.speed.set(target, tween);
    }

    /// Starts or stops at once, past the handle.
    pub(crate) fn toggle(&mut self, ticking: bool) {
        self.set_ticking(ticking);
    }

    /// Puts the clock at a time, started.
    pub(crate) fn preset(&mut self, ticks: u64, fraction: f64) {
        self.state = State::Started {
            ticks,
            fractional_position: fraction,
        };
    }

    /// What an update would add to the time of this clock, if it is ticking.
    pub(crate) fn advance(&self, dt: f64, info: &Info) -> f64 {
        let mut speed = self.speed.clone();
        speed.update(dt, info);
        speed.value().as_ticks_per_second() * dt
    }
}
