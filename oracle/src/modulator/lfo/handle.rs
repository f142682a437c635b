//! An LFO's handle, and what the bench reaches of a waveform's private half.

use crate::{Tween, Value, command::ValueChangeCommand, held::Held, info::Info};

use super::{CommandWriters, Lfo, Waveform};

pub struct LfoHandle {
    pub(super) lfo: Held<Lfo>,
    pub(super) command_writers: CommandWriters,
}

impl LfoHandle {
    pub(crate) fn set_waveform(&mut self, waveform: Waveform) {
        self.command_writers.set_waveform.write(waveform);
    }

    pub(crate) fn set_phase(&mut self, phase: f64) {
        self.command_writers.set_phase.write(phase);
    }

    pub(crate) fn set_frequency(&mut self, target: Value<f64>, tween: Tween) {
        let command = ValueChangeCommand { target, tween };
        self.command_writers.set_frequency.write(command);
    }

    pub(crate) fn set_amplitude(&mut self, target: Value<f64>, tween: Tween) {
        let command = ValueChangeCommand { target, tween };
        self.command_writers.set_amplitude.write(command);
    }

    pub(crate) fn set_offset(&mut self, target: Value<f64>, tween: Tween) {
        let command = ValueChangeCommand { target, tween };
        self.command_writers.set_offset.write(command);
    }

    pub(crate) fn update(&mut self, dt: f64, info: &Info) {
        self.lfo.update(dt, info);
    }

    pub(crate) fn undo_update(&mut self) {
        self.lfo.undo_update();
    }
}

impl Clone for Lfo {
    fn clone(&self) -> Self {
        Self {
            waveform: self.waveform,
            frequency: self.frequency.clone(),
            amplitude: self.amplitude.clone(),
            offset: self.offset.clone(),
            command_readers: self.command_readers.clone(),
            shared: self.shared.clone(),
            phase: self.phase,
            value: self.value,
        }
    }
}

impl Waveform {
    /// The original's private reading of a waveform.
    pub(crate) fn at(self, phase: f64) -> f64 {
        self.value(phase)
    }
}
