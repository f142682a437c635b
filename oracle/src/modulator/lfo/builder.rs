//! Makes an LFO.

use std::sync::Arc;

use crate::{
    Tween, Value,
    held::Held,
    modulator::{Modulator, ModulatorBuilder, ModulatorId},
};

use super::{Lfo, LfoHandle, LfoShared, Waveform, command_writers_and_readers};

pub struct LfoBuilder {
    pub waveform: Waveform,
    pub frequency: Value<f64>,
    pub amplitude: Value<f64>,
    pub offset: Value<f64>,
    pub starting_phase: f64,
}

impl ModulatorBuilder for LfoBuilder {
    type Handle = LfoHandle;

    fn build(self, _id: ModulatorId) -> (Box<dyn Modulator>, LfoHandle) {
        let (command_writers, command_readers) = command_writers_and_readers();
        let shared = Arc::new(LfoShared::new());
        let lfo = Held::new(Lfo::new(&self, command_readers, shared));
        let entry = lfo.entry();
        let handle = LfoHandle {
            lfo,
            command_writers,
        };
        (entry, handle)
    }
}

impl LfoBuilder {
    /// An LFO by itself, with its amplitude under way to another: what the program `speed` puts into the table.
    pub(crate) fn alone(self, amplitude: Value<f64>, tween: Tween) -> Box<dyn Modulator> {
        let (_, command_readers) = command_writers_and_readers();
        let mut lfo = Lfo::new(&self, command_readers, Arc::new(LfoShared::new()));
        lfo.amplitude.set(amplitude, tween);
        Box::new(lfo)
    }
}
