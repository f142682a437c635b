//! The original's clocks and modulators in their tables, and the frame over them in document 01's order.

use std::{fmt, mem};

use atomic_arena::{Arena, Key};

use crate::{clock::Clock, info::Info, listener::Listener, modulator::Modulator};

pub(super) const SLOTS: usize = 16;

/// Each number is mixed of all slots; `reported` of the ticks that one clock reported.
#[derive(Default)]
pub(super) struct Told {
    pub(super) reported: u64,
    pub(super) ticks: u64,
    pub(super) fractions: u64,
    pub(super) values: u64,
}

/// One number more, mixed into those before it. Their order counts, so that equal slots do not cancel.
pub(super) fn mixed(sum: u64, x: u64) -> u64 {
    sum.rotate_left(1) ^ x
}

impl fmt::Display for Told {
    fn fmt(&self, f: &mut fmt::Formatter) -> fmt::Result {
        let Self {
            reported,
            ticks,
            fractions,
            values,
        } = self;
        write!(f, "{reported} {ticks} {fractions} {values}")
    }
}

/// Stands in a modulator's slot during its update.
struct Spare;

impl Modulator for Spare {
    fn update(&mut self, _: f64, _: &Info) {}

    fn value(&self) -> f64 {
        0.0
    }

    fn finished(&self) -> bool {
        false
    }
}

pub(super) struct Station {
    pub(super) clocks: Arena<Clock>,
    pub(super) modulators: Arena<Box<dyn Modulator>>,
    listeners: Arena<Listener>,
    clock_keys: Vec<Key>,
    modulator_keys: Vec<Key>,
    spare_clock: Clock,
    spare_modulator: Box<dyn Modulator>,
}

impl Station {
    pub(super) fn of(clocks: Arena<Clock>, modulators: Arena<Box<dyn Modulator>>) -> Self {
        Self {
            clock_keys: clocks.keys(),
            modulator_keys: modulators.keys(),
            clocks,
            modulators,
            listeners: Arena::new(0),
            spare_clock: Clock::default(),
            spare_modulator: Box::new(Spare),
        }
    }

    pub(super) fn info(&self) -> Info<'_> {
        Info::new(&self.clocks, &self.modulators, &self.listeners, None)
    }

    /// Modulators, then clocks, each in slot order; each is taken out of its slot for its update, and sees those
    /// before it as they are now. No entry of these cases asks for itself. Answers what one clock reported.
    pub(super) fn frame(&mut self, dt: f64) -> Option<u64> {
        for key in &self.modulator_keys {
            let slot = self.modulators.get_mut(*key);
            mem::swap(slot.expect("it lives"), &mut self.spare_modulator);
            let info = Info::new(&self.clocks, &self.modulators, &self.listeners, None);
            self.spare_modulator.update(dt, &info);
            let slot = self.modulators.get_mut(*key);
            mem::swap(slot.expect("it lives"), &mut self.spare_modulator);
        }
        let mut reported = None;
        for key in &self.clock_keys {
            let slot = self.clocks.get_mut(*key);
            mem::swap(slot.expect("it lives"), &mut self.spare_clock);
            let info = Info::new(&self.clocks, &self.modulators, &self.listeners, None);
            let tick = self.spare_clock.update(dt, &info);
            let slot = self.clocks.get_mut(*key);
            mem::swap(slot.expect("it lives"), &mut self.spare_clock);
            if key.slot() == 5 {
                reported = tick;
            }
        }
        reported
    }

    pub(super) fn tell(&self, reported: u64) -> Told {
        let mut told = Told {
            reported,
            ..Told::default()
        };
        for key in &self.clock_keys {
            let clock = self.clocks.get(*key).expect("it lives");
            let (ticks, fraction) = crate::position(clock);
            told.ticks = mixed(told.ticks, ticks);
            told.fractions = mixed(told.fractions, f64::to_bits(fraction));
        }
        for key in &self.modulator_keys {
            let modulator = self.modulators.get(*key).expect("it lives");
            told.values = mixed(told.values, modulator.value().to_bits());
        }
        told
    }
}
