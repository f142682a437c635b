//! The station: the original's resources in their tables, their handles, and the parameters that the bench holds.

use std::collections::HashMap;

use atomic_arena::{Arena, Key};

use crate::{
    Parameter,
    clock::{Clock, ClockHandle, ClockSpeed},
    info::Info,
    listener::Listener,
    modulator::{Modulator, lfo::LfoHandle, tweener::TweenerHandle},
};

use super::given::Given;

const SLOTS: usize = 16;

/// What an update sees.
pub(super) struct Tables {
    pub(super) clocks: Arena<Clock>,
    pub(super) modulators: Arena<Box<dyn Modulator>>,
    listeners: Arena<Listener>,
}

impl Tables {
    pub(super) fn info(&self) -> Info<'_> {
        Info::new(&self.clocks, &self.modulators, &self.listeners, None)
    }
}

/// A modulator is one of two kinds.
pub(super) enum ModulatorHandle {
    Tweener(TweenerHandle),
    Lfo(Box<LfoHandle>),
}

impl ModulatorHandle {
    pub(super) fn tweener(&mut self) -> Option<&mut TweenerHandle> {
        match self {
            Self::Tweener(tweener) => Some(tweener),
            Self::Lfo(_) => None,
        }
    }

    pub(super) fn lfo(&mut self) -> Option<&mut LfoHandle> {
        match self {
            Self::Tweener(_) => None,
            Self::Lfo(lfo) => Some(lfo),
        }
    }

    pub(super) fn update(&mut self, dt: f64, info: &Info) {
        match self {
            Self::Tweener(tweener) => tweener.update(dt, info),
            Self::Lfo(lfo) => lfo.update(dt, info),
        }
    }

    pub(super) fn undo_update(&mut self) {
        match self {
            Self::Tweener(tweener) => tweener.undo_update(),
            Self::Lfo(lfo) => lfo.undo_update(),
        }
    }
}

/// An id that has a handle is in its table too.
pub(super) const LIVES: &str = "what has a handle lives";

/// Everything that calls act on. Handles live as long as what they name.
pub(super) struct Station {
    pub(super) tables: Tables,
    pub(super) clocks: HashMap<Key, ClockHandle>,
    pub(super) modulators: HashMap<Key, ModulatorHandle>,
    pub(super) given_clocks: Given,
    pub(super) given_modulators: Given,
    pub(super) floats: [Option<Parameter<f64>>; SLOTS],
    pub(super) speeds: [Option<Parameter<ClockSpeed>>; SLOTS],
}

impl Station {
    pub(super) fn new() -> Self {
        Self {
            tables: Tables {
                clocks: Arena::new(SLOTS),
                modulators: Arena::new(SLOTS),
                listeners: Arena::new(0),
            },
            clocks: HashMap::new(),
            modulators: HashMap::new(),
            given_clocks: Given::default(),
            given_modulators: Given::default(),
            floats: Default::default(),
            speeds: Default::default(),
        }
    }
}
