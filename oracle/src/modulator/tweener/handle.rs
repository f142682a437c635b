//! A tweener's handle.

use crate::{Tween, held::Held, info::Info};

use super::{CommandWriters, State, Tweener};

pub struct TweenerHandle {
    pub(super) tweener: Held<Tweener>,
    pub(super) command_writers: CommandWriters,
}

impl TweenerHandle {
    pub(crate) fn set(&mut self, target: f64, tween: Tween) {
        self.command_writers.set.write((target, tween));
    }

    pub(crate) fn update(&mut self, dt: f64, info: &Info) {
        self.tweener.update(dt, info);
    }

    pub(crate) fn undo_update(&mut self) {
        self.tweener.undo_update();
    }
}

impl Clone for Tweener {
    fn clone(&self) -> Self {
        Self {
            state: self.state.clone(),
            value: self.value,
            command_readers: self.command_readers.clone(),
            shared: self.shared.clone(),
        }
    }
}

impl Clone for State {
    fn clone(&self) -> Self {
        match *self {
            State::Idle => State::Idle,
            State::Tweening {
                values,
                time,
                tween,
            } => State::Tweening {
                values,
                time,
                tween,
            },
        }
    }
}
