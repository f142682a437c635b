//! Makes a tweener.

use std::sync::Arc;

use crate::{
    Tween,
    held::Held,
    modulator::{Modulator, ModulatorBuilder, ModulatorId},
};

use super::{Tweener, TweenerHandle, TweenerShared, command_writers_and_readers};

pub struct TweenerBuilder {
    pub initial_value: f64,
}

impl ModulatorBuilder for TweenerBuilder {
    type Handle = TweenerHandle;

    fn build(self, _id: ModulatorId) -> (Box<dyn Modulator>, TweenerHandle) {
        let (command_writers, command_readers) = command_writers_and_readers();
        let shared = Arc::new(TweenerShared::new());
        let tweener = Held::new(Tweener::new(self.initial_value, command_readers, shared));
        let entry = tweener.entry();
        let handle = TweenerHandle {
            tweener,
            command_writers,
        };
        (entry, handle)
    }
}

impl TweenerBuilder {
    /// A tweener under way to a target, by itself: what the program `speed` puts into the table.
    pub(crate) fn alone(self, target: f64, tween: Tween) -> Box<dyn Modulator> {
        let (_, command_readers) = command_writers_and_readers();
        let shared = Arc::new(TweenerShared::new());
        let mut tweener = Tweener::new(self.initial_value, command_readers, shared);
        tweener.set(target, tween);
        Box::new(tweener)
    }
}
