//! A modulator that its table's entry and its handle both reach, and whose last update can be undone.

use std::{
    mem,
    sync::{Arc, Mutex, MutexGuard},
};

use crate::{info::Info, modulator::Modulator};

/// The handle's end.
pub(crate) struct Held<M> {
    now: Arc<Mutex<M>>,
    before: Option<M>,
}

impl<M: Modulator + Clone + 'static> Held<M> {
    pub(crate) fn new(modulator: M) -> Self {
        Self {
            now: Arc::new(Mutex::new(modulator)),
            before: None,
        }
    }

    /// What goes into the table.
    pub(crate) fn entry(&self) -> Box<dyn Modulator> {
        Box::new(Entry(self.now.clone()))
    }

    /// A copy is updated, so that the update sees the modulator itself as it was.
    pub(crate) fn update(&mut self, dt: f64, info: &Info) {
        let mut copy = open(&self.now).clone();
        copy.update(dt, info);
        let before = mem::replace(&mut *open(&self.now), copy);
        self.before = Some(before);
    }

    pub(crate) fn undo_update(&mut self) {
        if let Some(before) = self.before.take() {
            *open(&self.now) = before;
        }
    }
}

struct Entry<M>(Arc<Mutex<M>>);

impl<M: Modulator> Modulator for Entry<M> {
    fn on_start_processing(&mut self) {
        open(&self.0).on_start_processing();
    }

    fn update(&mut self, dt: f64, info: &Info) {
        open(&self.0).update(dt, info);
    }

    fn value(&self) -> f64 {
        open(&self.0).value()
    }

    fn finished(&self) -> bool {
        open(&self.0).finished()
    }
}

fn open<M>(modulator: &Mutex<M>) -> MutexGuard<'_, M> {
    modulator.lock().expect("no holder of the lock has failed")
}
