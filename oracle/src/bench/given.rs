//! Document 02, Req 03: which ids a table has given. What its accepted adds answered is kept here, so that a dead id is
//! told from one that was never given without asking the table for a slot's generation.

use std::collections::{HashMap, HashSet};

use atomic_arena::Key;

#[derive(Default)]
pub(super) struct Given {
    /// What adds answered.
    answered: HashSet<Key>,
    /// By slot, the generation of its last accepted `.gen` call.
    counted: HashMap<u32, u32>,
}

impl Given {
    /// An add answered this id.
    pub(super) fn note(&mut self, id: Key) {
        self.answered.insert(id);
    }

    /// From now on the id's slot counts as having given what lies from 1 up to the id's generation, and no more.
    pub(super) fn count_up_to(&mut self, id: Key) {
        self.answered.retain(|given| given.slot() != id.slot());
        self.counted.insert(id.slot(), id.generation());
    }

    pub(super) fn has(&self, id: Key) -> bool {
        let counted = self.counted.get(&id.slot()).copied().unwrap_or(0);
        self.answered.contains(&id) || (1..=counted).contains(&id.generation())
    }
}

#[cfg(test)]
mod tests {
    use super::*;

    /// The generations of a slot, of those worth asking for, that were given.
    fn given(ids: &Given, slot: u32) -> Vec<u32> {
        let asked = [0, 1, 2, 3, 4, 5, 6, u32::MAX - 1, u32::MAX].into_iter();
        asked
            .filter(|generation| ids.has(Key::new(slot, *generation)))
            .collect()
    }

    #[test]
    fn what_adds_answered_was_given() {
        let mut ids = Given::default();
        assert_eq!(given(&ids, 0), []);
        ids.note(Key::new(0, 1));
        ids.note(Key::new(0, 2));
        assert_eq!(given(&ids, 0), [1, 2]);
        assert_eq!(given(&ids, 1), []);
        assert_eq!(given(&ids, u32::MAX), []);
    }

    #[test]
    fn a_set_generation_counts_from_one_up_to_itself() {
        let mut ids = Given::default();
        ids.note(Key::new(3, 1));
        ids.count_up_to(Key::new(3, 5));
        assert_eq!(given(&ids, 3), [1, 2, 3, 4, 5]);
        ids.note(Key::new(3, 6));
        assert_eq!(given(&ids, 3), [1, 2, 3, 4, 5, 6]);
        // Down again: what was given above it is forgotten.
        ids.count_up_to(Key::new(3, 2));
        assert_eq!(given(&ids, 3), [1, 2]);
        ids.count_up_to(Key::new(3, 0));
        assert_eq!(given(&ids, 3), []);
        ids.count_up_to(Key::new(3, u32::MAX));
        assert_eq!(given(&ids, 3), [1, 2, 3, 4, 5, 6, u32::MAX - 1, u32::MAX]);
        assert_eq!(given(&ids, 2), []);
    }
}
