//! Slots with generations: what the original's arenas are used for, under document 01's table rules.
//! Adding takes the lowest free slot and raises its generation by one; the first is 1.
//! A free slot whose generation is the largest is retired.

use std::sync::{Arc, Mutex, MutexGuard};

/// A slot and the generation of the one entry that the key names.
#[derive(Debug, Clone, Copy, PartialEq, Eq, Hash)]
pub struct Key {
    slot: u32,
    generation: u32,
}

impl Key {
    pub const fn new(slot: u32, generation: u32) -> Self {
        Self { slot, generation }
    }

    pub const fn slot(self) -> u32 {
        self.slot
    }

    pub const fn generation(self) -> u32 {
        self.generation
    }
}

/// Every slot is taken or retired.
#[derive(Debug, Clone, Copy, PartialEq, Eq)]
pub struct ArenaFull;

/// The key was not reserved, or its slot already holds a value.
#[derive(Debug, Clone, Copy, PartialEq, Eq)]
pub struct KeyNotReserved;

#[derive(Debug, Clone, Copy, Default)]
struct Slot {
    taken: bool,
    generation: u32,
}

impl Slot {
    fn is_free(&self) -> bool {
        !self.taken && self.generation != u32::MAX
    }
}

/// Hands out keys for its arena.
#[derive(Debug, Clone)]
pub struct Controller {
    slots: Arc<Mutex<Vec<Slot>>>,
}

impl Controller {
    fn slots(&self) -> MutexGuard<'_, Vec<Slot>> {
        self.slots.lock().expect("no holder of the lock has failed")
    }

    /// Takes the lowest free slot that is not retired.
    pub fn try_reserve(&self) -> Result<Key, ArenaFull> {
        let mut slots = self.slots();
        let number = slots.iter().position(Slot::is_free).ok_or(ArenaFull)?;
        let slot = &mut slots[number];
        slot.taken = true;
        slot.generation += 1;
        Ok(Key::new(number as u32, slot.generation))
    }

    /// Whether every slot is taken or retired.
    pub fn is_full(&self) -> bool {
        !self.slots().iter().any(Slot::is_free)
    }

    /// Gives a free slot this generation. Answers false where there is no such free slot.
    pub fn set_generation(&self, key: Key) -> bool {
        match self.slots().get_mut(key.slot as usize) {
            Some(slot) if !slot.taken => {
                slot.generation = key.generation;
                true
            }
            _ => false,
        }
    }

    fn names_taken(&self, key: Key) -> bool {
        let slots = self.slots();
        let slot = slots.get(key.slot as usize);
        slot.is_some_and(|slot| slot.taken && slot.generation == key.generation)
    }

    fn free(&self, key: Key) {
        if let Some(slot) = self.slots().get_mut(key.slot as usize) {
            slot.taken = false;
        }
    }
}

/// A value, and the generation of its key: a lookup takes no lock.
#[derive(Debug)]
struct Entry<T> {
    generation: u32,
    value: T,
}

/// A fixed number of slots for values.
#[derive(Debug)]
pub struct Arena<T> {
    controller: Controller,
    entries: Vec<Option<Entry<T>>>,
}

impl<T> Arena<T> {
    pub fn new(capacity: usize) -> Self {
        let slots = vec![Slot::default(); capacity];
        Self {
            controller: Controller {
                slots: Arc::new(Mutex::new(slots)),
            },
            entries: (0..capacity).map(|_| None).collect(),
        }
    }

    pub fn controller(&self) -> Controller {
        self.controller.clone()
    }

    /// Puts a value in the slot that was reserved with this key.
    pub fn insert_with_key(&mut self, key: Key, value: T) -> Result<(), KeyNotReserved> {
        if !self.controller.names_taken(key) {
            return Err(KeyNotReserved);
        }
        let place = &mut self.entries[key.slot as usize];
        if place.is_some() {
            return Err(KeyNotReserved);
        }
        *place = Some(Entry {
            generation: key.generation,
            value,
        });
        Ok(())
    }

    pub fn get(&self, key: Key) -> Option<&T> {
        let entry = self.entries.get(key.slot as usize)?.as_ref()?;
        (entry.generation == key.generation).then_some(&entry.value)
    }

    pub fn get_mut(&mut self, key: Key) -> Option<&mut T> {
        let entry = self.entries.get_mut(key.slot as usize)?.as_mut()?;
        (entry.generation == key.generation).then_some(&mut entry.value)
    }

    /// Takes the value out and frees its slot.
    pub fn remove(&mut self, key: Key) -> Option<T> {
        self.get(key)?;
        let entry = self.entries[key.slot as usize].take()?;
        self.controller.free(key);
        Some(entry.value)
    }

    /// The keys of all values, in slot order.
    pub fn keys(&self) -> Vec<Key> {
        let numbered = (0..).zip(&self.entries);
        numbered
            .filter_map(|(number, entry)| Some(Key::new(number, entry.as_ref()?.generation)))
            .collect()
    }
}

#[cfg(test)]
mod tests {
    use super::*;

    fn add(arena: &mut Arena<char>, value: char) -> Result<Key, ArenaFull> {
        let key = arena.controller().try_reserve()?;
        arena.insert_with_key(key, value).expect("just reserved");
        Ok(key)
    }

    #[test]
    fn the_lowest_free_slot_is_taken_and_its_generation_rises() {
        let mut arena = Arena::new(2);
        let first = add(&mut arena, 'a').expect("room");
        assert_eq!(first, Key::new(0, 1));
        assert_eq!(add(&mut arena, 'b'), Ok(Key::new(1, 1)));
        assert_eq!(add(&mut arena, 'c'), Err(ArenaFull));
        assert_eq!(arena.remove(first), Some('a'));
        assert_eq!(add(&mut arena, 'd'), Ok(Key::new(0, 2)));
        assert_eq!(arena.get(first), None);
        assert_eq!(arena.keys(), [Key::new(0, 2), Key::new(1, 1)]);
    }

    #[test]
    fn a_slot_freed_at_the_last_generation_is_retired() {
        let mut arena = Arena::new(1);
        assert!(arena.controller().set_generation(Key::new(0, u32::MAX - 1)));
        let last = add(&mut arena, 'a').expect("room");
        assert_eq!(last, Key::new(0, u32::MAX));
        assert!(!arena.controller().set_generation(Key::new(0, 1)));
        assert_eq!(arena.remove(last), Some('a'));
        assert_eq!(add(&mut arena, 'b'), Err(ArenaFull));
    }
}
