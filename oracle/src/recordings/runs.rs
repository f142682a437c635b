//! Random recordings of whole runs: clocks come and go, frames pass, and most calls are accepted.

use crate::{doubles, made::record, random::Random};

const SLOTS: usize = 16;
const MOST_RECORDS: u64 = 60;

/// One id in this many is an old one, or one that was never given.
const STRANGE: u64 = 250;

/// One number in this many is at a limit or of any kind.
const WILD: u64 = 150;

/// A slot of the table, as accepted calls leave it.
#[derive(Clone, Copy, Default)]
struct Slot {
    lives: bool,
    generation: u64,
}

struct Run {
    slots: [Slot; SLOTS],
    made: Vec<u8>,
}

pub(crate) fn run(random: &mut Random) -> Vec<u8> {
    let mut run = Run {
        slots: [Slot::default(); SLOTS],
        made: Vec::new(),
    };
    // Some runs begin with a table that is full, or nearly so.
    let adds = if random.chance(8) {
        12 + random.below(5)
    } else {
        0
    };
    (0..adds).for_each(|_| run.add(random));
    for _ in 0..1 + random.below(MOST_RECORDS - adds) {
        run.step(random);
    }
    run.made
}

impl Run {
    fn step(&mut self, random: &mut Random) {
        let living = self.slots.iter().filter(|slot| slot.lives).count();
        match random.below(24) {
            _ if living == 0 && !random.chance(40) => self.add(random),
            0..=3 => self.add(random),
            4 => self.remove(random),
            5..=8 => self.say("start", random, 0.0),
            9 => self.say("stop", random, 0.0),
            10 => self.say("reset", random, 0.0),
            11..=14 => {
                let speed = speed(random);
                self.say("speed", random, speed);
            }
            _ => {
                let frame = record("frame", 0, 0, dt(random));
                self.made.extend(frame);
            }
        }
    }

    /// An add takes the lowest free slot. Where there is none it is seldom tried; and seldom it asks for another id.
    fn add(&mut self, random: &mut Random) {
        let free = self.slots.iter().position(|slot| !slot.lives);
        if free.is_none() && !random.chance(10) {
            return;
        }
        let slot = free.unwrap_or(0);
        self.slots[slot] = Slot {
            lives: true,
            generation: self.slots[slot].generation + 1,
        };
        let (slot, generation) = match random.chance(STRANGE) {
            true => self.strange(random),
            false => (slot, self.slots[slot].generation),
        };
        self.made
            .extend(record("add", slot, generation, speed(random)));
    }

    fn remove(&mut self, random: &mut Random) {
        let (slot, generation) = self.id(random);
        self.slots[slot].lives = false;
        self.made.extend(record("drop", slot, generation, 0.0));
    }

    fn say(&mut self, op: &str, random: &mut Random, arg: f64) {
        let (slot, generation) = self.id(random);
        self.made.extend(record(op, slot, generation, arg));
    }

    /// An id that lives; rarely another one.
    fn id(&self, random: &mut Random) -> (usize, u64) {
        let living: Vec<usize> = (0..SLOTS).filter(|&i| self.slots[i].lives).collect();
        if living.is_empty() || random.chance(STRANGE) {
            return self.strange(random);
        }
        let slot = random.pick(&living);
        (slot, self.slots[slot].generation)
    }

    /// Mostly one that is dead, where there are such ones; else one near a slot's generation.
    fn strange(&self, random: &mut Random) -> (usize, u64) {
        let dead = self.dead();
        if !dead.is_empty() && !random.chance(4) {
            return random.pick(&dead);
        }
        let slot = random.index(SLOTS);
        let near = self.slots[slot].generation + random.below(3);
        (slot, near.saturating_sub(1))
    }

    /// Every id that was dropped.
    fn dead(&self) -> Vec<(usize, u64)> {
        let mut dead = Vec::new();
        for (number, slot) in self.slots.iter().enumerate() {
            let last = slot.generation - u64::from(slot.lives);
            dead.extend((1..=last).map(|generation| (number, generation)));
        }
        dead
    }
}

/// Mostly slow enough for any dt.
fn speed(random: &mut Random) -> f64 {
    if random.chance(WILD) {
        let limits = [1_048_576.0, 1.0 / 1_048_576.0, -0.0, -1.0, f64::NAN];
        return random.pick(&limits);
    }
    match random.below(6) {
        0 => 0.0,
        1 | 2 => random.below(64) as f64 / 8.0,
        3 => doubles::scaled(-20, 9, random),
        _ => doubles::scaled(-4, 5, random),
    }
}

fn dt(random: &mut Random) -> f64 {
    if random.chance(WILD) {
        let limits = [60.0, doubles::above(60.0), -0.0, f64::INFINITY];
        return random.pick(&limits);
    }
    match random.below(6) {
        0 => random.below(16) as f64 / 16.0,
        1 => 0.01,
        2 => doubles::scaled(-40, 4, random),
        _ => doubles::scaled(-8, -1, random),
    }
}
