//! All recordings of one comparison: the fixed ones, then random ones.

use crate::{calls, damage, edits, lengths, lines, random::Random, runs};

/// One random recording in this many is damaged.
const DAMAGED: u64 = 3;

/// A record's text.
pub(crate) fn record(op: &str, slot: usize, generation: u64, arg: f64) -> Vec<u8> {
    let arg = arg.to_bits();
    format!("op={op}\nslot={slot}\ngen={generation}\narg={arg:016x}\n").into_bytes()
}

pub(crate) struct Made {
    seed: u64,
    fixed: Vec<Vec<u8>>,
    count: usize,
}

impl Made {
    pub(crate) fn new(seed: u64, count: usize) -> Self {
        let fixed = [calls::all(), lines::all(), edits::all(), lengths::all()].concat();
        Self { seed, fixed, count }
    }

    pub(crate) fn fixed(&self) -> usize {
        self.fixed.len()
    }

    pub(crate) fn total(&self) -> usize {
        self.fixed.len().saturating_add(self.count)
    }

    /// The recording of this number; each random one is made for itself.
    pub(crate) fn get(&self, number: usize) -> Option<Vec<u8>> {
        if number >= self.total() {
            return None;
        }
        if let Some(fixed) = self.fixed.get(number) {
            return Some(fixed.clone());
        }
        let mut random = self.random(number);
        let run = runs::run(&mut random);
        if random.chance(DAMAGED) {
            return Some(damage::any(&run, &mut random));
        }
        Some(run)
    }

    /// Numbers for this recording alone.
    pub(crate) fn random(&self, number: usize) -> Random {
        let seed = Random::new(self.seed).next();
        Random::new(seed ^ number as u64)
    }
}

#[cfg(test)]
mod tests {
    use super::*;
    use crate::recording;

    /// The number of times that each refusal comes in a part; 0 stands for none.
    fn numbers(made: &Made, part: impl Iterator<Item = usize>) -> [usize; 16] {
        let mut counts = [0; 16];
        for number in part {
            let recording = made.get(number).expect("there is such a one");
            let refused = recording::replay(&recording).err();
            counts[usize::from(refused.map_or(0, |refusal| refusal.number()))] += 1;
        }
        counts
    }

    #[test]
    fn the_fixed_part_has_every_answer() {
        let made = Made::new(1, 0);
        let counts = numbers(&made, 0..made.fixed());
        for number in [0, 1, 3, 7, 8, 9, 11, 13, 14, 15] {
            assert!(counts[number] > 3, "{number}: {counts:?}");
        }
    }

    #[test]
    fn most_random_recordings_are_accepted() {
        let made = Made::new(7, 1000);
        let counts = numbers(&made, made.fixed()..made.total());
        assert!(counts[0] > 500, "{counts:?}");
        assert!(counts[13] > 100, "{counts:?}");
        assert!(counts[7] > 10 && counts[15] > 10, "{counts:?}");
    }

    #[test]
    fn the_same_arguments_give_the_same_recordings() {
        let (one, other) = (Made::new(5, 200), Made::new(5, 200));
        assert!((0..one.total()).all(|number| one.get(number) == other.get(number)));
        assert_eq!(one.get(one.total()), None);
    }
}
