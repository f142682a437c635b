//! Document 02, Req 01: what is left of a time when a double is taken off it, in whole numbers of 2^-1074, of which
//! every double is some. The original has another rule. Where its answer is the exact one, that is the answer here.

use std::{
    cmp::Ordering,
    sync::atomic::{AtomicU64, Ordering::Relaxed},
};

use crate::clock::ClockTime;

/// How many answers were the original's, and how many the rule's alone.
static BY_ORIGINAL: AtomicU64 = AtomicU64::new(0);
static BY_RULE: AtomicU64 = AtomicU64::new(0);

/// What was counted since the start.
pub(super) fn counts() -> String {
    let (original, rule) = (BY_ORIGINAL.load(Relaxed), BY_RULE.load(Relaxed));
    format!("{original} are the original's own, being exact, and {rule} the rule's alone")
}

/// Whether a time is smaller than an amount, as exact numbers.
pub(super) fn is_smaller(ticks: u64, fraction: f64, amount: f64) -> bool {
    place(ticks, fraction) < Units::of(amount)
}

/// The time that is left, where it is not smaller than the amount: the original's where that is exact.
pub(super) fn left(from: ClockTime, amount: f64, original: ClockTime) -> ClockTime {
    let (ticks, fraction) = by_rule(from.ticks, from.fraction, amount);
    let sum = place(original.ticks, original.fraction).plus(Units::of(amount));
    if sum == place(from.ticks, from.fraction) {
        BY_ORIGINAL.fetch_add(1, Relaxed);
        let same = (original.ticks, original.fraction) == (ticks, fraction);
        assert!(same, "the original is exact, and the rule is not the same");
        return original;
    }
    BY_RULE.fetch_add(1, Relaxed);
    ClockTime {
        ticks,
        fraction,
        ..from
    }
}

/// The amount's whole ticks leave the ticks, its fraction the fraction, and a fraction that lacks something borrows.
fn by_rule(ticks: u64, fraction: f64, amount: f64) -> (u64, f64) {
    let amount = Units::of(amount);
    let whole = amount.digits(TICK);
    let rest = amount.minus(Units::at(whole, TICK));
    let fraction = Units::of(fraction);
    if fraction >= rest {
        return (ticks - whole, fraction.minus(rest).rounded().double());
    }
    let tick = Units::at(1, TICK);
    let lack = rest.minus(fraction).rounded();
    let part = tick.minus(lack).rounded();
    if part == tick {
        return (ticks - whole, 0.0);
    }
    (ticks - whole - 1, part.double())
}

fn place(ticks: u64, fraction: f64) -> Units {
    Units::at(ticks, TICK).plus(Units::of(fraction))
}

/// A tick is 2 to this many units.
const TICK: usize = 1074;

/// A double has this many binary digits.
const DIGITS: usize = 53;

/// A count of units below 2^1152, its lowest 64 digits first: more than a time can have.
#[derive(Clone, Copy, PartialEq, Eq)]
struct Units([u64; 18]);

impl Units {
    /// A double from 0 to 2^40. Any other is refused by its own number, and counts for nothing here.
    fn of(x: f64) -> Self {
        if !(0.0..=2f64.powi(40)).contains(&x) {
            return Self([0; 18]);
        }
        let field = (x.to_bits() >> (DIGITS - 1)) as usize & 2047;
        let digits = x.to_bits() & ((1 << (DIGITS - 1)) - 1);
        if field == 0 {
            return Self::at(digits, 0);
        }
        Self::at(digits | 1 << (DIGITS - 1), field - 1)
    }

    /// n times 2^place, with a place of 1,087 at most.
    fn at(n: u64, place: usize) -> Self {
        let mut limbs = [0; 18];
        let wide = u128::from(n) << (place % 64);
        limbs[place / 64] = wide as u64;
        limbs[place / 64 + 1] = (wide >> 64) as u64;
        Self(limbs)
    }

    fn plus(self, other: Self) -> Self {
        let mut carry = 0;
        Self(std::array::from_fn(|i| {
            let sum = u128::from(self.0[i]) + u128::from(other.0[i]) + carry;
            carry = sum >> 64;
            sum as u64
        }))
    }

    /// Of what is not larger.
    fn minus(self, other: Self) -> Self {
        let mut borrow = 0;
        Self(std::array::from_fn(|i| {
            let gap = i128::from(self.0[i]) - i128::from(other.0[i]) - borrow;
            borrow = i128::from(gap < 0);
            gap as u64
        }))
    }

    /// How many binary digits it has.
    fn length(self) -> usize {
        let top = self.0.iter().rposition(|limb| *limb != 0);
        top.map_or(0, |i| (i + 1) * 64 - self.0[i].leading_zeros() as usize)
    }

    /// The digits from a place on, as many as fit.
    fn digits(self, place: usize) -> u64 {
        let [low, high] = [place / 64, place / 64 + 1].map(|i| u128::from(self.0[i]));
        ((high << 64 | low) >> (place % 64)) as u64
    }

    /// The digits that a double drops.
    fn dropped(self) -> usize {
        self.length().saturating_sub(DIGITS)
    }

    /// The nearest count that a double has, and of two the one whose last digit is 0.
    fn rounded(self) -> Self {
        let dropped = self.dropped();
        if dropped == 0 {
            return self;
        }
        let kept = self.digits(dropped);
        let rest = self.minus(Self::at(kept, dropped));
        let up = match rest.cmp(&Self::at(1, dropped - 1)) {
            Ordering::Less => 0,
            Ordering::Equal => kept % 2,
            Ordering::Greater => 1,
        };
        Self::at(kept + up, dropped)
    }

    /// The double of a rounded count: its leading digit adds one to the exponent's field.
    fn double(self) -> f64 {
        let dropped = self.dropped();
        f64::from_bits(((dropped as u64) << (DIGITS - 1)) + self.digits(dropped))
    }
}

impl Ord for Units {
    fn cmp(&self, other: &Self) -> Ordering {
        self.0.iter().rev().cmp(other.0.iter().rev())
    }
}

impl PartialOrd for Units {
    fn partial_cmp(&self, other: &Self) -> Option<Ordering> {
        Some(self.cmp(other))
    }
}

#[cfg(test)]
mod tests {
    use super::*;

    const LEAST: f64 = f64::from_bits(1);

    #[test]
    fn units_are_doubles_and_back() {
        for x in [0.0, LEAST, 2f64.powi(-1022), 0.1, 0.5, 1.0, 2f64.powi(40)] {
            for bits in [x.to_bits().saturating_sub(1), x.to_bits()] {
                assert_eq!(Units::of(f64::from_bits(bits)).double().to_bits(), bits);
            }
        }
        assert_eq!(Units::of(3.75).digits(TICK), 3);
        assert!(Units::at(u64::MAX, TICK) > Units::of(2f64.powi(40)));
    }

    /// The processor rounds a sum and a difference of doubles in the same way.
    #[test]
    fn rounding_is_the_processors() {
        let values = [
            LEAST,
            1e-300,
            2f64.powi(-54),
            0.1,
            0.3,
            0.7,
            1.0 - 2f64.powi(-53),
            1.0,
        ];
        for a in values {
            for b in values {
                let (large, small) = if a < b { (b, a) } else { (a, b) };
                let (x, y) = (Units::of(large), Units::of(small));
                assert_eq!(x.plus(y).rounded().double(), large + small);
                assert_eq!(x.minus(y).rounded().double(), large - small);
            }
        }
    }

    #[test]
    fn a_tick_is_borrowed_and_given_back() {
        assert_eq!(by_rule(5, 0.5, 1.25), (4, 0.25));
        assert_eq!(by_rule(5, 0.25, 0.5), (4, 0.75));
        assert_eq!(by_rule(5, 0.0, 2f64.powi(-53)), (4, 1.0 - 2f64.powi(-53)));
        assert_eq!(by_rule(5, 0.0, 2f64.powi(-54)), (5, 0.0));
        assert_eq!(by_rule(5, 0.0, LEAST), (5, 0.0));
        assert_eq!(by_rule(1, 2f64.powi(-60), 0.0), (1, 2f64.powi(-60)));
    }

    #[test]
    fn a_time_is_compared_exactly() {
        assert!(is_smaller(0, 0.25, 0.5));
        assert!(is_smaller(0, 0.0, LEAST));
        assert!(!is_smaller(0, LEAST, LEAST));
        assert!(!is_smaller(1 << 40, 0.0, 2f64.powi(40)));
        assert!(is_smaller(
            (1 << 40) - 1,
            1.0 - 2f64.powi(-53),
            2f64.powi(40)
        ));
        assert!(!is_smaller(u64::MAX, 0.0, 2f64.powi(40)));
    }
}
