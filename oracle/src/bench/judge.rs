//! The customer's refusals: what holds of each kind of argument, and in which order it is answered.
//! Nothing here calls the original: these rules are added to it.

use std::{ops::BitOr, time::Duration};

use crate::{
    Easing, StartTime, Tween, Value, clock::ClockSpeed, modulator::lfo::Waveform, value::Mapping,
};

use super::less;

/// The refusals that hold of a call, as a set of their numbers.
#[derive(Debug, Clone, Copy, PartialEq)]
pub(super) struct Faults(u16);

/// Of the refusals that hold, the earliest here is answered.
const ORDER: [u8; 13] = [7, 15, 1, 2, 3, 4, 5, 6, 8, 9, 10, 11, 12];

const BAD_DT: u8 = 1;
const BAD_FLOAT: u8 = 2;
const BAD_SPEED: u8 = 3;
const BAD_EASE: u8 = 4;
const BAD_MAP: u8 = 5;
const BAD_TIME: u8 = 6;
const GONE: u8 = 7;
const NO_ROOM: u8 = 8;
const TOO_FAR: u8 = 9;
const TICKS_FULL: u8 = 10;
const BUFFER: u8 = 11;
const BEFORE_ZERO: u8 = 12;
const NEVER_ISSUED: u8 = 15;

const LARGEST_DT: f64 = 60.0;
const LARGEST_FLOAT: f64 = (1u64 << 40) as f64;
const LARGEST_SPEED: f64 = (1u64 << 20) as f64;
const LEAST_SPEED: f64 = 1.0 / LARGEST_SPEED;
const LARGEST_READING: f64 = (1u64 << 27) as f64;
const LARGEST_ADVANCE: f64 = 65_536.0;
const LEAST_BUFFER: usize = 96;
const LONGEST_WAIT: Duration = Duration::from_nanos(86_400_000_000_000);

impl Faults {
    pub(super) const NONE: Self = Self(0);

    fn when(holds: bool, number: u8) -> Self {
        Self(u16::from(holds) << number)
    }

    /// The number to answer, if any refusal holds.
    pub(super) fn first(self) -> Option<u8> {
        ORDER.into_iter().find(|number| self.0 >> number & 1 == 1)
    }
}

impl BitOr for Faults {
    type Output = Self;

    fn bitor(self, other: Self) -> Self {
        Self(self.0 | other.0)
    }
}

pub(super) fn dt(x: f64) -> Faults {
    let bad = !x.is_finite() || x.is_sign_negative() || x > LARGEST_DT;
    Faults::when(bad, BAD_DT)
}

pub(super) fn float(x: f64) -> Faults {
    // Said this way round, so that a NaN is bad.
    let good = x.abs() <= LARGEST_FLOAT;
    Faults::when(!good, BAD_FLOAT)
}

pub(super) fn speed(speed: ClockSpeed) -> Faults {
    let in_range = |x: f64| (LEAST_SPEED..=LARGEST_SPEED).contains(&x);
    let good = match speed {
        ClockSpeed::SecondsPerTick(x) => in_range(x),
        ClockSpeed::TicksPerSecond(x) | ClockSpeed::TicksPerMinute(x) => x == 0.0 || in_range(x),
    };
    Faults::when(!good, BAD_SPEED)
}

/// A speed from which another is reached: it must be readable in the target's unit.
pub(super) fn speed_change(start: ClockSpeed, target: ClockSpeed) -> Faults {
    let reading = read_in_unit_of(start, target);
    let bad = !reading.is_finite() || reading > LARGEST_READING;
    Faults::when(bad, BAD_SPEED)
}

fn read_in_unit_of(speed: ClockSpeed, unit: ClockSpeed) -> f64 {
    use ClockSpeed::{SecondsPerTick, TicksPerMinute, TicksPerSecond};
    match (speed, unit) {
        (SecondsPerTick(x), SecondsPerTick(_)) => x,
        (SecondsPerTick(x), TicksPerSecond(_)) => 1.0 / x,
        (SecondsPerTick(x), TicksPerMinute(_)) => 60.0 / x,
        (TicksPerSecond(x), SecondsPerTick(_)) => 1.0 / x,
        (TicksPerSecond(x), TicksPerSecond(_)) => x,
        (TicksPerSecond(x), TicksPerMinute(_)) => x * 60.0,
        (TicksPerMinute(x), SecondsPerTick(_)) => 60.0 / x,
        (TicksPerMinute(x), TicksPerSecond(_)) => x / 60.0,
        (TicksPerMinute(x), TicksPerMinute(_)) => x,
    }
}

fn same_unit(a: ClockSpeed, b: ClockSpeed) -> bool {
    use std::mem::discriminant;
    discriminant(&a) == discriminant(&b)
}

pub(super) fn easing(easing: Easing) -> Faults {
    let good = match easing {
        Easing::Linear => true,
        Easing::InPowi(power) | Easing::OutPowi(power) | Easing::InOutPowi(power) => {
            (1..=16).contains(&power)
        }
        Easing::InPowf(_) | Easing::OutPowf(_) | Easing::InOutPowf(_) => {
            unreachable!("the grammar has no such easing")
        }
    };
    Faults::when(!good, BAD_EASE)
}

/// What a mapping holds beside its two outputs.
fn mapping_frame<T>(mapping: &Mapping<T>) -> Faults {
    let (low, high) = mapping.input_range;
    float(low) | float(high) | easing(mapping.easing) | Faults::when(low == high, BAD_MAP)
}

pub(super) fn float_mapping(mapping: &Mapping<f64>) -> Faults {
    let (low, high) = mapping.output_range;
    mapping_frame(mapping) | float(low) | float(high)
}

pub(super) fn speed_mapping(mapping: &Mapping<ClockSpeed>) -> Faults {
    let (low, high) = mapping.output_range;
    let mixed = Faults::when(!same_unit(low, high), BAD_SPEED);
    mapping_frame(mapping) | speed(low) | speed(high) | mixed
}

pub(super) fn float_value(value: &Value<f64>) -> Faults {
    match value {
        Value::Fixed(x) => float(*x),
        Value::FromModulator { mapping, .. } => float_mapping(mapping),
        Value::FromListenerDistance(_) => unreachable!("the grammar has no such value"),
    }
}

pub(super) fn speed_value(value: &Value<ClockSpeed>) -> Faults {
    match value {
        Value::Fixed(x) => speed(*x),
        Value::FromModulator { mapping, .. } => speed_mapping(mapping),
        Value::FromListenerDistance(_) => unreachable!("the grammar has no such value"),
    }
}

pub(super) fn waveform(waveform: Waveform) -> Faults {
    match waveform {
        Waveform::Pulse { width } => float(width),
        _ => Faults::NONE,
    }
}

pub(super) fn fraction(x: f64) -> Faults {
    let good = x.is_sign_positive() && x < 1.0;
    Faults::when(!good, BAD_TIME)
}

/// The sign of an amount of ticks that becomes a time.
pub(super) fn from_ticks(ticks: f64) -> Faults {
    Faults::when(ticks.is_sign_negative(), BAD_TIME)
}

pub(super) fn duration(duration: Duration) -> Faults {
    Faults::when(duration > LONGEST_WAIT, BAD_TIME)
}

pub(super) fn start(start: StartTime) -> Faults {
    match start {
        StartTime::Immediate => Faults::NONE,
        StartTime::Delayed(delay) => duration(delay),
        StartTime::ClockTime(time) => fraction(time.fraction),
    }
}

pub(super) fn tween(tween: Tween) -> Faults {
    start(tween.start_time) | duration(tween.duration) | easing(tween.easing)
}

/// Whole ticks that are added to those held.
pub(super) fn added_ticks(held: u64, added: u64) -> Faults {
    Faults::when(held.checked_add(added).is_none(), TICKS_FULL)
}

/// What an update adds to a ticking clock that stands at this time.
pub(super) fn advance(held: u64, fraction: f64, advance: f64) -> Faults {
    let too_far = Faults::when(advance > LARGEST_ADVANCE, TOO_FAR);
    too_far | added_ticks(held, (fraction + advance).trunc() as u64)
}

/// Ticks that are added as a double; where it has a minus sign they are subtracted, and never pass the end.
pub(super) fn added_amount(held: u64, fraction: f64, amount: f64) -> Faults {
    if amount.is_sign_negative() {
        return Faults::NONE;
    }
    added_ticks(held, (fraction + amount).trunc() as u64)
}

/// What lives under the id that a call acts on.
#[derive(Debug, Clone, Copy, PartialEq)]
pub(super) enum Named {
    /// What the call acts on.
    Wanted,
    /// A modulator, but not of the kind that the call acts on.
    OtherKind,
    Nothing,
}

/// The id acted on, and whether its table has given it. Only what does not live can be dead.
pub(super) fn id(named: Named, given: bool) -> Faults {
    match named {
        Named::Wanted => Faults::NONE,
        Named::Nothing if given => Faults::when(true, GONE),
        Named::Nothing | Named::OtherKind => Faults::when(true, NEVER_ISSUED),
    }
}

pub(super) fn room(full: bool) -> Faults {
    Faults::when(full, NO_ROOM)
}

pub(super) fn buffer(length: usize) -> Faults {
    Faults::when(length < LEAST_BUFFER, BUFFER)
}

/// Whole ticks that are subtracted from those held.
pub(super) fn subtracted_ticks(held: u64, subtracted: u64) -> Faults {
    Faults::when(subtracted > held, BEFORE_ZERO)
}

/// Ticks that are subtracted as a double; where it has a minus sign they are added, and never pass zero.
pub(super) fn subtracted_amount(held: u64, fraction: f64, amount: f64) -> Faults {
    let subtracted = amount.is_sign_positive();
    Faults::when(
        subtracted && less::is_smaller(held, fraction, amount),
        BEFORE_ZERO,
    )
}

#[cfg(test)]
mod tests {
    use super::*;

    /// The next double above a positive one, and the one below it.
    fn above(x: f64) -> f64 {
        f64::from_bits(x.to_bits() + 1)
    }

    fn below(x: f64) -> f64 {
        f64::from_bits(x.to_bits() - 1)
    }

    #[test]
    fn the_earliest_in_order_is_answered() {
        let all = Faults::when(true, 12) | Faults::when(true, 6) | Faults::when(true, 2);
        assert_eq!(Faults::NONE.first(), None);
        assert_eq!(all.first(), Some(2));
        assert_eq!((all | Faults::when(true, 1)).first(), Some(1));
    }

    #[test]
    fn an_id_is_judged_before_everything_else() {
        let (gone, never) = (id(Named::Nothing, true), id(Named::Nothing, false));
        for number in [1, 2, 3, 4, 5, 6, 8, 9, 10, 11, 12] {
            let other = Faults::when(true, number);
            assert_eq!(other.first(), Some(number));
            assert_eq!((other | gone).first(), Some(GONE));
            assert_eq!((other | never).first(), Some(NEVER_ISSUED));
        }
        assert_eq!((never | gone).first(), Some(GONE));
    }

    #[test]
    fn an_id_is_dead_where_it_was_given_and_nothing_lives_there() {
        let rows = [
            (Named::Wanted, true, None),
            (Named::Nothing, true, Some(GONE)),
            (Named::Nothing, false, Some(NEVER_ISSUED)),
            (Named::OtherKind, true, Some(NEVER_ISSUED)),
        ];
        for (named, given, number) in rows {
            assert_eq!(id(named, given).first(), number, "{named:?} {given}");
        }
    }

    #[test]
    fn floats_end_at_two_to_the_forty() {
        for x in [0.0, -0.0, LARGEST_FLOAT, -LARGEST_FLOAT] {
            assert_eq!(float(x).first(), None);
        }
        for x in [above(LARGEST_FLOAT), f64::NEG_INFINITY, f64::NAN] {
            assert_eq!(float(x).first(), Some(BAD_FLOAT));
            assert_eq!(float(-x).first(), Some(BAD_FLOAT));
        }
    }

    #[test]
    fn dt_ends_at_sixty_and_has_no_sign() {
        assert_eq!(dt(0.0).first(), None);
        assert_eq!(dt(60.0).first(), None);
        for x in [-0.0, above(60.0), f64::INFINITY, f64::NAN] {
            assert_eq!(dt(x).first(), Some(BAD_DT));
        }
    }

    #[test]
    fn speeds_have_both_limits_and_some_a_zero() {
        use ClockSpeed::{SecondsPerTick, TicksPerMinute, TicksPerSecond};
        for unit in [SecondsPerTick, TicksPerSecond, TicksPerMinute] {
            assert_eq!(speed(unit(LEAST_SPEED)).first(), None);
            assert_eq!(speed(unit(LARGEST_SPEED)).first(), None);
            assert_eq!(speed(unit(below(LEAST_SPEED))).first(), Some(3));
            assert_eq!(speed(unit(above(LARGEST_SPEED))).first(), Some(3));
            assert_eq!(speed(unit(f64::NAN)).first(), Some(3));
        }
        assert_eq!(speed(SecondsPerTick(0.0)).first(), Some(3));
        assert_eq!(speed(TicksPerSecond(-0.0)).first(), None);
        assert_eq!(
            speed_change(TicksPerSecond(0.0), SecondsPerTick(1.0)).first(),
            Some(3)
        );
        assert_eq!(
            speed_change(TicksPerSecond(0.0), TicksPerMinute(1.0)).first(),
            None
        );
    }

    #[test]
    fn fractions_lie_from_zero_up_to_one() {
        assert_eq!(fraction(0.0).first(), None);
        assert_eq!(fraction(below(1.0)).first(), None);
        for x in [-0.0, 1.0, -0.5, f64::NAN] {
            assert_eq!(fraction(x).first(), Some(BAD_TIME));
        }
    }

    #[test]
    fn ticks_end_at_the_largest_whole_number() {
        assert_eq!(added_ticks(u64::MAX, 0).first(), None);
        assert_eq!(added_ticks(u64::MAX, 1).first(), Some(TICKS_FULL));
        assert_eq!(added_amount(u64::MAX, 0.5, 0.25).first(), None);
        assert_eq!(added_amount(u64::MAX, 0.5, 0.5).first(), Some(TICKS_FULL));
        assert_eq!(added_amount(u64::MAX, 0.5, -9.0).first(), None);
        assert_eq!(subtracted_ticks(3, 3).first(), None);
        assert_eq!(subtracted_ticks(3, 4).first(), Some(BEFORE_ZERO));
        assert_eq!(subtracted_amount(3, 0.5, 3.5).first(), None);
        assert_eq!(
            subtracted_amount(3, 0.5, above(3.5)).first(),
            Some(BEFORE_ZERO)
        );
        assert_eq!(subtracted_amount(3, 0.5, -9.0).first(), None);
    }
}
