//! The grammar: the words of one line, read from left to right.
//! Every reader answers nothing where the words are not of its kind; the line is then an error.

use std::time::Duration;

use atomic_arena::Key;

use crate::{
    Easing, StartTime, Tween, Value,
    clock::{ClockId, ClockSpeed, ClockTime},
    modulator::{ModulatorId, lfo::Waveform},
    value::Mapping,
};

/// What is left of a line.
#[derive(Clone, Copy)]
pub(super) struct Words<'a> {
    rest: &'a [u8],
}

impl<'a> Words<'a> {
    pub(super) fn of(line: &'a [u8]) -> Self {
        Self { rest: line }
    }

    fn bytes(&mut self) -> Option<&'a [u8]> {
        let start = self.rest.iter().position(|byte| *byte != b' ')?;
        let word = &self.rest[start..];
        let length = word.iter().position(|byte| *byte == b' ');
        let (word, rest) = word.split_at(length.unwrap_or(word.len()));
        self.rest = rest;
        Some(word)
    }

    /// The next word. Bytes that are no text give a word that nothing asks for.
    pub(super) fn word(&mut self) -> Option<&'a str> {
        let word = self.bytes()?;
        Some(std::str::from_utf8(word).unwrap_or("?"))
    }

    /// Nothing may follow a call's last argument.
    pub(super) fn end(mut self) -> Option<()> {
        self.bytes().is_none().then_some(())
    }

    /// Any NaN pattern is the one NaN.
    pub(super) fn float(&mut self) -> Option<f64> {
        let word = self.bytes()?;
        if word.len() != 16 {
            return None;
        }
        let mut bits = 0;
        for byte in word {
            bits = bits << 4 | hex_digit(*byte)?;
        }
        let float = f64::from_bits(bits);
        Some(if float.is_nan() { f64::NAN } else { float })
    }

    pub(super) fn number(&mut self) -> Option<u64> {
        decimal(self.word()?)
    }

    pub(super) fn nanoseconds(&mut self) -> Option<Duration> {
        Some(Duration::from_nanos(self.number()?))
    }

    /// A decimal number of at most `most`.
    pub(super) fn number_up_to(&mut self, most: u64) -> Option<u64> {
        self.number().filter(|number| *number <= most)
    }

    fn key(&mut self) -> Option<Key> {
        let (slot, generation) = self.word()?.split_once(':')?;
        let slot = u32::try_from(decimal(slot)?).ok()?;
        let generation = u32::try_from(decimal(generation)?).ok()?;
        Some(Key::new(slot, generation))
    }

    pub(super) fn clock_id(&mut self) -> Option<ClockId> {
        Some(ClockId(self.key()?))
    }

    pub(super) fn modulator_id(&mut self) -> Option<ModulatorId> {
        Some(ModulatorId(self.key()?))
    }

    pub(super) fn speed(&mut self) -> Option<ClockSpeed> {
        match self.word()? {
            "spt" => Some(ClockSpeed::SecondsPerTick(self.float()?)),
            "tps" => Some(ClockSpeed::TicksPerSecond(self.float()?)),
            "tpm" => Some(ClockSpeed::TicksPerMinute(self.float()?)),
            _ => None,
        }
    }

    pub(super) fn easing(&mut self) -> Option<Easing> {
        match self.word()? {
            "lin" => Some(Easing::Linear),
            "in" => Some(Easing::InPowi(self.power()?)),
            "out" => Some(Easing::OutPowi(self.power()?)),
            "io" => Some(Easing::InOutPowi(self.power()?)),
            _ => None,
        }
    }

    /// A power that the original cannot hold is refused as every other power over 16.
    fn power(&mut self) -> Option<i32> {
        let power = self.number_up_to(u32::MAX.into())?;
        Some(i32::try_from(power).unwrap_or(i32::MAX))
    }

    pub(super) fn clock_time(&mut self) -> Option<ClockTime> {
        Some(ClockTime {
            clock: self.clock_id()?,
            ticks: self.number()?,
            fraction: self.float()?,
        })
    }

    pub(super) fn start(&mut self) -> Option<StartTime> {
        match self.word()? {
            "imm" => Some(StartTime::Immediate),
            "del" => Some(StartTime::Delayed(self.nanoseconds()?)),
            "clk" => Some(StartTime::ClockTime(self.clock_time()?)),
            _ => None,
        }
    }

    pub(super) fn tween(&mut self) -> Option<Tween> {
        Some(Tween {
            start_time: self.start()?,
            duration: self.nanoseconds()?,
            easing: self.easing()?,
        })
    }

    pub(super) fn float_mapping(&mut self) -> Option<Mapping<f64>> {
        Some(Mapping {
            input_range: (self.float()?, self.float()?),
            output_range: (self.float()?, self.float()?),
            easing: self.easing()?,
        })
    }

    pub(super) fn speed_mapping(&mut self) -> Option<Mapping<ClockSpeed>> {
        Some(Mapping {
            input_range: (self.float()?, self.float()?),
            output_range: (self.speed()?, self.speed()?),
            easing: self.easing()?,
        })
    }

    pub(super) fn float_value(&mut self) -> Option<Value<f64>> {
        match self.word()? {
            "fix" => Some(Value::Fixed(self.float()?)),
            "mod" => Some(Value::FromModulator {
                id: self.modulator_id()?,
                mapping: self.float_mapping()?,
            }),
            _ => None,
        }
    }

    pub(super) fn speed_value(&mut self) -> Option<Value<ClockSpeed>> {
        match self.word()? {
            "fix" => Some(Value::Fixed(self.speed()?)),
            "mod" => Some(Value::FromModulator {
                id: self.modulator_id()?,
                mapping: self.speed_mapping()?,
            }),
            _ => None,
        }
    }

    pub(super) fn waveform(&mut self) -> Option<Waveform> {
        match self.word()? {
            "tri" => Some(Waveform::Triangle),
            "saw" => Some(Waveform::Saw),
            "pul" => Some(Waveform::Pulse {
                width: self.float()?,
            }),
            _ => None,
        }
    }
}

fn hex_digit(byte: u8) -> Option<u64> {
    match byte {
        b'0'..=b'9' => Some(u64::from(byte - b'0')),
        b'a'..=b'f' => Some(u64::from(byte - b'a') + 10),
        _ => None,
    }
}

/// A u64 without leading zeros. Rust's own parser would take a sign and zeros too.
fn decimal(text: &str) -> Option<u64> {
    let digits_only = text.bytes().all(|byte| byte.is_ascii_digit());
    let leading_zero = text.len() > 1 && text.starts_with('0');
    if !digits_only || leading_zero {
        return None;
    }
    text.parse().ok()
}

#[cfg(test)]
mod tests {
    use super::*;

    fn words(line: &str) -> Words<'_> {
        Words::of(line.as_bytes())
    }

    #[test]
    fn words_are_separated_by_blanks_alone() {
        let mut line = words("  a   b\tc ");
        assert_eq!(line.word(), Some("a"));
        assert_eq!(line.end(), None);
        assert_eq!(line.word(), Some("b\tc"));
        assert_eq!(line.end(), Some(()));
        assert_eq!(line.word(), None);
    }

    #[test]
    fn a_double_is_sixteen_lower_case_digits() {
        assert_eq!(words("3ff8000000000000").float(), Some(1.5));
        for wrong in [
            "3FF8000000000000",
            "3ff800000000000",
            "3ff80000000000000",
            "+ff8000000000000",
        ] {
            assert_eq!(words(wrong).float(), None);
        }
        let nan = words("fff0000000000001").float().map(f64::to_bits);
        assert_eq!(nan, Some(f64::NAN.to_bits()));
    }

    #[test]
    fn a_number_has_no_sign_and_no_leading_zero() {
        assert_eq!(words("0").number(), Some(0));
        assert_eq!(words("18446744073709551615").number(), Some(u64::MAX));
        for wrong in ["00", "01", "+1", "-1", "18446744073709551616", "1a", "1.0"] {
            assert_eq!(words(wrong).number(), None);
        }
    }

    #[test]
    fn an_id_is_two_numbers_of_32_bits() {
        let last = ClockId(Key::new(u32::MAX, u32::MAX));
        assert_eq!(words("4294967295:4294967295").clock_id(), Some(last));
        for wrong in [
            "1",
            "1:",
            ":1",
            "1:2:3",
            "01:1",
            "4294967296:1",
            "1:4294967296",
            "1 :1",
        ] {
            assert_eq!(words(wrong).clock_id(), None);
        }
    }

    #[test]
    fn a_power_has_32_bits() {
        assert_eq!(words("io 3").easing(), Some(Easing::InOutPowi(3)));
        assert!(words("in 4294967295").easing().is_some());
        assert_eq!(words("in 4294967296").easing(), None);
        assert_eq!(words("in").easing(), None);
    }
}
