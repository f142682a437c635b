//! Answers as text.

use crate::{
    Easing, StartTime, Tween, Value,
    clock::{ClockSpeed, ClockTime},
    value::Mapping,
};

/// A double's bits; the one NaN has one pattern.
pub(super) fn float(x: f64) -> String {
    let bits = if x.is_nan() {
        0x7ff8_0000_0000_0000
    } else {
        x.to_bits()
    };
    format!("{bits:016x}")
}

pub(super) fn speed(speed: ClockSpeed) -> String {
    match speed {
        ClockSpeed::SecondsPerTick(x) => format!("spt {}", float(x)),
        ClockSpeed::TicksPerSecond(x) => format!("tps {}", float(x)),
        ClockSpeed::TicksPerMinute(x) => format!("tpm {}", float(x)),
    }
}

fn easing(easing: Easing) -> String {
    match easing {
        Easing::Linear => "lin".to_string(),
        Easing::InPowi(power) => format!("in {power}"),
        Easing::OutPowi(power) => format!("out {power}"),
        Easing::InOutPowi(power) => format!("io {power}"),
        Easing::InPowf(_) | Easing::OutPowf(_) | Easing::InOutPowf(_) => {
            unreachable!("the grammar has no such easing")
        }
    }
}

pub(super) fn id(key: atomic_arena::Key) -> String {
    format!("{}:{}", key.slot(), key.generation())
}

/// Ticks and fraction, without the clock.
pub(super) fn time(time: ClockTime) -> String {
    format!("{} {}", time.ticks, float(time.fraction))
}

pub(super) fn start(start: StartTime) -> String {
    match start {
        StartTime::Immediate => "imm".to_string(),
        StartTime::Delayed(delay) => format!("del {}", delay.as_nanos()),
        StartTime::ClockTime(at) => format!("clk {} {}", id(at.clock.0), time(at)),
    }
}

pub(super) fn tween(tween: Tween) -> String {
    let duration = tween.duration.as_nanos();
    format!(
        "{} {duration} {}",
        start(tween.start_time),
        easing(tween.easing)
    )
}

pub(super) fn float_mapping(mapping: Mapping<f64>) -> String {
    let (in_low, in_high) = mapping.input_range;
    let (out_low, out_high) = mapping.output_range;
    let ends = [in_low, in_high, out_low, out_high].map(float).join(" ");
    format!("{ends} {}", easing(mapping.easing))
}

pub(super) fn float_value(value: Value<f64>) -> String {
    match value {
        Value::Fixed(x) => format!("fix {}", float(x)),
        Value::FromModulator { id: link, mapping } => {
            format!("mod {} {}", id(link.0), float_mapping(mapping))
        }
        Value::FromListenerDistance(_) => unreachable!("the grammar has no such value"),
    }
}
