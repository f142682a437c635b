//! Easing, interpolation, waves, the default tween and a duration's seconds.

use crate::{Tween, Tweenable};

use super::{give, judge, show, words::Words};

pub(super) fn answer(call: &str, words: Words) -> Option<String> {
    match call {
        "ease" => ease(words),
        "lerp" => lerp(words),
        "wave" => wave(words),
        "tween.default" => default_tween(words),
        "dur.secs" => seconds(words),
        _ => None,
    }
}

fn ease(mut words: Words) -> Option<String> {
    let (easing, x) = (words.easing()?, words.float()?);
    words.end()?;
    let faults = judge::easing(easing) | judge::float(x);
    give(faults, || show::float(easing.apply(x)))
}

fn lerp(mut words: Words) -> Option<String> {
    let (a, b, amount) = (words.float()?, words.float()?, words.float()?);
    words.end()?;
    let faults = judge::float(a) | judge::float(b) | judge::float(amount);
    give(faults, || show::float(f64::interpolate(a, b, amount)))
}

fn wave(mut words: Words) -> Option<String> {
    let (waveform, phase) = (words.waveform()?, words.float()?);
    words.end()?;
    let faults = judge::waveform(waveform) | judge::float(phase);
    give(faults, || show::float(waveform.at(phase)))
}

fn default_tween(words: Words) -> Option<String> {
    words.end()?;
    Some(show::tween(Tween::default()))
}

fn seconds(mut words: Words) -> Option<String> {
    let duration = words.nanoseconds()?;
    words.end()?;
    give(judge::duration(duration), || {
        show::float(duration.as_secs_f64())
    })
}
