//! The calls `f.*`: Rust's own methods, on any double.

use super::{show, words::Words};

pub(super) fn answer(call: &str, mut words: Words) -> Option<String> {
    let function: fn(f64) -> f64 = match call {
        "f.trunc" => f64::trunc,
        "f.fract" => f64::fract,
        "f.ceil" => f64::ceil,
        "f.abs" => f64::abs,
        "f.clamp" => |x| x.clamp(0.0, 1.0),
        _ => return None,
    };
    let x = words.float()?;
    words.end()?;
    Some(show::float(function(x)))
}
