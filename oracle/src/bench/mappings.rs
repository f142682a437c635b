//! The calls `map.*`, and the arithmetic of `val.*`.

use crate::{Value, value::Mapping};

use super::{give, judge, show, words::Words};

pub(super) fn answer(call: &str, words: Words) -> Option<String> {
    match call {
        "map.f" => map_float(words),
        "map.s" => map_speed(words),
        "map.neg" => negate_mapping(words),
        "val.neg" => negate_value(words),
        _ => match call.split_once('.')? {
            ("map", operation) => change_mapping(operation, words),
            ("val", operation) => change_value(operation, words),
            _ => None,
        },
    }
}

fn map_float(mut words: Words) -> Option<String> {
    let (mapping, input) = (words.float_mapping()?, words.float()?);
    words.end()?;
    let faults = judge::float_mapping(&mapping) | judge::float(input);
    give(faults, || show::float(mapping.map(input)))
}

fn map_speed(mut words: Words) -> Option<String> {
    let (mapping, input) = (words.speed_mapping()?, words.float()?);
    words.end()?;
    let faults = judge::speed_mapping(&mapping) | judge::float(input);
    give(faults, || show::speed(mapping.map(input)))
}

fn negate_mapping(mut words: Words) -> Option<String> {
    let mapping = words.float_mapping()?;
    words.end()?;
    let made = mapping.neg_output();
    let faults = judge::float_mapping(&mapping) | judge::float_mapping(&made);
    give(faults, || show::float_mapping(made))
}

fn change_mapping(operation: &str, mut words: Words) -> Option<String> {
    let change: fn(Mapping<f64>, f64) -> Mapping<f64> = match operation {
        "add" => Mapping::add_output,
        "sub" => Mapping::sub_output,
        "mul" => Mapping::mul_output,
        "div" => Mapping::div_output,
        "rem" => Mapping::rem_output,
        _ => return None,
    };
    let (mapping, x) = (words.float_mapping()?, words.float()?);
    words.end()?;
    // The ends made are judged as the ends given.
    let made = change(mapping, x);
    let faults = judge::float_mapping(&mapping) | judge::float(x) | judge::float_mapping(&made);
    give(faults, || show::float_mapping(made))
}

fn negate_value(mut words: Words) -> Option<String> {
    let value = words.float_value()?;
    words.end()?;
    let made = -value;
    let faults = judge::float_value(&value) | judge::float_value(&made);
    give(faults, || show::float_value(made))
}

fn change_value(operation: &str, mut words: Words) -> Option<String> {
    let change: fn(Value<f64>, f64) -> Value<f64> = match operation {
        "add" => |value, x| value + x,
        "sub" => |value, x| value - x,
        "mul" => |value, x| value * x,
        "div" => |value, x| value / x,
        "rem" => |value, x| value % x,
        _ => return None,
    };
    let (value, x) = (words.float_value()?, words.float()?);
    words.end()?;
    let made = change(value, x);
    let faults = judge::float_value(&value) | judge::float(x) | judge::float_value(&made);
    give(faults, || show::float_value(made))
}
