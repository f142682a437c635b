//! The calls `f.*` on any double.

use super::{Family, doubles};

const CALLS: [&str; 5] = ["f.trunc", "f.fract", "f.ceil", "f.abs", "f.clamp"];

pub(super) fn family() -> Family {
    let limits = [doubles::corners(), doubles::halves(), doubles::powers()].concat();
    let every_call = |x: f64| CALLS.map(|call| line(call, x));
    Family {
        limits: limits.into_iter().flat_map(every_call).collect(),
        random: Box::new(|random| line(random.pick(&CALLS), doubles::any(random))),
    }
}

fn line(call: &str, x: f64) -> String {
    format!("{call} {}", doubles::word(x))
}
