//! The same, but a power is the product of its factors from left to right.

include!("modules.rs");

mod power;
#[allow(dead_code)]
#[path = "product/tween.rs"]
mod tween;
