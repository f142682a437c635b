//! The original, unmodified, behind the bench's lines of text.

include!("modules.rs");

#[allow(dead_code)]
mod tween;
