//! How a record is written.

pub(crate) fn record(op: &str, slot: usize, generation: u64, arg: f64) -> Vec<u8> {
    let arg = arg.to_bits();
    format!("op={op}\nslot={slot}\ngen={generation}\narg={arg:016x}\n").into_bytes()
}
