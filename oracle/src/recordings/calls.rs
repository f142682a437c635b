//! Recordings of whole records: what each call accepts and refuses, and in which order.

use crate::{
    doubles::{above, below},
    made::record,
    recording::MOST,
};

const LARGEST: u64 = 4_294_967_295;
const SLOTS: usize = 16;

pub(crate) fn all() -> Vec<Vec<u8>> {
    let parts = [
        short(),
        frames(),
        speeds(),
        ids(),
        tables(),
        too_far(),
        orders(),
    ];
    parts.concat()
}

fn add(slot: usize) -> Vec<u8> {
    record("add", slot, 1, 5.0)
}

fn start(slot: usize) -> Vec<u8> {
    record("start", slot, 1, 0.0)
}

/// The first records one by one, and each op on a station with a ticking clock.
fn short() -> Vec<Vec<u8>> {
    let run = [add(0), start(0), record("frame", 0, 0, 0.5)];
    let mut made: Vec<Vec<u8>> = (0..=run.len()).map(|count| run[..count].concat()).collect();
    for op in ["drop", "start", "stop", "reset", "speed", "frame"] {
        let generation = u64::from(op != "frame");
        let last = record(op, 0, generation, 0.0);
        made.push(last.clone());
        made.push([run.concat(), last.clone()].concat());
        made.push([run.concat(), last, record("frame", 0, 0, 0.25)].concat());
    }
    made
}

fn frames() -> Vec<Vec<u8>> {
    let limits = [60.0, 0.0, f64::MIN_POSITIVE, 1.0 / 3.0];
    let mut dts: Vec<f64> = limits
        .into_iter()
        .flat_map(crate::doubles::around)
        .collect();
    dts.extend([61.0, f64::MAX, f64::INFINITY, f64::NEG_INFINITY]);
    dts.extend([0x7ff8u64, 0xfff8, 0x7ff4].map(|top| f64::from_bits(top << 48 | 1)));
    let frames = dts.into_iter().map(|dt| record("frame", 0, 0, dt));
    frames
        .flat_map(|frame| {
            let run = [add(0), start(0), frame.clone(), record("frame", 0, 0, 0.5)];
            [frame, run.concat()]
        })
        .collect()
}

fn speeds() -> Vec<Vec<u8>> {
    let limits = [0.0, 1.0 / 1_048_576.0, 1_048_576.0, 1_000.0 / 3.0];
    let mut speeds: Vec<f64> = limits
        .into_iter()
        .flat_map(crate::doubles::around)
        .collect();
    speeds.extend([
        f64::MAX,
        f64::INFINITY,
        f64::NEG_INFINITY,
        f64::NAN,
        -f64::NAN,
    ]);
    let frame = record("frame", 0, 0, 1.0 / 32.0);
    let mut made = Vec::new();
    for speed in speeds {
        let (added, set) = (record("add", 0, 1, speed), record("speed", 0, 1, speed));
        made.push([added, start(0), frame.clone(), frame.clone()].concat());
        made.push([add(0), start(0), set.clone(), frame.clone()].concat());
        made.push([add(0), start(0), frame.clone(), set].concat());
    }
    made
}

/// Every op with ids that live, were dropped, or were never given: 0 lives for the second time and 1 for the first, and
/// 2 was dropped twice.
fn ids() -> Vec<Vec<u8>> {
    let again = |slot| [record("drop", slot, 1, 0.0), record("add", slot, 2, 5.0)].concat();
    let dropped = record("drop", 2, 2, 0.0);
    let station = [add(0), again(0), add(1), add(2), again(2), dropped].concat();
    let mut made = Vec::new();
    for op in ["add", "drop", "start", "stop", "reset", "speed"] {
        for slot in [0, 1, 2, 3, 15] {
            for generation in [0, 1, 2, 3, LARGEST] {
                let last = record(op, slot, generation, 0.0);
                made.push([station.clone(), last].concat());
            }
        }
    }
    made
}

/// Sixteen clocks, the seventeenth, and slots that are used again.
fn tables() -> Vec<Vec<u8>> {
    let full: Vec<u8> = (0..SLOTS).flat_map(add).collect();
    let mut made = vec![full.clone()];
    for (slot, generation) in [(0, 1), (0, 2), (15, 1), (15, 2), (0, 0), (9, LARGEST)] {
        let last = record("add", slot, generation, 1.0);
        made.push([full.clone(), last].concat());
    }
    for slot in 0..SLOTS {
        let other = (slot + 5) % SLOTS;
        let dropped = [record("drop", slot, 1, 0.0), record("drop", other, 1, 0.0)].concat();
        made.push([full.clone(), dropped.clone()].concat());
        let (low, high) = (slot.min(other), slot.max(other));
        let again = [record("add", low, 2, 2.0), record("add", high, 2, 3.0)].concat();
        made.push([full.clone(), dropped.clone(), again.clone()].concat());
        made.push([full.clone(), dropped.clone(), again, start(slot)].concat());
        let wrong = record("add", high, 2, 3.0);
        made.push([full.clone(), dropped, wrong].concat());
    }
    let cycle = |generation| {
        let drop = record("drop", 0, generation, 0.0);
        [record("add", 0, generation, 1.0), drop].concat()
    };
    let cycles: Vec<u8> = (1..=300).flat_map(cycle).collect();
    made.push(cycles.clone());
    made.push([cycles, record("add", 0, 301, 1.0)].concat());
    made
}

/// One clock's advance is at its limit or above it, after others have moved in the same frame.
fn too_far() -> Vec<Vec<u8>> {
    let fast = 1_048_576.0;
    let mut made = Vec::new();
    for slot in [0, 1, 3, 7] {
        let others: Vec<u8> = (0..slot)
            .flat_map(|i| [add(i), start(i)].concat())
            .collect();
        let clock = [record("add", slot, 1, fast), start(slot)].concat();
        let later = [add(slot + 1), start(slot + 1)].concat();
        let station = [others, clock, later].concat();
        let half = record("speed", slot, 1, fast / 2.0);
        for dt in [below(0.0625), 0.0625, above(0.0625), 60.0] {
            let frame = record("frame", 0, 0, dt);
            made.push([station.clone(), frame.clone()].concat());
            made.push([station.clone(), frame.clone(), frame.clone()].concat());
            made.push([station.clone(), half.clone(), frame.clone()].concat());
            made.push([station.clone(), record("stop", slot, 1, 0.0), frame].concat());
        }
    }
    made
}

/// A refusal is followed by others, and the first is the answer. One station has room, so that an add gives another id
/// than its record has, and one has none; on both the first clock goes too far in a minute, and 1:1 is dead.
fn orders() -> Vec<Vec<u8>> {
    let fast = [record("add", 0, 1, 1_048_576.0), start(0)].concat();
    let fast = [fast, add(1), record("drop", 1, 1, 0.0)].concat();
    let again = record("add", 1, 2, 5.0);
    let full = [fast.clone(), again, (2..SLOTS).flat_map(add).collect()].concat();
    let refused = [
        record("frame", 0, 0, -0.0),
        record("frame", 0, 0, 60.0),
        record("add", 5, 9, f64::NAN),
        record("speed", 5, 9, f64::NAN),
        record("speed", 1, 1, f64::NAN),
        record("speed", 0, 1, f64::NAN),
        record("stop", 5, 9, 0.0),
        record("stop", 1, 1, 0.0),
        record("add", 5, 9, 1.0),
        b"op=stop\nslot=5\ngen=9\narg=0000000000000001\n".to_vec(),
        b"op=add\nslot=5\ngen=9\narg=7FF8000000000000\n".to_vec(),
        b"op=add\nslot=5\ngen=09\narg=7ff8000000000000\n".to_vec(),
        b"op=frame\nslot=5\ngen=0\narg=7ff8000000000000\n".to_vec(),
        b"\n".to_vec(),
        b"op=fr".to_vec(),
    ];
    let mut made = Vec::new();
    for station in [fast, full] {
        for first in &refused {
            for second in &refused {
                made.push([&station[..], first, second].concat());
            }
            // However early it comes, the length is judged before it.
            for length in [MOST, MOST + 1] {
                let mut long = [&station[..], first].concat();
                long.resize(length, b'\n');
                made.push(long);
            }
        }
    }
    made
}
