//! Short recordings with each of their bytes changed, deleted or doubled, and cut at each of them.

use crate::made::record;

/// What a byte becomes, beside its two neighbours.
const OTHERS: [u8; 8] = *b"\n0= \r\x00\xffx";

pub(crate) fn all() -> Vec<Vec<u8>> {
    let (add, frame) = (record("add", 0, 1, 5.0), record("frame", 0, 0, 0.5));
    let longest = record("speed", 15, 4_294_967_295, 5.0);
    let bases = [[add, frame].concat(), longest, record("stop", 0, 1, 0.0)];
    bases.iter().flat_map(|base| edited(base)).collect()
}

fn edited(base: &[u8]) -> Vec<Vec<u8>> {
    let mut made = Vec::new();
    for at in 0..base.len() {
        let (before, byte, after) = (&base[..at], base[at], &base[at + 1..]);
        let near = [byte.wrapping_sub(1), byte.wrapping_add(1)];
        let mut others = [&OTHERS[..], &near].concat();
        others.sort();
        others.dedup();
        others.retain(|other| *other != byte);
        made.extend(
            others
                .iter()
                .map(|other| [before, &[*other], after].concat()),
        );
        made.push([before, after].concat());
        made.push([before, &[byte, byte], after].concat());
        made.push(before.to_vec());
    }
    made
}
