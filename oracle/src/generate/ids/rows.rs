//! The fixed lines on ids: every call on every id at the borders of what a table has given.

const CLOCK: &str = "clock.add fix tps 4014000000000000";
const TWEENER: &str = "tweener.add 3fe0000000000000";
const LFO: &str =
    "lfo.add saw fix 3fe0000000000000 fix 3ff0000000000000 fix 0000000000000000 0000000000000000";

/// What is added to each table, in this order. The modulators' slots 1 and 2 have had both kinds.
const ADDS: [(&str, [&str; 7]); 2] = [
    ("clock", [CLOCK; 7]),
    ("mod", [TWEENER, TWEENER, LFO, TWEENER, TWEENER, LFO, LFO]),
];

/// Each used slot at its borders, and slots that were never used or are none.
const IDS: &str = "0:0 0:1 0:4294967294 0:4294967295 1:0 1:1 1:2 1:3 1:4 1:4294967295 2:0 2:1 2:2 2:3 2:4294967295 \
    3:0 3:1 3:2 4:0 4:1 15:0 15:1 16:0 16:1 17:1 4294967295:0 4294967295:1 4294967295:4294967295";

/// Words of the calls below, and the mappings that they stand for: good ones, and ones whose input range has no length.
const MAPPINGS: [(&str, &str); 4] = [
    (
        "FMAP",
        "bff0000000000000 3ff0000000000000 0000000000000000 4024000000000000 lin",
    ),
    (
        "SMAP",
        "bff0000000000000 3ff0000000000000 tps 3ff0000000000000 tps 4000000000000000 lin",
    ),
    (
        "FBAD",
        "0000000000000000 8000000000000000 0000000000000000 4024000000000000 lin",
    ),
    (
        "SBAD",
        "3fe0000000000000 3fe0000000000000 tps 3ff0000000000000 tps 4000000000000000 lin",
    ),
];

/// Every call that acts on an id. Where one has more arguments it is asked with good ones and with bad ones: the id
/// is judged before them.
const CALLS: [&str; 31] = [
    "clock.drop ID",
    "clock.start ID",
    "clock.stop ID",
    "clock.reset ID",
    "clock.time ID",
    "clock.ticking ID",
    "clock.getspeed ID",
    "clock.report ID 96",
    "clock.report ID 95",
    "clock.preset ID 7 3fe0000000000000",
    "clock.preset ID 7 3ff0000000000000",
    "clock.speed ID fix tps 4000000000000000 imm 0 lin",
    "clock.speed ID fix spt 0000000000000000 imm 86400000000001 in 0",
    "clock.speed ID mod 1:3 SBAD imm 0 lin",
    "mod.drop ID",
    "mod.value ID",
    "tweener.set ID 4000000000000000 imm 1000000000 lin",
    "tweener.set ID 7ff8000000000000 imm 86400000000001 in 0",
    "lfo.freq ID fix 4000000000000000 imm 0 lin",
    "lfo.freq ID fix 7ff0000000000000 del 86400000000001 0 lin",
    "lfo.freq ID mod 1:3 FBAD imm 0 lin",
    "lfo.amp ID fix 4000000000000000 imm 0 lin",
    "lfo.amp ID fix 4000000000000000 imm 0 in 17",
    "lfo.amp ID mod 1:3 FBAD imm 0 lin",
    "lfo.off ID fix 4000000000000000 imm 0 lin",
    "lfo.off ID fix 4000000000000000 clk 1:3 0 8000000000000000 0 lin",
    "lfo.off ID mod 1:3 FBAD imm 0 lin",
    "lfo.wave ID tri",
    "lfo.wave ID pul 7ff8000000000000",
    "lfo.phase ID 3ff0000000000000",
    "lfo.phase ID 7ff8000000000000",
];

/// What the links find: two clocks that tick, so that a wait for an older one shows.
const TICKING: [&str; 3] = [
    "clock.start 1:3",
    "clock.start 3:1",
    "frame 3fd0000000000000",
];

/// What may name any id, and is not refused for it. What waits or follows is first put to another value than the one
/// that it goes to, so that a value that is kept shows.
const LINKS: [&str; 25] = [
    "when ID 0 0000000000000000",
    "start.up clk ID 0 0000000000000000 3fd0000000000000",
    "val.raw mod ID FMAP",
    "sval.raw mod ID SMAP",
    "fp.new 0 fix 0000000000000000 0000000000000000",
    "fp.set 0 fix 4020000000000000 clk ID 0 0000000000000000 0 lin",
    "fp.up 0 3fd0000000000000",
    "fp.new 1 mod ID FMAP 4034000000000000",
    "fp.up 1 3fd0000000000000",
    "sp.new 0 fix tps 4014000000000000 tps 4014000000000000",
    "sp.set 0 mod ID SMAP imm 0 lin",
    "sp.up 0 3fd0000000000000",
    "sp.new 1 mod ID SMAP tps 4014000000000000",
    "sp.up 1 3fd0000000000000",
    "tweener.set 1:3 3fe0000000000000 imm 0 lin",
    "clock.speed 3:1 fix tps 4014000000000000 imm 0 lin",
    "lfo.off 3:1 fix 4034000000000000 imm 0 lin",
    "frame 3fd0000000000000",
    "tweener.set 1:3 4000000000000000 clk ID 0 0000000000000000 0 lin",
    "clock.speed 3:1 mod ID SMAP imm 0 lin",
    "lfo.off 3:1 mod ID FMAP imm 0 lin",
    "frame 3fd0000000000000",
    "mod.value 1:3",
    "clock.getspeed 3:1",
    "mod.value 3:1",
];

/// What follows an id from its add on. Both adds give 2:3, and the slot is then put back to where it was.
const ADDED: [&str; 9] = [
    "clock.add mod ID SMAP",
    "lfo.add saw mod ID FMAP mod ID FMAP mod ID FMAP 0000000000000000",
    "frame 3fd0000000000000",
    "clock.getspeed 2:3",
    "mod.value 2:3",
    "clock.drop 2:3",
    "clock.gen 2:2",
    "mod.drop 2:3",
    "mod.gen 2:2",
];

/// A free slot's generation goes up and down, and is asked for on both sides of where it stands. TABLE is a table's
/// name, ADD adds to it and ASK reads an id of it.
const SET: &str = "new, TABLE.gen 0:5, ASK 0:0, ASK 0:1, ASK 0:5, ASK 0:6, ADD, ASK 0:5, ASK 0:6, ASK 0:7, \
    TABLE.gen 0:9, ASK 0:7, ASK 0:9, TABLE.drop 0:6, ASK 0:6, TABLE.gen 0:2, ASK 0:2, ASK 0:3, ASK 0:6, ADD, \
    TABLE.drop 0:3, ASK 0:3, ASK 0:4, TABLE.gen 0:0, ASK 0:0, ASK 0:1, TABLE.gen 0:4294967295, ASK 0:0, ASK 0:1, \
    ASK 0:4294967295, ADD, ASK 1:1, TABLE.gen 0:1, ASK 0:1, ASK 0:2, ADD, ASK 0:2, TABLE.gen 15:3, ASK 15:3, \
    ASK 15:4, TABLE.gen 16:3, ASK 16:3, TABLE.gen 4294967295:3, ASK 4294967295:3, frame 3fd0000000000000";

/// Each call on a station of its own, since a drop changes what lives.
pub(super) fn all() -> Vec<String> {
    let mut lines = Vec::new();
    for call in CALLS {
        lines.extend(setup());
        lines.extend(IDS.split(' ').map(|id| written(call, id)));
        lines.push("frame 3fd0000000000000".to_string());
    }
    lines.extend(setup());
    lines.extend(TICKING.map(str::to_string));
    for id in IDS.split(' ') {
        lines.extend(LINKS.map(|form| written(form, id)));
        lines.extend(ADDED.map(|form| written(form, id)));
    }
    for (table, add, ask) in [
        ("clock", CLOCK, "clock.time"),
        ("mod", TWEENER, "mod.value"),
    ] {
        let set = SET.replace("TABLE", table).replace("ADD", add);
        lines.extend(set.replace("ASK", ask).split(", ").map(str::to_string));
    }
    lines
}

/// A form with an id and its mappings in place.
fn written(form: &str, id: &str) -> String {
    let put = |line: String, (word, mapping): &(&str, &str)| line.replace(word, mapping);
    MAPPINGS.iter().fold(form.replace("ID", id), put)
}

/// Both tables alike: slot 0 is retired, 1 is used for the third time, 2 is free after two times, 3 is used for the
/// first time, 4 was never used.
fn setup() -> Vec<String> {
    let mut lines = vec!["new".to_string()];
    for (table, adds) in ADDS {
        let [last, first, second, third, fourth, fifth, sixth] = adds.map(str::to_string);
        let drop = |id| format!("{table}.drop {id}");
        lines.extend([
            format!("{table}.gen 0:4294967294"),
            last,
            drop("0:4294967295"),
        ]);
        lines.extend([first, drop("1:1"), second, drop("1:2"), third]);
        lines.extend([fourth, drop("2:1"), fifth, sixth, drop("2:2")]);
    }
    lines
}
