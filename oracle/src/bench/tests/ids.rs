//! Ids that are dead and ids that were never given, in every call that acts on one.

use super::answers;

/// What a call is answered on a station that these lines have made.
fn after(lines: &str, call: &str) -> String {
    let mut all = answers(&format!("{lines}\n{call}"));
    all.pop().expect("the call is answered")
}

/// Rows of an id and its refusal's number, as in `0:1=7 0:2=0`; 0 stands for a call that is accepted. Each id is asked
/// for in the place of `ID`, on a station of its own.
fn refused(lines: &str, call: &str, rows: &str) {
    for row in rows.split_whitespace() {
        let (id, number) = row.split_once('=').expect("an id and a number");
        let answer = after(lines, &call.replace("ID", id));
        assert_ne!(answer, "error", "{call} {id}");
        let told = answer.strip_prefix("refused ");
        let told = told.map_or("0", |rest| rest.split(' ').next().unwrap_or(rest));
        assert_eq!(told, number, "{call} {id}");
    }
}

/// Slot 0 is used for the third time, slot 1 is free after two times, slots 2 and 3 were never used.
const CLOCKS: &str = "clock.add fix tps 4014000000000000
    clock.drop 0:1
    clock.add fix tps 4014000000000000
    clock.drop 0:2
    clock.add fix tps 4014000000000000
    clock.add fix tps 4014000000000000
    clock.drop 1:1
    clock.add fix tps 4014000000000000
    clock.drop 1:2";

/// The same of modulators, but that slot 2 has an LFO, and had a tweener. Slot 0 had a tweener and an LFO, and has a
/// tweener; slot 1 had a tweener and an LFO.
const MODULATORS: &str = "tweener.add 3ff0000000000000
    mod.drop 0:1
    lfo.add tri fix 3ff0000000000000 fix 3ff0000000000000 fix 0000000000000000 0000000000000000
    mod.drop 0:2
    tweener.add 3ff0000000000000
    tweener.add 3ff0000000000000
    mod.drop 1:1
    lfo.add tri fix 3ff0000000000000 fix 3ff0000000000000 fix 0000000000000000 0000000000000000
    tweener.add 3ff0000000000000
    mod.drop 2:1
    lfo.add tri fix 3ff0000000000000 fix 3ff0000000000000 fix 0000000000000000 0000000000000000
    mod.drop 1:2";

/// What is dead on both stations.
const DEAD: &str = "0:1=7 0:2=7 1:1=7 1:2=7";

/// What neither station has given: generation 0, one above the slot's own, slots that were never used or are none.
const NEVER: &str =
    "0:0=15 0:4=15 0:4294967295=15 1:0=15 1:3=15 3:0=15 3:1=15 3:4294967295=15 15:0=15 15:1=15
    16:0=15 16:1=15 17:1=15 4294967295:0=15 4294967295:1=15 4294967295:4294967295=15";

#[test]
fn every_call_on_a_clock_tells_the_dead_from_the_never_given() {
    let calls = [
        "clock.drop ID",
        "clock.start ID",
        "clock.stop ID",
        "clock.reset ID",
        "clock.speed ID fix tps 3ff0000000000000 imm 0 lin",
        "clock.time ID",
        "clock.ticking ID",
        "clock.getspeed ID",
        "clock.report ID 96",
        "clock.preset ID 5 0000000000000000",
    ];
    for call in calls {
        refused(CLOCKS, call, DEAD);
        refused(CLOCKS, call, NEVER);
        refused(CLOCKS, call, "0:3=0 2:1=15");
    }
}

/// A living modulator of the other kind was never given as one of this kind; a dead one is dead, whatever it was.
#[test]
fn every_call_on_a_modulator_tells_the_dead_from_the_never_given() {
    let (tweener, lfo, either) = ("0:3=0 2:2=15", "0:3=15 2:2=0", "0:3=0 2:2=0");
    let calls = [
        ("tweener.set ID 3ff0000000000000 imm 0 lin", tweener),
        ("lfo.freq ID fix 3ff0000000000000 imm 0 lin", lfo),
        ("lfo.amp ID fix 3ff0000000000000 imm 0 lin", lfo),
        ("lfo.off ID fix 3ff0000000000000 imm 0 lin", lfo),
        ("lfo.wave ID saw", lfo),
        ("lfo.phase ID 3ff0000000000000", lfo),
        ("mod.value ID", either),
        ("mod.drop ID", either),
    ];
    for (call, living) in calls {
        refused(MODULATORS, call, DEAD);
        refused(MODULATORS, call, NEVER);
        refused(MODULATORS, call, living);
        refused(MODULATORS, call, "2:1=7 2:3=15");
    }
}

/// Everything else that is wrong with these calls comes behind their ids.
#[test]
fn an_id_comes_before_all_else_that_is_wrong() {
    let clocks = [
        "clock.speed ID fix spt 0000000000000000 imm 86400000000001 in 0",
        "clock.speed ID mod 9:9 7ff8000000000000 0000000000000000 tps bff0000000000000 spt 3ff0000000000000 in 0 \
         clk 0:1 0 3ff0000000000000 0 lin",
        "clock.report ID 95",
        "clock.preset ID 0 3ff0000000000000",
    ];
    let modulators = [
        "tweener.set ID 7ff8000000000000 imm 86400000000001 in 0",
        "lfo.freq ID fix 7ff8000000000000 del 86400000000001 0 in 0",
        "lfo.amp ID mod 0:3 0000000000000000 0000000000000000 7ff0000000000000 0000000000000000 in 17 imm 0 lin",
        "lfo.off ID fix 3ff0000000000000 clk 0:1 0 8000000000000000 0 lin",
        "lfo.wave ID pul 7ff8000000000000",
        "lfo.phase ID 7ff8000000000000",
    ];
    for call in clocks {
        refused(CLOCKS, call, DEAD);
        refused(CLOCKS, call, NEVER);
    }
    for call in modulators {
        refused(MODULATORS, call, DEAD);
        refused(MODULATORS, call, NEVER);
    }
    refused(MODULATORS, modulators[0], "0:3=2 2:2=15");
    refused(MODULATORS, modulators[1], "0:3=15 2:2=2");
}

/// Each table, by the calls `.drop` and `.gen` of its name, and an add.
const TABLES: [(&str, &str); 2] = [
    ("clock", "clock.add fix tps 3ff0000000000000"),
    ("mod", "tweener.add 3ff0000000000000"),
];

#[test]
fn a_set_generation_makes_ids_that_count_as_given() {
    for (table, add) in TABLES {
        let drop = format!("{table}.drop ID");
        let up = format!("{table}.gen 0:5");
        refused(&up, &drop, "0:0=15 0:1=7 0:5=7 0:6=15 1:1=15");
        let used = format!("{up}\n{add}");
        refused(&used, &drop, "0:1=7 0:5=7 0:6=0 0:7=15");
        // An occupied slot keeps its generation.
        let kept = format!("{used}\n{table}.gen 0:9");
        refused(&kept, &drop, "0:6=0 0:7=15 0:9=15");
        let down = format!("{used}\n{table}.drop 0:6\n{table}.gen 0:2");
        refused(&down, &drop, "0:1=7 0:2=7 0:3=15 0:6=15");
        let again = format!("{down}\n{add}\n{table}.drop 0:3");
        refused(&again, &drop, "0:2=7 0:3=7 0:4=15 0:6=15");
        let none = format!("{again}\n{table}.gen 0:0");
        refused(&none, &drop, "0:0=15 0:1=15 0:3=15");
        let fresh = format!("{again}\nnew");
        refused(&fresh, &drop, "0:0=15 0:1=15 0:3=15");
    }
}

#[test]
fn a_retired_slot_has_given_every_generation_but_0() {
    for (table, add) in TABLES {
        let drop = format!("{table}.drop ID");
        let last = format!("{table}.gen 0:4294967294\n{add}");
        refused(&last, &drop, "0:0=15 0:4294967294=7 0:4294967295=0");
        let retired = format!("{last}\n{table}.drop 0:4294967295\n{add}");
        let rows = "0:0=15 0:1=7 0:4294967294=7 0:4294967295=7 1:0=15 1:1=0 1:2=15";
        refused(&retired, &drop, rows);
    }
}

/// What one table has given, the other has not.
#[test]
fn the_tables_give_their_ids_apart() {
    refused(CLOCKS, "mod.value ID", "0:1=15 0:3=15 1:2=15");
    refused(MODULATORS, "clock.time ID", "0:1=15 0:3=15 2:2=15");
    refused("clock.gen 0:5", "mod.value ID", "0:5=15");
    refused("mod.gen 0:5", "clock.time ID", "0:5=15");
}

/// A wait and a link may name any id, and take the dead and the never given alike.
#[test]
fn waits_and_links_are_never_refused_for_their_ids() {
    let ends = "0000000000000000 3ff0000000000000";
    let paces = "tps 3ff0000000000000 tps 4000000000000000";
    let rows = format!("{DEAD} {NEVER}");
    for row in rows.split_whitespace() {
        let (id, _) = row.split_once('=').expect("an id and a number");
        let when = after(CLOCKS, &format!("when {id} 0 0000000000000000"));
        assert_eq!(when, "never", "{id}");
        let start = format!("clk {id} 0 0000000000000000");
        let waits = after(CLOCKS, &format!("start.up {start} 3ff0000000000000"));
        assert_eq!(waits, format!("1 {start}"));
        let raw = after(MODULATORS, &format!("val.raw mod {id} {ends} {ends} lin"));
        assert_eq!(raw, "none", "{id}");
        let raw = after(MODULATORS, &format!("sval.raw mod {id} {ends} {paces} lin"));
        assert_eq!(raw, "none", "{id}");
        let made = "fp.new 0 fix 4000000000000000 4000000000000000";
        let set = format!("fp.set 0 fix 4020000000000000 {start} 0 lin");
        let lines = format!("{CLOCKS}\n{made}\n{set}");
        assert_eq!(
            after(&lines, "fp.up 0 3ff0000000000000"),
            "0 4000000000000000"
        );
    }
}
