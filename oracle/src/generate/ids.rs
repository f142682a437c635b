//! Ids that are dead, used again or foreign: clocks and modulators come and go in few slots, and about half of the
//! calls by an id name something else than what lives.

mod rows;

use std::{cell::RefCell, collections::VecDeque};

use super::{
    Family,
    grammar::Grammar,
    random::Random,
    table::{FRESH, Kind, SLOTS, Table, take},
};

/// Every call that acts on an id, by the kind that it acts on; both kinds of modulator have `mod.*`. MOD is a modulator
/// that a value follows, and may name any id. Starts come often: where a slot's clock ticks, a wait for an older one of
/// the slot must not begin.
const CLOCK_FORMS: [&str; 13] = [
    "clock.drop ID",
    "clock.start ID",
    "clock.start ID",
    "clock.start ID",
    "clock.stop ID",
    "clock.reset ID",
    "clock.time ID",
    "clock.ticking ID",
    "clock.getspeed ID",
    "clock.report ID LENGTH",
    "clock.preset ID TICKS FRACTION",
    "clock.speed ID fix SPEED TWEEN",
    "clock.speed ID mod MOD SMAP TWEEN",
];
const TWEENER_FORMS: [&str; 3] = ["mod.drop ID", "mod.value ID", "tweener.set ID FLOAT TWEEN"];
const LFO_FORMS: [&str; 10] = [
    "mod.drop ID",
    "mod.value ID",
    "lfo.freq ID fix FLOAT TWEEN",
    "lfo.amp ID fix FLOAT TWEEN",
    "lfo.off ID fix FLOAT TWEEN",
    "lfo.freq ID mod MOD FMAP TWEEN",
    "lfo.amp ID mod MOD FMAP TWEEN",
    "lfo.off ID mod MOD FMAP TWEEN",
    "lfo.wave ID WAVE",
    "lfo.phase ID FLOAT",
];

/// What is added. The input ends of what follows a modulator are never the same: an add that is refused would leave the
/// picture wrong.
const CLOCK_ADDS: [&str; 3] = [
    "clock.add fix tps PACE",
    "clock.add fix tps PACE",
    "clock.add mod MOD bff0000000000000 3ff0000000000000 tps PACE tps PACE EASE",
];
const TWEENER_ADDS: [&str; 1] = ["tweener.add FLOAT"];
const LFO_ADDS: [&str; 3] = [
    "lfo.add WAVE fix FLOAT fix FLOAT fix FLOAT FLOAT",
    "lfo.add WAVE fix FLOAT fix FLOAT fix FLOAT FLOAT",
    "lfo.add WAVE mod MOD bff0000000000000 3ff0000000000000 FLOAT FLOAT EASE fix FLOAT fix FLOAT FLOAT",
];

/// What may name any id and is not refused for it, by what it names, and what shows that it waits or follows.
const LINK_FORMS: [(Kind, &str); 14] = [
    (Kind::Clock, "when ID TICKS FRACTION"),
    (Kind::Clock, "start.up clk ID TICKS FRACTION DT"),
    (
        Kind::Clock,
        "fp.set 0 fix FLOAT clk ID TICKS FRACTION NS EASE",
    ),
    (
        Kind::Clock,
        "sp.set 0 fix SPEED clk ID TICKS FRACTION NS EASE",
    ),
    (Kind::Lfo, "val.raw mod ID FMAP"),
    (Kind::Tweener, "sval.raw mod ID SMAP"),
    (Kind::Lfo, "fp.set 1 mod ID FMAP imm NS EASE"),
    (Kind::Tweener, "sp.set 1 mod ID SMAP imm NS EASE"),
    (Kind::Tweener, "fp.new 1 mod ID FMAP FLOAT"),
    (Kind::Lfo, "sp.new 1 mod ID SMAP SPEED"),
    (Kind::Clock, "fp.up 0 DT"),
    (Kind::Clock, "sp.up 0 DT"),
    (Kind::Lfo, "fp.up 1 DT"),
    (Kind::Lfo, "sp.up 1 DT"),
];

/// About how many random calls one station sees, so that its slots are used several times.
const LINES_TOGETHER: u64 = 400;

pub(super) fn family(powers: u64) -> Family {
    let ids = RefCell::new(Ids {
        grammar: Grammar { powers, near: true },
        clocks: FRESH,
        modulators: FRESH,
        lines: VecDeque::new(),
        left: 0,
    });
    Family {
        limits: rows::all(),
        random: Box::new(move |random| ids.borrow_mut().line(random)),
    }
}

/// A slot and a generation.
type Id = (u32, u32);

struct Ids {
    grammar: Grammar,
    clocks: Table,
    modulators: Table,
    lines: VecDeque<String>,
    /// How many calls the present station still sees.
    left: u64,
}

impl Ids {
    fn line(&mut self, random: &mut Random) -> String {
        if self.left == 0 {
            self.begin(random);
        }
        self.left -= 1;
        match self.lines.pop_front() {
            Some(line) => line,
            None => self.step(random),
        }
    }

    /// A fresh station, and a few parameters that can wait and be linked.
    fn begin(&mut self, random: &mut Random) {
        self.clocks = FRESH;
        self.modulators = FRESH;
        self.left = LINES_TOGETHER / 2 + random.below(LINES_TOGETHER);
        let first = [
            "new",
            "fp.new 0 fix FLOAT FLOAT",
            "fp.new 1 fix FLOAT FLOAT",
            "sp.new 0 fix tps PACE tps PACE",
            "sp.new 1 fix tps PACE tps PACE",
        ];
        self.lines = VecDeque::from(first.map(|form| self.accepted(form, random)));
    }

    fn step(&mut self, random: &mut Random) -> String {
        let kind = random.pick(&[Kind::Clock, Kind::Clock, Kind::Tweener, Kind::Lfo]);
        match random.below(24) {
            0..=5 => self.come_or_go(kind, random),
            6 => self.set_generation(kind, random),
            7 | 8 => self.say("frame DT", random),
            9..=11 => self.link(random),
            _ => self.call(kind, random),
        }
    }

    /// A line of a form with no number at a limit, where a refusal would leave the picture wrong.
    fn accepted(&self, form: &str, random: &mut Random) -> String {
        self.grammar.random(form, u64::MAX, random)
    }

    /// A line of a form. In one of four many numbers are at a limit, since an id is judged before they are.
    fn say(&self, form: &str, random: &mut Random) -> String {
        let limit = random.pick(&[1000, 1000, 1000, 3]);
        self.grammar.random(form, limit, random)
    }

    /// The more live, the likelier one is dropped: few slots are in use, and each of them again and again.
    fn come_or_go(&mut self, kind: Kind, random: &mut Random) -> String {
        let living = self.living(kind);
        if random.below(10) < living.len() as u64 {
            let (slot, generation) = random.pick(&living);
            self.table_mut(kind)[slot as usize].kind = Kind::Empty;
            return format!("{}.drop {slot}:{generation}", name(kind));
        }
        let form = random.pick(match kind {
            Kind::Clock => &CLOCK_ADDS[..],
            Kind::Tweener => &TWEENER_ADDS[..],
            _ => &LFO_ADDS[..],
        });
        let form = self.followed(form, random);
        let given = take(self.table_mut(kind), kind);
        let line = self.accepted(&form, random);
        if let Some(id) = given.filter(|_| line.contains(" mod ")) {
            self.show(kind, id, random);
        }
        line
    }

    /// Mostly of the slot that the next add takes, so that what comes behind it is soon given.
    fn set_generation(&mut self, kind: Kind, random: &mut Random) -> String {
        let table = self.table_mut(kind);
        let free = table.iter().position(|slot| slot.kind == Kind::Empty);
        let slot = match free {
            Some(slot) if !random.chance(3) => slot,
            _ => random.index(SLOTS + 1),
        };
        let generation = match random.below(8) {
            0 => u32::MAX,
            1 => u32::MAX - 1,
            2 => random.next() as u32,
            _ => random.below(8) as u32,
        };
        let found = table.get_mut(slot);
        if let Some(found) = found.filter(|slot| slot.kind == Kind::Empty) {
            found.generation = generation;
        }
        format!("{}.gen {slot}:{generation}", name(kind))
    }

    fn call(&mut self, kind: Kind, random: &mut Random) -> String {
        let form = random.pick(match kind {
            Kind::Clock => &CLOCK_FORMS[..],
            Kind::Tweener => &TWEENER_FORMS[..],
            _ => &LFO_FORMS[..],
        });
        // A drop that is accepted is left to `come_or_go`, which keeps the picture right.
        let id = match form.ends_with("drop ID") {
            true => self.missing(kind, random),
            false => self.id(kind, random),
        };
        let form = self.followed(&form.replace("ID", &word(id)), random);
        if form.contains(" mod ") {
            self.show(kind, id, random);
        }
        self.say(&form, random)
    }

    /// The form with a modulator, of either kind, in the place of MOD.
    fn followed(&self, form: &str, random: &mut Random) -> String {
        let kind = random.pick(&[Kind::Tweener, Kind::Lfo]);
        form.replace("MOD", &word(self.id(kind, random)))
    }

    /// Behind a call that makes this follow something: a frame and a read, which show whether it does.
    fn show(&mut self, kind: Kind, id: Id, random: &mut Random) {
        let read = match kind {
            Kind::Clock => "clock.getspeed",
            _ => "mod.value",
        };
        self.lines.push_back(self.accepted("frame DT", random));
        self.lines.push_back(format!("{read} {}", word(id)));
    }

    /// What waits for a clock or follows a modulator, and what shows that it does.
    fn link(&self, random: &mut Random) -> String {
        let (kind, form) = random.pick(&LINK_FORMS);
        let id = self.id(kind, random);
        self.say(&form.replace("ID", &word(id)), random)
    }

    /// One of the kind that lives, in two of five; else any.
    fn id(&self, kind: Kind, random: &mut Random) -> Id {
        let living = self.living(kind);
        if living.is_empty() || random.below(5) > 1 {
            return self.strange(kind, random);
        }
        random.pick(&living)
    }

    /// One that is dead or was never given.
    fn missing(&self, kind: Kind, random: &mut Random) -> Id {
        loop {
            let (slot, generation) = self.strange(kind, random);
            let found = self.table(kind).get(slot as usize);
            let here = found.filter(|slot| slot.kind != Kind::Empty);
            if here.is_none_or(|slot| slot.generation != generation) {
                return (slot, generation);
            }
        }
    }

    fn strange(&self, kind: Kind, random: &mut Random) -> Id {
        match random.below(12) {
            0 => outside(random),
            1 | 2 => self.foreign(kind, random),
            _ => near(self.table(kind), random),
        }
    }

    /// One that lives as something else: in the other table, or as the other kind of modulator.
    fn foreign(&self, kind: Kind, random: &mut Random) -> Id {
        let others = match kind {
            Kind::Clock => [Kind::Tweener, Kind::Lfo],
            Kind::Tweener => [Kind::Clock, Kind::Lfo],
            _ => [Kind::Clock, Kind::Tweener],
        };
        let living = self.living(random.pick(&others));
        if living.is_empty() {
            return near(self.table(kind), random);
        }
        random.pick(&living)
    }

    /// The ids of a kind that live.
    fn living(&self, kind: Kind) -> Vec<Id> {
        let slots = (0..).zip(self.table(kind));
        let living = slots.filter(|(_, slot)| slot.kind == kind);
        living.map(|(i, slot)| (i, slot.generation)).collect()
    }

    fn table(&self, kind: Kind) -> &Table {
        match kind {
            Kind::Clock => &self.clocks,
            _ => &self.modulators,
        }
    }

    fn table_mut(&mut self, kind: Kind) -> &mut Table {
        match kind {
            Kind::Clock => &mut self.clocks,
            _ => &mut self.modulators,
        }
    }
}

fn word((slot, generation): Id) -> String {
    format!("{slot}:{generation}")
}

/// What the calls of a kind's table begin with.
fn name(kind: Kind) -> &'static str {
    match kind {
        Kind::Clock => "clock",
        _ => "mod",
    }
}

/// A slot at the table's end, or one that is none.
fn outside(random: &mut Random) -> Id {
    let slot = random.pick(&[15, 16, 17, u32::MAX]);
    (slot, random.pick(&[0, 1, 2, u32::MAX]))
}

/// Of a slot that has given something, but for a few: what it has given, in half of all, and the borders of that.
fn near(table: &Table, random: &mut Random) -> Id {
    let used: Vec<usize> = (0..SLOTS).filter(|&i| table[i].generation > 0).collect();
    let slot = match used.is_empty() || random.chance(8) {
        true => random.index(SLOTS),
        false => random.pick(&used),
    };
    let last = table[slot].generation;
    let generation = match random.below(12) {
        0 => 0,
        1 => last.saturating_add(1),
        2 => last.saturating_add(2 + random.below(1000) as u32),
        3 => u32::MAX - random.below(2) as u32,
        4 => 1,
        5 => last,
        _ => 1 + random.below(u64::from(last.max(1))) as u32,
    };
    (slot as u32, generation)
}
