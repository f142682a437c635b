//! Whole runs of a station, as a shift makes them: many clocks and modulators that live, linked to each
//! other, tweens that wait for clocks and delays, a frame a beat, the parameters updated after it, and
//! motors that come and go. Most calls are accepted.

use std::{cell::RefCell, collections::VecDeque};

use super::{
    Family,
    grammar::Grammar,
    random::Random,
    table::{FRESH, Kind, SLOTS, Table, take},
};

/// About how many beats one station sees.
const BEATS: u64 = 120;

/// One number in this many is at a limit.
const LIMIT: u64 = 400;

/// One id in this many is an old one, or one that was never given.
const STRANGE: u64 = 16;

struct Shift {
    grammar: Grammar,
    clocks: Table,
    modulators: Table,
    lines: VecDeque<String>,
}

pub(super) fn family(powers: u64) -> Family {
    let grammar = Grammar { powers, near: true };
    let shift = RefCell::new(Shift {
        grammar,
        clocks: FRESH,
        modulators: FRESH,
        lines: VecDeque::new(),
    });
    Family {
        limits: vec!["new".to_string()],
        random: Box::new(move |random| shift.borrow_mut().line(random)),
    }
}

impl Shift {
    fn line(&mut self, random: &mut Random) -> String {
        while self.lines.is_empty() {
            if random.chance(BEATS) {
                self.begin(random);
            }
            self.beat(random);
        }
        self.lines.pop_front().expect("a line was made")
    }

    /// Makes a line of a form, its words in capitals at random.
    fn say(&mut self, form: &str, random: &mut Random) {
        let line = self.grammar.random(form, LIMIT, random);
        self.lines.push_back(line);
    }

    fn begin(&mut self, random: &mut Random) {
        self.clocks = FRESH;
        self.modulators = FRESH;
        self.lines.push_back("new".to_string());
        for _ in 0..1 + random.below(SLOTS as u64) {
            self.add_modulator(random);
        }
        for _ in 0..1 + random.below(SLOTS as u64) {
            self.add_clock(random);
        }
        for k in 0..SLOTS {
            self.make(k, random);
        }
    }

    /// An id of a slot of this kind; rarely another one.
    fn id(&self, clocks: bool, kind: Kind, random: &mut Random) -> String {
        let table = if clocks {
            &self.clocks
        } else {
            &self.modulators
        };
        let living: Vec<usize> = (0..SLOTS).filter(|&i| table[i].kind == kind).collect();
        if living.is_empty() || random.chance(STRANGE) {
            let slot = random.index(SLOTS + 1);
            let near = table.get(slot).map_or(1, |slot| slot.generation);
            return format!("{slot}:{}", (u64::from(near) + random.below(3)).saturating_sub(1));
        }
        let slot = living[random.index(living.len())];
        format!("{slot}:{}", table[slot].generation)
    }

    fn clock(&self, random: &mut Random) -> String {
        self.id(true, Kind::Clock, random)
    }

    fn modulator(&self, random: &mut Random) -> String {
        let kind = random.pick(&[Kind::Tweener, Kind::Lfo]);
        self.id(false, kind, random)
    }

    fn float_value(&self, random: &mut Random) -> String {
        if random.chance(2) {
            return "fix FLOAT".to_string();
        }
        format!("mod {} FMAP", self.modulator(random))
    }

    fn speed_value(&self, random: &mut Random) -> String {
        if random.chance(2) {
            return "fix SPEED".to_string();
        }
        format!("mod {} SMAP", self.modulator(random))
    }

    fn tween(&self, random: &mut Random) -> String {
        let start = match random.below(3) {
            0 => "imm".to_string(),
            1 => "del NS".to_string(),
            _ => format!("clk {} TICKS FRACTION", self.clock(random)),
        };
        format!("{start} NS EASE")
    }

    fn add_clock(&mut self, random: &mut Random) {
        let form = format!("clock.add {}", self.speed_value(random));
        // Limits would make it uncertain whether the add is accepted.
        let line = self.grammar.random(&form, u64::MAX, random);
        self.lines.push_back(line);
        take(&mut self.clocks, Kind::Clock);
        let form = format!("clock.start {}", self.clock(random));
        self.say(&form, random);
    }

    fn add_modulator(&mut self, random: &mut Random) {
        let (form, kind) = if random.chance(2) {
            ("tweener.add FLOAT".to_string(), Kind::Tweener)
        } else {
            let values = [(); 3].map(|()| self.float_value(random)).join(" ");
            (format!("lfo.add WAVE {values} FLOAT"), Kind::Lfo)
        };
        let line = self.grammar.random(&form, u64::MAX, random);
        self.lines.push_back(line);
        take(&mut self.modulators, kind);
    }

    /// The parameters of place k, both kinds.
    fn make(&mut self, k: usize, random: &mut Random) {
        let form = format!("fp.new {k} {} FLOAT", self.float_value(random));
        self.say(&form, random);
        let form = format!("sp.new {k} {} SPEED", self.speed_value(random));
        self.say(&form, random);
    }

    /// Some commands, a frame, the parameters' updates, and some reads.
    fn beat(&mut self, random: &mut Random) {
        for _ in 0..random.below(4) {
            self.command(random);
        }
        let dt = self.grammar.random("DT", LIMIT, random);
        self.lines.push_back(format!("frame {dt}"));
        for _ in 0..random.below(6) {
            let k = random.below(SLOTS as u64);
            let kind = random.pick(&["fp", "sp"]);
            self.lines.push_back(format!("{kind}.up {k} {dt}"));
        }
        for _ in 0..random.below(4) {
            self.read(random);
        }
    }

    fn command(&mut self, random: &mut Random) {
        let form = match random.below(16) {
            0 => format!("clock.stop {}", self.clock(random)),
            1 => format!("clock.reset {}", self.clock(random)),
            2 | 3 => format!("clock.start {}", self.clock(random)),
            4 | 5 => {
                let (id, value) = (self.clock(random), self.speed_value(random));
                format!("clock.speed {id} {value} {}", self.tween(random))
            }
            6 | 7 => {
                let id = self.id(false, Kind::Tweener, random);
                format!("tweener.set {id} FLOAT {}", self.tween(random))
            }
            8 => {
                let call = random.pick(&["freq", "amp", "off"]);
                let (id, value) = (self.id(false, Kind::Lfo, random), self.float_value(random));
                format!("lfo.{call} {id} {value} {}", self.tween(random))
            }
            9 => {
                let call = random.pick(&["wave ID WAVE", "phase ID FLOAT"]);
                let id = self.id(false, Kind::Lfo, random);
                format!("lfo.{}", call.replace("ID", &id))
            }
            10 | 11 => {
                let (k, value) = (random.below(SLOTS as u64), self.float_value(random));
                format!("fp.set {k} {value} {}", self.tween(random))
            }
            12 | 13 => {
                let (k, value) = (random.below(SLOTS as u64), self.speed_value(random));
                format!("sp.set {k} {value} {}", self.tween(random))
            }
            14 => return self.come(random),
            _ => return self.go(random),
        };
        self.say(&form, random);
    }

    fn come(&mut self, random: &mut Random) {
        match random.below(3) {
            0 => self.add_clock(random),
            1 => self.add_modulator(random),
            _ => self.make(random.index(SLOTS), random),
        }
    }

    /// Removes a clock or a modulator. Its slot is used again sooner or later.
    fn go(&mut self, random: &mut Random) {
        let slot = random.index(SLOTS);
        let (call, table) = if random.chance(2) {
            ("clock", &mut self.clocks)
        } else {
            ("mod", &mut self.modulators)
        };
        let line = format!("{call}.drop {slot}:{}", table[slot].generation);
        table[slot].kind = Kind::Empty;
        self.lines.push_back(line);
    }

    fn read(&mut self, random: &mut Random) {
        let form = match random.below(11) {
            0 | 1 => format!("clock.time {}", self.clock(random)),
            2 => format!("clock.getspeed {}", self.clock(random)),
            3 => format!("clock.ticking {}", self.clock(random)),
            4 | 5 => format!("mod.value {}", self.modulator(random)),
            6 => format!("when {} TICKS FRACTION", self.clock(random)),
            7 => format!("val.raw {}", self.float_value(random)),
            8 | 9 => format!("clock.report {} LENGTH", self.clock(random)),
            _ => format!("sval.raw {}", self.speed_value(random)),
        };
        self.say(&form, random);
    }
}
