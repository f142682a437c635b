//! The bench's grammar as tables: a word in capitals stands for a leaf or for one of a rule's forms.

use std::collections::HashSet;

use super::{leaves, limits, random::Random};

/// The forms of a word in capitals. The first is the plain one.
fn rule(name: &str) -> Option<&'static [&'static str]> {
    Some(match name {
        "SPEED" => &["tps PACE", "spt PACE", "tpm PACE"],
        "EASE" => &["lin", "in POWER", "out POWER", "io POWER"],
        "START" => &["imm", "del NS", "clk ID TICKS FRACTION"],
        "TWEEN" => &["START NS EASE"],
        "FMAP" => &["LOW HIGH HIGH LOW EASE"],
        "SMAP" => &[
            "LOW HIGH tps PACE tps PACE EASE",
            "LOW HIGH spt PACE spt PACE EASE",
            "LOW HIGH tpm PACE tpm PACE EASE",
        ],
        "FVAL" => &["fix FLOAT", "mod ID FMAP"],
        "SVAL" => &["fix SPEED", "mod ID SMAP"],
        "WAVE" => &["tri", "saw", "pul FLOAT"],
        _ => return None,
    })
}

/// Forms that are rarely taken: ends of an input that are or are nearly the same, and mixed units.
fn rare(name: &str) -> &'static [&'static str] {
    match name {
        "FMAP" => &[
            "3fe0000000000000 3fe0000000000000 HIGH LOW EASE",
            "0000000000000000 8000000000000000 HIGH LOW EASE",
            "bff0000000000000 bff0000000000001 HIGH LOW EASE",
            "LOW HIGH FLOAT 7ff0000000000000 EASE",
        ],
        "SMAP" => &[
            "3fe0000000000000 3fe0000000000000 tps PACE tps PACE EASE",
            "LOW HIGH SPEED spt PACE EASE",
            "LOW HIGH SPEED tpm PACE EASE",
        ],
        _ => &[],
    }
}

/// One in this many forms is a rare one.
const RARELY: u64 = 12;

/// How lines are made from forms.
#[derive(Clone, Copy)]
pub(super) struct Grammar {
    /// How far powers go that are accepted.
    pub(super) powers: u64,
    /// Whether random numbers stay near each other.
    pub(super) near: bool,
}

impl Grammar {
    fn plain(self, form: &str) -> String {
        let plain_word = |word: &str| match (leaves::named(word), rule(word)) {
            (Some(leaf), _) => leaves::plain(leaf),
            (None, Some(forms)) => self.plain(forms[0]),
            (None, None) => word.to_string(),
        };
        let words: Vec<String> = form.split(' ').map(plain_word).collect();
        words.join(" ")
    }

    /// Each place of a form in turn at each of its limits, all others plain.
    pub(super) fn limits(self, form: &str) -> Vec<String> {
        let plain: Vec<String> = form.split(' ').map(|word| self.plain(word)).collect();
        let mut lines = vec![plain.join(" ")];
        for (place, word) in form.split(' ').enumerate() {
            for limit in self.word_limits(word) {
                let mut line = plain.clone();
                line[place] = limit;
                lines.push(line.join(" "));
            }
        }
        let mut seen = HashSet::new();
        lines.retain(|line| seen.insert(line.clone()));
        lines
    }

    fn word_limits(self, word: &str) -> Vec<String> {
        if let Some(leaf) = leaves::named(word) {
            return limits::of(leaf, self);
        }
        let forms = rule(word).unwrap_or_default().iter();
        let limits = forms.flat_map(|form| self.limits(form));
        let rare = rare(word).iter().map(|form| self.plain(form));
        limits.chain(rare).collect()
    }

    /// A random line of a form, with one in `limit` of its numbers at a limit.
    pub(super) fn random(self, form: &str, limit: u64, random: &mut Random) -> String {
        let mut words = Vec::new();
        for word in form.split(' ') {
            let made = match (leaves::named(word), rule(word)) {
                (Some(leaf), _) if random.chance(limit) => {
                    let limits = limits::of(leaf, self);
                    limits[random.index(limits.len())].clone()
                }
                (Some(leaf), _) => leaves::random(leaf, self, random),
                (None, Some(forms)) => {
                    let rare = rare(word);
                    let rarely = !rare.is_empty() && random.chance(RARELY);
                    let form = random.pick(if rarely { rare } else { forms });
                    self.random(form, limit, random)
                }
                (None, None) => word.to_string(),
            };
            words.push(made);
        }
        words.join(" ")
    }
}
