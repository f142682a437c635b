//! A table of the station as a generator pictures it, so that it knows which ids live. A damaged line may leave the
//! picture wrong; the next fresh station puts it right.

pub(super) const SLOTS: usize = 16;

/// What a slot holds.
#[derive(Clone, Copy, PartialEq)]
pub(super) enum Kind {
    Empty,
    Clock,
    Tweener,
    Lfo,
}

#[derive(Clone, Copy)]
pub(super) struct Slot {
    pub(super) kind: Kind,
    /// The last one given, or 0.
    pub(super) generation: u32,
}

pub(super) type Table = [Slot; SLOTS];

pub(super) const FRESH: Table = [Slot {
    kind: Kind::Empty,
    generation: 0,
}; SLOTS];

/// The slot that an add takes, as document 01 has it, and the generation that it gives.
pub(super) fn take(table: &mut Table, kind: Kind) -> Option<(u32, u32)> {
    let free = |slot: &Slot| slot.kind == Kind::Empty && slot.generation < u32::MAX;
    let place = table.iter().position(free)?;
    let slot = &mut table[place];
    slot.kind = kind;
    slot.generation += 1;
    Some((place as u32, slot.generation))
}
