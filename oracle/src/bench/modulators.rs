//! The calls `tweener.*`, `lfo.*` and `mod.*`.

use crate::{
    Tween, Value,
    modulator::{
        Modulator, ModulatorBuilder, ModulatorId,
        lfo::{LfoBuilder, LfoHandle},
        tweener::{TweenerBuilder, TweenerHandle},
    },
};

use super::{
    give,
    judge::{self, Faults, Named},
    show,
    station::{LIVES, ModulatorHandle, Station},
    words::Words,
};

/// A handle, read as one of the kind that a call acts on.
type OfKind<H> = fn(&mut ModulatorHandle) -> Option<&mut H>;

const TWEENER: OfKind<TweenerHandle> = ModulatorHandle::tweener;
const LFO: OfKind<LfoHandle> = ModulatorHandle::lfo;
const EITHER: OfKind<ModulatorHandle> = |handle| Some(handle);

pub(super) fn answer(call: &str, words: Words, station: &mut Station) -> Option<String> {
    match call {
        "tweener.add" => add_tweener(words, station),
        "tweener.set" => set_tweener(words, station),
        "lfo.add" => add_lfo(words, station),
        "lfo.freq" => set_lfo(words, station, LfoHandle::set_frequency),
        "lfo.amp" => set_lfo(words, station, LfoHandle::set_amplitude),
        "lfo.off" => set_lfo(words, station, LfoHandle::set_offset),
        "lfo.wave" => set_waveform(words, station),
        "lfo.phase" => set_phase(words, station),
        "mod.value" => value(words, station),
        "mod.drop" => remove(words, station),
        "mod.gen" => set_generation(words, station),
        _ => None,
    }
}

fn no_room(station: &Station) -> Faults {
    judge::room(station.tables.modulators.controller().is_full())
}

fn add(
    station: &mut Station,
    build: impl FnOnce(ModulatorId) -> (Box<dyn Modulator>, ModulatorHandle),
) -> String {
    let modulators = &mut station.tables.modulators;
    let key = modulators.controller().try_reserve();
    let key = key.expect("there is room");
    let (modulator, handle) = build(ModulatorId(key));
    let inserted = modulators.insert_with_key(key, modulator);
    inserted.expect("the key was just reserved");
    station.modulators.insert(key, handle);
    station.given_modulators.note(key);
    format!("id {}", show::id(key))
}

fn add_tweener(mut words: Words, station: &mut Station) -> Option<String> {
    let initial_value = words.float()?;
    words.end()?;
    let faults = judge::float(initial_value) | no_room(station);
    give(faults, || {
        add(station, |id| {
            let (tweener, handle) = TweenerBuilder { initial_value }.build(id);
            (tweener, ModulatorHandle::Tweener(handle))
        })
    })
}

fn add_lfo(mut words: Words, station: &mut Station) -> Option<String> {
    let builder = LfoBuilder {
        waveform: words.waveform()?,
        frequency: words.float_value()?,
        amplitude: words.float_value()?,
        offset: words.float_value()?,
        starting_phase: words.float()?,
    };
    words.end()?;
    let faults = judge::waveform(builder.waveform)
        | judge::float_value(&builder.frequency)
        | judge::float_value(&builder.amplitude)
        | judge::float_value(&builder.offset)
        | judge::float(builder.starting_phase)
        | no_room(station);
    give(faults, || {
        add(station, |id| {
            let (lfo, handle) = builder.build(id);
            (lfo, ModulatorHandle::Lfo(Box::new(handle)))
        })
    })
}

/// The id of the modulator that a call acts on.
fn judge_id<H>(station: &mut Station, id: ModulatorId, of_kind: OfKind<H>) -> Faults {
    let named = match station.modulators.get_mut(&id.0).map(of_kind) {
        Some(Some(_)) => Named::Wanted,
        Some(None) => Named::OtherKind,
        None => Named::Nothing,
    };
    judge::id(named, station.given_modulators.has(id.0))
}

/// Gives a living modulator's handle a command, which acts at once.
fn command<H>(
    station: &mut Station,
    (id, of_kind): (ModulatorId, OfKind<H>),
    faults: Faults,
    write: impl FnOnce(&mut H),
) -> Option<String> {
    let faults = judge_id(station, id, of_kind) | faults;
    give(faults, || {
        let handle = station.modulators.get_mut(&id.0).and_then(of_kind);
        write(handle.expect(LIVES));
        let modulator = station.tables.modulators.get_mut(id.0);
        modulator.expect(LIVES).on_start_processing();
        "ok".to_string()
    })
}

fn set_tweener(mut words: Words, station: &mut Station) -> Option<String> {
    let (id, target, tween) = (words.modulator_id()?, words.float()?, words.tween()?);
    words.end()?;
    let faults = judge::float(target) | judge::tween(tween);
    command(station, (id, TWEENER), faults, |tweener| {
        tweener.set(target, tween)
    })
}

fn set_lfo(
    mut words: Words,
    station: &mut Station,
    set: fn(&mut LfoHandle, Value<f64>, Tween),
) -> Option<String> {
    let (id, target, tween) = (words.modulator_id()?, words.float_value()?, words.tween()?);
    words.end()?;
    let faults = judge::float_value(&target) | judge::tween(tween);
    command(station, (id, LFO), faults, |lfo| set(lfo, target, tween))
}

fn set_waveform(mut words: Words, station: &mut Station) -> Option<String> {
    let (id, waveform) = (words.modulator_id()?, words.waveform()?);
    words.end()?;
    command(station, (id, LFO), judge::waveform(waveform), |lfo| {
        lfo.set_waveform(waveform)
    })
}

fn set_phase(mut words: Words, station: &mut Station) -> Option<String> {
    let (id, phase) = (words.modulator_id()?, words.float()?);
    words.end()?;
    command(station, (id, LFO), judge::float(phase), |lfo| {
        lfo.set_phase(phase)
    })
}

fn value(mut words: Words, station: &mut Station) -> Option<String> {
    let id = words.modulator_id()?;
    words.end()?;
    give(judge_id(station, id, EITHER), || {
        let value = station.tables.info().modulator_value(id);
        show::float(value.expect(LIVES))
    })
}

fn remove(mut words: Words, station: &mut Station) -> Option<String> {
    let id = words.modulator_id()?;
    words.end()?;
    give(judge_id(station, id, EITHER), || {
        station.tables.modulators.remove(id.0).expect(LIVES);
        station.modulators.remove(&id.0);
        "ok".to_string()
    })
}

fn set_generation(mut words: Words, station: &mut Station) -> Option<String> {
    let id = words.modulator_id()?;
    words.end()?;
    let set = station.tables.modulators.controller().set_generation(id.0);
    set.then(|| {
        station.given_modulators.count_up_to(id.0);
        "ok".to_string()
    })
}
