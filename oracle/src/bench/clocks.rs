//! The calls `clock.*`.

use crate::{
    Value,
    clock::{Clock, ClockHandle, ClockId, ClockSpeed, State},
};

use super::{
    give,
    judge::{self, Faults, Named},
    show,
    station::{LIVES, Station},
    words::Words,
};

/// The longest buffer that a report can be asked into.
const LONGEST_BUFFER: u64 = 256;

pub(super) fn answer(call: &str, words: Words, station: &mut Station) -> Option<String> {
    match call {
        "clock.add" => add(words, station),
        "clock.drop" => remove(words, station),
        "clock.start" => command(words, station, |handle| handle.set_ticking(true)),
        "clock.stop" => command(words, station, |handle| handle.set_ticking(false)),
        "clock.reset" => command(words, station, ClockHandle::reset),
        "clock.speed" => set_speed(words, station),
        "clock.time" => time(words, station),
        "clock.ticking" => read(words, station, |clock| {
            u8::from(clock.ticking()).to_string()
        }),
        "clock.getspeed" => read(words, station, |clock| show::speed(clock.present_speed())),
        "clock.report" => report(words, station),
        "clock.preset" => preset(words, station),
        "clock.gen" => set_generation(words, station),
        _ => None,
    }
}

fn add(mut words: Words, station: &mut Station) -> Option<String> {
    let speed = words.speed_value()?;
    words.end()?;
    let controller = station.tables.clocks.controller();
    let faults = judge::speed_value(&speed) | judge::room(controller.is_full());
    give(faults, || {
        let key = controller.try_reserve().expect("there is room");
        let (clock, handle) = Clock::new(speed, ClockId(key));
        let inserted = station.tables.clocks.insert_with_key(key, clock);
        inserted.expect("the key was just reserved");
        station.clocks.insert(key, handle);
        station.given_clocks.note(key);
        format!("id {}", show::id(key))
    })
}

/// The id of the clock that a call acts on.
fn judge_id(station: &Station, id: ClockId) -> Faults {
    let named = match station.clocks.get(&id.0) {
        Some(_) => Named::Wanted,
        None => Named::Nothing,
    };
    judge::id(named, station.given_clocks.has(id.0))
}

fn remove(mut words: Words, station: &mut Station) -> Option<String> {
    let id = words.clock_id()?;
    words.end()?;
    give(judge_id(station, id), || {
        station.tables.clocks.remove(id.0).expect(LIVES);
        station.clocks.remove(&id.0);
        "ok".to_string()
    })
}

/// Gives a living clock's handle a command, which acts at once.
fn act(station: &mut Station, id: ClockId, command: impl FnOnce(&mut ClockHandle)) -> String {
    command(station.clocks.get_mut(&id.0).expect(LIVES));
    let clock = station.tables.clocks.get_mut(id.0);
    clock.expect(LIVES).on_start_processing();
    "ok".to_string()
}

fn command(
    mut words: Words,
    station: &mut Station,
    command: fn(&mut ClockHandle),
) -> Option<String> {
    let id = words.clock_id()?;
    words.end()?;
    give(judge_id(station, id), || act(station, id, command))
}

/// The speed whose unit a value has. Where a mapping's ends differ in unit, that alone refuses the call.
pub(super) fn unit(value: &Value<ClockSpeed>) -> ClockSpeed {
    match value {
        Value::Fixed(speed) => *speed,
        Value::FromModulator { mapping, .. } => mapping.output_range.1,
        Value::FromListenerDistance(_) => unreachable!("the grammar has no such value"),
    }
}

fn set_speed(mut words: Words, station: &mut Station) -> Option<String> {
    let (id, value, tween) = (words.clock_id()?, words.speed_value()?, words.tween()?);
    words.end()?;
    let reached = match station.tables.clocks.get(id.0) {
        Some(clock) => judge::speed_change(clock.present_speed(), unit(&value)),
        None => Faults::NONE,
    };
    let faults = judge_id(station, id) | reached | judge::speed_value(&value) | judge::tween(tween);
    give(faults, || {
        act(station, id, |handle| handle.set_speed(value, tween))
    })
}

fn time(mut words: Words, station: &Station) -> Option<String> {
    let id = words.clock_id()?;
    words.end()?;
    give(judge_id(station, id), || {
        let clock = station.tables.info().clock_info(id);
        show::time(clock.expect(LIVES).time)
    })
}

fn read(mut words: Words, station: &Station, show: fn(&Clock) -> String) -> Option<String> {
    let id = words.clock_id()?;
    words.end()?;
    give(judge_id(station, id), || {
        show(station.tables.clocks.get(id.0).expect(LIVES))
    })
}

fn report(mut words: Words, station: &Station) -> Option<String> {
    let id = words.clock_id()?;
    let length = words.number_up_to(LONGEST_BUFFER)? as usize;
    words.end()?;
    let mut buffer = vec![b'.'; length];
    let faults = judge_id(station, id) | judge::buffer(length);
    if let Some(number) = faults.first() {
        return Some(format!("refused {number} {}", printed(&buffer)));
    }
    let text = report_text(id, station.tables.clocks.get(id.0).expect(LIVES));
    buffer[..text.len()].copy_from_slice(text.as_bytes());
    Some(printed(&buffer))
}

fn report_text(id: ClockId, clock: &Clock) -> String {
    let ticking = u8::from(clock.ticking());
    let (started, ticks, fraction) = match clock.state() {
        State::NotStarted => (0, 0, 0.0),
        State::Started {
            ticks,
            fractional_position,
        } => (1, ticks, fractional_position),
    };
    let (slot, generation) = (id.0.slot(), id.0.generation());
    let head = format!("slot={slot}\ngen={generation}\nticking={ticking}\nstarted={started}\n");
    format!("{head}ticks={ticks}\nfraction={}\n", show::float(fraction))
}

fn printed(buffer: &[u8]) -> String {
    String::from_utf8_lossy(buffer).replace('\n', ";")
}

fn preset(mut words: Words, station: &mut Station) -> Option<String> {
    let at = words.clock_time()?;
    words.end()?;
    let faults = judge_id(station, at.clock) | judge::fraction(at.fraction);
    give(faults, || {
        let clock = station.tables.clocks.get_mut(at.clock.0);
        clock.expect(LIVES).preset(at.ticks, at.fraction);
        "ok".to_string()
    })
}

fn set_generation(mut words: Words, station: &mut Station) -> Option<String> {
    let id = words.clock_id()?;
    words.end()?;
    let set = station.tables.clocks.controller().set_generation(id.0);
    set.then(|| {
        station.given_clocks.count_up_to(id.0);
        "ok".to_string()
    })
}

/// What a frame is refused for on account of this clock.
pub(super) fn judge_advance(clock: &Clock, advance: impl FnOnce(&Clock) -> f64) -> Faults {
    if !clock.ticking() {
        return Faults::NONE;
    }
    let (ticks, fraction) = crate::position(clock);
    judge::advance(ticks, fraction, advance(clock))
}
