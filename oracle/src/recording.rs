//! Replays a recording: each record is a line of the bench, asked of a fresh station of the original's own clocks.

mod reader;
#[cfg(test)]
mod tests;

use std::collections::BTreeMap;

use crate::bench::Bench;
use reader::Record;

/// The most bytes that a recording may have.
pub(crate) const MOST: usize = 65_536;

const BUFFER: u8 = 11;
const TRACE: u8 = 13;
const WRONG_ID: u8 = 14;

/// Why a recording was not replayed to its end.
#[derive(Debug, Clone, Copy, PartialEq)]
pub(crate) enum Refusal {
    TooLong,
    /// The offset of the bad line, or of the end inside a record.
    Trace(usize),
    /// A call's own number or that of a wrong id, and the record.
    Call(u8, usize),
}

impl Refusal {
    pub(crate) fn number(self) -> u8 {
        match self {
            Self::TooLong => BUFFER,
            Self::Trace(_) => TRACE,
            Self::Call(number, _) => number,
        }
    }

    /// What standard error says of it.
    pub(crate) fn place(self) -> String {
        match self {
            Self::TooLong => String::new(),
            Self::Trace(offset) => format!("refused {TRACE} at byte {offset}\n"),
            Self::Call(number, record) => format!("refused {number} in record {record}\n"),
        }
    }
}

/// The reports of the clocks that live at the end, in slot order, or the first refusal.
pub(crate) fn replay(recording: &[u8]) -> Result<String, Refusal> {
    if recording.len() > MOST {
        return Err(Refusal::TooLong);
    }
    let mut replay = Replay {
        bench: Bench::new(),
        living: BTreeMap::new(),
    };
    let (mut start, mut number) = (0, 0);
    while start < recording.len() {
        let (record, end) = reader::record(recording, start).map_err(Refusal::Trace)?;
        let refused = |refusal| Refusal::Call(refusal, number);
        replay.run(&record).map_err(refused)?;
        (start, number) = (end, number + 1);
    }
    Ok(replay.reports())
}

/// A station, and the ids that live on it, by their slots.
struct Replay {
    bench: Bench,
    living: BTreeMap<u32, String>,
}

impl Replay {
    fn ask(&mut self, call: &str) -> String {
        let answer = self.bench.answer(call.as_bytes());
        let answer = answer.expect("a call is answered");
        assert_ne!(answer, "error", "{call}");
        answer
    }

    /// Makes a record's call. Nothing follows one that is refused, so a wrong id is not taken back.
    fn run(&mut self, record: &Record) -> Result<(), u8> {
        let answer = self.ask(&call(record));
        if let Some(number) = answer.strip_prefix("refused ") {
            return Err(number.parse().expect("a refusal is a number"));
        }
        let id = record.id();
        match record.op {
            "add" if answer != format!("id {id}") => return Err(WRONG_ID),
            "add" => self.living.insert(record.slot(), id),
            "drop" => self.living.remove(&record.slot()),
            _ => None,
        };
        Ok(())
    }

    fn reports(&mut self) -> String {
        let ids: Vec<String> = self.living.values().cloned().collect();
        ids.iter().map(|id| self.report(id)).collect()
    }

    /// The bench shows the whole buffer, with its unused bytes as dots.
    fn report(&mut self, id: &str) -> String {
        let buffer = self.ask(&format!("clock.report {id} 96"));
        buffer.trim_end_matches('.').replace(';', "\n")
    }
}

/// The bench's line for a record.
fn call(record: &Record) -> String {
    let (id, arg) = (record.id(), record.arg);
    match record.op {
        "add" => format!("clock.add fix tps {arg}"),
        "speed" => format!("clock.speed {id} fix tps {arg} imm 0 lin"),
        "frame" => format!("frame {arg}"),
        op => format!("clock.{op} {id}"),
    }
}
