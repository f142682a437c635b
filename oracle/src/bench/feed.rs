//! The calls `feed.*`, a recording in portions. All its bytes are kept, and each call reads all of them at once:
//! between two portions nothing else is held, so no cutting can be taken wrongly.

use crate::recording::{self, MOST, Refusal};

use super::words::Words;

pub(super) struct Feed {
    /// The offset of the first byte.
    at: u64,
    bytes: Vec<u8>,
    /// What is answered from now on, since something was refused or the recording has ended.
    last: Option<String>,
}

impl Feed {
    pub(super) fn new() -> Self {
        Self {
            at: 0,
            bytes: Vec::new(),
            last: None,
        }
    }

    fn portion(&mut self, bytes: Vec<u8>) -> String {
        if let Some(answer) = &self.last {
            return answer.clone();
        }
        self.bytes.extend(bytes);
        let refusal = recording::read(self.at, &self.bytes).refusal;
        if refusal.is_some() {
            self.last = Some(shown(refusal));
        }
        shown(refusal)
    }

    fn end(&mut self) -> String {
        let (at, bytes) = (self.at, &self.bytes);
        let last = || shown(recording::read(at, bytes).at_end());
        self.last.get_or_insert_with(last).clone()
    }

    /// The bytes of one that is no longer fresh stand where they stand.
    fn set_at(&mut self, at: u64) -> Option<String> {
        let fresh = self.bytes.is_empty() && self.last.is_none();
        fresh.then(|| {
            self.at = at;
            "ok".to_string()
        })
    }

    fn reports(&self) -> String {
        let reading = recording::read(self.at, &self.bytes);
        reading.reports.replace('\n', ";")
    }
}

pub(super) fn answer(call: &str, mut words: Words, feed: &mut Feed) -> Option<String> {
    match call {
        "feed.new" => {
            words.end()?;
            *feed = Feed::new();
            Some("ok".to_string())
        }
        "feed" => {
            let bytes = words.hex_bytes()?;
            words.end()?;
            Some(feed.portion(bytes))
        }
        "feed.end" => {
            words.end()?;
            Some(feed.end())
        }
        "feed.show" => {
            words.end()?;
            Some(feed.reports())
        }
        "feed.at" => {
            let at = words.number_up_to(MOST)?;
            words.end()?;
            feed.set_at(at)
        }
        _ => None,
    }
}

fn shown(refusal: Option<Refusal>) -> String {
    match refusal {
        None => "ok".to_string(),
        Some(Refusal::Trace(offset)) => format!("refused 13 {offset}"),
        Some(Refusal::Call(number, record)) => format!("refused {number} {record}"),
        Some(Refusal::Unfinished) => "refused 16".to_string(),
    }
}
