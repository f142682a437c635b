//! The bench's text protocol around the original: calls in, one a line, and answers out.

mod clocks;
mod curves;
mod floats;
mod frames;
mod given;
mod judge;
mod less;
mod lines;
mod mappings;
mod modulators;
mod parameters;
mod show;
mod speeds;
mod starts;
mod station;
#[cfg(test)]
mod tests;
mod times;
mod words;

use std::{env, io, process::ExitCode};

use judge::Faults;
use station::Station;
use words::Words;

/// A station and the calls on it.
pub(crate) struct Bench {
    station: Station,
}

impl Bench {
    pub(crate) fn new() -> Self {
        let station = Station::new();
        Self { station }
    }

    /// The answer to one line, or nothing where the line is skipped.
    pub(crate) fn answer(&mut self, line: &[u8]) -> Option<String> {
        answer(line, &mut self.station)
    }
}

/// Answers standard input until its end. With the argument `--counts`, what was counted on the way comes on standard
/// error.
pub(crate) fn run() -> ExitCode {
    let mut bench = Bench::new();
    let served = lines::serve(io::stdin().lock(), io::stdout().lock(), |line| {
        bench.answer(line)
    });
    if let Err(error) = served {
        eprintln!("{error}");
        return ExitCode::FAILURE;
    }
    if env::args().nth(1).is_some_and(|word| word == "--counts") {
        eprintln!("{}", less::counts());
    }
    ExitCode::SUCCESS
}

/// The answer to one line, or nothing where the line is skipped.
fn answer(line: &[u8], station: &mut Station) -> Option<String> {
    if line.len() > lines::LONGEST {
        return Some("error".to_string());
    }
    if line.first() == Some(&b'#') {
        return None;
    }
    let mut words = Words::of(line);
    let call = words.word()?;
    Some(dispatch(call, words, station).unwrap_or_else(|| "error".to_string()))
}

/// Asks each family in turn. A family answers nothing to what is no call of its own.
fn dispatch(call: &str, words: Words, station: &mut Station) -> Option<String> {
    floats::answer(call, words)
        .or_else(|| curves::answer(call, words))
        .or_else(|| speeds::answer(call, words))
        .or_else(|| times::answer(call, words))
        .or_else(|| mappings::answer(call, words))
        .or_else(|| fresh(call, words, station))
        .or_else(|| clocks::answer(call, words, station))
        .or_else(|| modulators::answer(call, words, station))
        .or_else(|| frames::answer(call, words, station))
        .or_else(|| parameters::answer(call, words, station))
        .or_else(|| starts::answer(call, words, station))
}

fn fresh(call: &str, words: Words, station: &mut Station) -> Option<String> {
    if call != "new" {
        return None;
    }
    words.end()?;
    *station = Station::new();
    Some("ok".to_string())
}

/// The refusal that comes first, else what the call gives. It is only made where nothing is refused.
fn give(faults: Faults, made: impl FnOnce() -> String) -> Option<String> {
    match faults.first() {
        Some(number) => Some(format!("refused {number}")),
        None => Some(made()),
    }
}
