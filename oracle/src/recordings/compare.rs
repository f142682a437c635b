//! Compares a program's answers with the Rust side's, two recordings at a time.

use std::{
    collections::BTreeMap,
    fs, io,
    path::Path,
    process::ExitCode,
    sync::atomic::{AtomicUsize, Ordering},
    thread,
};

use crate::{
    answers::{self, Answer, Program},
    damage,
    made::Made,
    random::Random,
    recording,
};

const AT_ONCE: usize = 2;

/// One recording in this many is written in pieces.
const PIECES: usize = 16;

/// The most shorter recordings that are tried.
const TRIALS: usize = 500;

/// The most bytes of a recording that are shown.
const SHOWN: usize = 600;

/// How many recordings got each number; 0 stands for those that were accepted.
type Counts = BTreeMap<u8, usize>;

/// Compares all recordings, and says how it went.
pub(crate) fn run(made: &Made, folder: &str, command: &[&str]) -> io::Result<ExitCode> {
    let first = AtomicUsize::new(usize::MAX);
    let program = Program::new(command)?;
    let work = |share| part(made, &program, share, &first);
    let counts = thread::scope(|scope| {
        let shares = (0..AT_ONCE).map(|share| scope.spawn(move || work(share)));
        let workers: Vec<_> = shares.collect();
        let ended = workers.into_iter().map(|worker| worker.join());
        let ended = ended.map(|counts| counts.expect("no worker fails"));
        ended.collect::<io::Result<Vec<Counts>>>()
    })?;
    match first.into_inner() {
        usize::MAX => Ok(agreed(made, &counts)),
        number => differed(made, number, folder, &program),
    }
}

/// Compares every recording of a share, up to the first difference that is known.
fn part(made: &Made, program: &Program, share: usize, first: &AtomicUsize) -> io::Result<Counts> {
    let mut counts = Counts::new();
    for number in (share..made.total()).step_by(AT_ONCE) {
        if number > first.load(Ordering::Relaxed) {
            break;
        }
        let recording = made.get(number).expect("the number is below the total");
        let pair = Pair::of(&recording, program, cuts(made, number))?;
        if pair.differs() {
            first.fetch_min(number, Ordering::Relaxed);
            break;
        }
        *counts.entry(pair.number).or_default() += 1;
    }
    Ok(counts)
}

/// How a recording is cut, where it is written in pieces.
fn cuts(made: &Made, number: usize) -> Option<Random> {
    // Both shares are to have such ones.
    let chosen = number / AT_ONCE % PIECES == 0;
    chosen.then(|| made.random(number))
}

/// The two answers to one recording.
struct Pair {
    number: u8,
    expected: Answer,
    given: Answer,
}

impl Pair {
    fn of(recording: &[u8], program: &Program, cuts: Option<Random>) -> io::Result<Self> {
        let replayed = recording::replay(recording);
        Ok(Self {
            number: replayed
                .as_ref()
                .err()
                .map_or(0, |refusal| refusal.number()),
            expected: answers::expected(&replayed),
            given: program.answer(recording, cuts)?,
        })
    }

    fn differs(&self) -> bool {
        self.expected != self.given
    }
}

fn agreed(made: &Made, parts: &[Counts]) -> ExitCode {
    let mut counts = Counts::new();
    for (number, count) in parts.iter().flatten() {
        *counts.entry(*number).or_default() += count;
    }
    let total = made.total();
    println!(
        "{} fixed recordings and {} random ones",
        made.fixed(),
        total - made.fixed()
    );
    for (number, count) in counts {
        match number {
            0 => println!("accepted: {count}"),
            _ => println!("refused {number}: {count}"),
        }
    }
    println!("{total} recordings, 0 differences");
    ExitCode::SUCCESS
}

/// Keeps the recording, shortened, and says both answers to it.
fn differed(made: &Made, number: usize, folder: &str, program: &Program) -> io::Result<ExitCode> {
    let recording = made.get(number).expect("it was compared");
    let cuts = || cuts(made, number);
    let short = shortened(recording, |shorter| {
        Ok(Pair::of(shorter, program, cuts())?.differs())
    })?;
    let path = Path::new(folder).join("recording");
    fs::create_dir_all(folder)?;
    fs::write(&path, &short)?;
    let pair = Pair::of(&short, program, cuts())?;
    let pieces = if cuts().is_some() {
        ", written in pieces"
    } else {
        ""
    };
    println!(
        "recording {number}{pieces}: a difference. Shortened, it is in {}:",
        path.display()
    );
    println!("{}", shown(&short));
    println!("the Rust side: {}", pair.expected);
    println!("the program: {}", pair.given);
    Ok(ExitCode::FAILURE)
}

fn shown(recording: &[u8]) -> String {
    let start = &recording[..recording.len().min(SHOWN)];
    let more = match recording.len() - start.len() {
        0 => String::new(),
        rest => format!(" and {rest} bytes more"),
    };
    format!("{:?}{more}", String::from_utf8_lossy(start))
}

/// Leaves out records as long as the answers still differ.
fn shortened(
    recording: Vec<u8>,
    mut differs: impl FnMut(&[u8]) -> io::Result<bool>,
) -> io::Result<Vec<u8>> {
    let mut parts = damage::records(&recording);
    let mut trials = 0;
    let mut piece = parts.len();
    while piece > 0 {
        let (mut at, before) = (0, parts.len());
        while at < parts.len() && trials < TRIALS {
            trials += 1;
            let end = parts.len().min(at + piece);
            let rest = [&parts[..at], &parts[end..]].concat();
            match differs(&rest.concat())? {
                true => parts = rest,
                false => at = end,
            }
        }
        // What was kept for a later record's sake may be needless once that is left out.
        if parts.len() == before {
            piece /= 2;
        }
    }
    Ok(parts.concat())
}

#[cfg(test)]
mod tests {
    use super::*;

    #[test]
    fn records_that_do_not_matter_are_left_out() {
        let letters = ["a", "b", "c", "d", "e", "f", "g"];
        let recording: String = letters
            .map(|letter| format!("{letter}\n").repeat(4))
            .concat();
        let needed = |shorter: &[u8]| Ok(shorter.contains(&b'b') && shorter.contains(&b'f'));
        let short = shortened(recording.into_bytes(), needed).expect("memory does not fail");
        assert_eq!(short, b"b\nb\nb\nb\nf\nf\nf\nf\n");
    }

    /// A start needs its add, and a drop too; both go before what they need can go.
    #[test]
    fn records_that_matter_no_more_are_left_out() {
        let letters = ["a", "s", "b", "d", "x", "y"];
        let recording: String = letters
            .map(|letter| format!("{letter}\n").repeat(4))
            .concat();
        let needed = |shorter: &[u8]| {
            let has = |letter| shorter.contains(&letter);
            Ok(has(b'x') && (has(b'a') || !has(b's')) && (has(b'b') || !has(b'd')))
        };
        let short = shortened(recording.into_bytes(), needed).expect("memory does not fail");
        assert_eq!(short, b"x\nx\nx\nx\n");
    }
}
