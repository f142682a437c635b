//! What a program answers to a recording on its standard input.

use std::{
    fmt,
    io::{self, Write},
    process::{Command, Stdio},
    thread,
    time::{Duration, Instant},
};

use crate::{random::Random, recording::Refusal};

/// The most bytes of a short piece, and a long recording's number of pieces.
const PIECE: usize = 100;
const PIECES: usize = 100;

/// How long a later piece waits for the one before it to be read.
const WAIT: Duration = Duration::from_micros(300);

#[derive(PartialEq)]
pub(crate) struct Answer {
    /// None where a signal has ended the program.
    status: Option<i32>,
    output: Vec<u8>,
    error: Vec<u8>,
}

impl fmt::Display for Answer {
    fn fmt(&self, formatter: &mut fmt::Formatter) -> fmt::Result {
        let status = self
            .status
            .map_or("none".to_string(), |code| code.to_string());
        let (output, error) = (
            String::from_utf8_lossy(&self.output),
            String::from_utf8_lossy(&self.error),
        );
        write!(
            formatter,
            "status {status}, output {output:?}, error {error:?}"
        )
    }
}

/// What is to be answered.
pub(crate) fn expected(replayed: &Result<String, Refusal>) -> Answer {
    let (output, error) = match replayed {
        Ok(reports) => (reports.clone(), String::new()),
        Err(refusal) => (format!("{}\n", refusal.number()), refusal.place()),
    };
    Answer {
        status: Some(0),
        output: output.into_bytes(),
        error: error.into_bytes(),
    }
}

/// A program that replays, and how long it takes to start and end.
pub(crate) struct Program<'a> {
    command: &'a [&'a str],
    start: Duration,
}

impl<'a> Program<'a> {
    pub(crate) fn new(command: &'a [&'a str]) -> io::Result<Self> {
        let mut program = Self {
            command,
            start: Duration::MAX,
        };
        for _ in 0..3 {
            let before = Instant::now();
            program.answer(b"", None)?;
            program.start = program.start.min(before.elapsed());
        }
        Ok(program)
    }

    /// Runs it. With `cuts` the recording comes in pieces of random lengths, one by one.
    pub(crate) fn answer(&self, recording: &[u8], cuts: Option<Random>) -> io::Result<Answer> {
        let named = |error: io::Error| {
            io::Error::new(error.kind(), format!("{}: {error}", self.command[0]))
        };
        let mut child = Command::new(self.command[0])
            .args(&self.command[1..])
            .stdin(Stdio::piped())
            .stdout(Stdio::piped())
            .stderr(Stdio::piped())
            .spawn()
            .map_err(named)?;
        let input = child.stdin.take().expect("the input is piped");
        let output = thread::scope(|scope| {
            // A program that stops early closes its input; its answer tells the difference.
            scope.spawn(|| match cuts {
                Some(random) => write_pieces(input, recording, self.start, random),
                None => write_whole(input, recording),
            });
            child.wait_with_output()
        })?;
        Ok(Answer {
            status: output.status.code(),
            output: output.stdout,
            error: output.stderr,
        })
    }
}

fn write_whole(mut input: impl Write, recording: &[u8]) -> io::Result<()> {
    input.write_all(recording)
}

/// Each piece waits until the one before it is read, the second until the program has started to read.
fn write_pieces(
    mut input: impl Write,
    recording: &[u8],
    start: Duration,
    mut random: Random,
) -> io::Result<()> {
    let most = PIECE.max(recording.len() / PIECES);
    let mut rest = recording;
    let mut wait = start;
    while !rest.is_empty() {
        let length = rest.len().min(1 + random.index(most));
        let (piece, after) = rest.split_at(length);
        input.write_all(piece)?;
        input.flush()?;
        thread::sleep(wait);
        (rest, wait) = (after, WAIT);
    }
    Ok(())
}
