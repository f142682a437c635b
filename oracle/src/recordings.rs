//! Makes recordings, whole and damaged ones, and compares a program's answers to them with the Rust side's.
//! The same seed gives the same recordings.

include!("original.rs");

#[allow(dead_code)]
mod bench;
mod recording;
#[allow(dead_code)]
mod tween;

#[path = "recordings/answers.rs"]
mod answers;
#[path = "recordings/calls.rs"]
mod calls;
#[path = "recordings/compare.rs"]
mod compare;
#[path = "recordings/damage.rs"]
mod damage;
#[allow(dead_code)]
#[path = "generate/doubles.rs"]
mod doubles;
#[path = "recordings/edits.rs"]
mod edits;
#[path = "recordings/lengths.rs"]
mod lengths;
#[path = "recordings/lines.rs"]
mod lines;
#[path = "recordings/made.rs"]
mod made;
#[path = "generate/random.rs"]
mod random;
#[path = "recordings/runs.rs"]
mod runs;

use std::{
    env,
    io::{self, Write},
    process::ExitCode,
};

use made::Made;

const USAGE: &str = "usage: recordings compare SEED COUNT FOLDER PROGRAM [ARG..]
       recordings make SEED COUNT N
COUNT is of random recordings; the fixed ones come before them. N is from 0 on.";

fn main() -> ExitCode {
    let words: Vec<String> = env::args().skip(1).collect();
    let told = match &words.iter().map(String::as_str).collect::<Vec<_>>()[..] {
        ["compare", seed, count, folder, command @ ..] if !command.is_empty() => {
            made(seed, count).map(|made| compare::run(&made, folder, command))
        }
        ["make", seed, count, number] => made(seed, count).map(|made| print(&made, number)),
        _ => None,
    };
    match told {
        Some(Ok(status)) => status,
        Some(Err(error)) => {
            eprintln!("{error}");
            ExitCode::from(2)
        }
        None => {
            eprintln!("{USAGE}");
            ExitCode::from(2)
        }
    }
}

fn made(seed: &str, count: &str) -> Option<Made> {
    Some(Made::new(seed.parse().ok()?, count.parse().ok()?))
}

fn print(made: &Made, number: &str) -> io::Result<ExitCode> {
    let Some(recording) = number.parse().ok().and_then(|number| made.get(number)) else {
        return Err(io::Error::other(format!("there is no recording {number}")));
    };
    io::stdout().write_all(&recording)?;
    Ok(ExitCode::SUCCESS)
}
