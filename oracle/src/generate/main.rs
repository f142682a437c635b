//! Prints calls for the bench: damaged lines of every kind, then the limits, then random calls.
//! The same arguments give the same lines.

mod damage;
mod doubles;
mod floats;
mod grammar;
mod ids;
mod leaves;
mod less;
mod limits;
mod nanos;
mod powers;
mod random;
mod shift;
mod station;
mod table;
mod times;

use std::{
    env,
    io::{self, BufWriter, ErrorKind, Write},
    process::ExitCode,
};

use random::Random;

const USAGE: &str = "usage: generate FAMILY SEED COUNT [--powers MOST] [--random]
FAMILY is floats, times, less, nanos, powers, station, shift or ids. Powers that are accepted go to MOST, 1 to 16,
or to 16.
COUNT is of all lines, or with --random of those behind the damaged lines and the limits.";

/// One in this many lines is damaged, about 3 in 100.
const DAMAGED: u64 = 33;

/// The lines of one family.
struct Family {
    /// What every run begins with.
    limits: Vec<String>,
    random: Box<dyn Fn(&mut Random) -> String>,
}

fn main() -> ExitCode {
    let mut words: Vec<String> = env::args().skip(1).collect();
    let random = words.last().is_some_and(|word| word == "--random");
    if random {
        words.pop();
    }
    let Some((family, seed, count)) = read_arguments(&words) else {
        eprintln!("{USAGE}");
        return ExitCode::from(2);
    };
    match print(family, seed, count, random) {
        Ok(()) => ExitCode::SUCCESS,
        // The reader has enough.
        Err(error) if error.kind() == ErrorKind::BrokenPipe => ExitCode::SUCCESS,
        Err(error) => {
            eprintln!("{error}");
            ExitCode::FAILURE
        }
    }
}

fn read_arguments(words: &[String]) -> Option<(Family, u64, u64)> {
    let (family, seed, count, powers) = match words {
        [family, seed, count] => (family, seed, count, 16),
        [family, seed, count, option, most] if option == "--powers" => {
            (family, seed, count, most.parse().ok()?)
        }
        _ => return None,
    };
    if !(1..=16).contains(&powers) {
        return None;
    }
    let family = match family.as_str() {
        "floats" => floats::family(),
        "times" => times::family(powers),
        "less" => less::family(),
        "nanos" => nanos::family(),
        "powers" => powers::family(),
        "station" => station::family(powers),
        "shift" => shift::family(powers),
        "ids" => ids::family(powers),
        _ => return None,
    };
    Some((family, seed.parse().ok()?, count.parse().ok()?))
}

fn print(family: Family, seed: u64, count: u64, beside: bool) -> io::Result<()> {
    let mut output = BufWriter::new(io::stdout().lock());
    let mut random = Random::new(seed);
    let undamaged = family.limits.iter().map(|line| line.clone().into_bytes());
    let damaged = damage::every_kind(&family.limits, &mut random);
    let first: Vec<Vec<u8>> = damaged.into_iter().chain(undamaged).collect();
    let count = if beside { count + first.len() as u64 } else { count };
    let mut first = first.into_iter();
    for _ in 0..count {
        let line = first
            .next()
            .unwrap_or_else(|| random_line(&family, &mut random));
        output.write_all(&line)?;
        output.write_all(b"\n")?;
    }
    output.flush()
}

fn random_line(family: &Family, random: &mut Random) -> Vec<u8> {
    let line = (family.random)(random);
    if random.below(DAMAGED) == 0 {
        return damage::any(&line, random);
    }
    line.into_bytes()
}
