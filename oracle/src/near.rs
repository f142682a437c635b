//! Compares two lists of answers that are doubles: each pair is to lie within 1e-12 of each other.
//! Any other answer is to be the same. Prints how many lie apart and how far at most.

use std::{env, fs, process::ExitCode};

const WITHIN: f64 = 1e-12;

fn main() -> ExitCode {
    let files: Vec<String> = env::args().skip(1).collect();
    let [first, second] = files.as_slice() else {
        eprintln!("usage: near FILE FILE");
        return ExitCode::from(2);
    };
    let read = |file: &String| fs::read_to_string(file);
    let (Ok(first), Ok(second)) = (read(first), read(second)) else {
        eprintln!("a list of answers cannot be read");
        return ExitCode::from(2);
    };
    compare(&first, &second)
}

fn compare(first: &str, second: &str) -> ExitCode {
    let lengths = (first.lines().count(), second.lines().count());
    if lengths.0 != lengths.1 || lengths.0 == 0 {
        println!(
            "{} answers on one side and {} on the other",
            lengths.0, lengths.1
        );
        return ExitCode::FAILURE;
    }
    let (mut apart, mut widest) = (0, 0.0f64);
    for (number, (a, b)) in first.lines().zip(second.lines()).enumerate() {
        if a == b {
            continue;
        }
        let Some(gap) = gap(a, b).filter(|gap| *gap <= WITHIN) else {
            println!(
                "answer {}: {a} on one side and {b} on the other",
                number + 1
            );
            return ExitCode::FAILURE;
        };
        apart += 1;
        widest = widest.max(gap);
    }
    println!(
        "{} answers, {apart} of them apart, by {widest:e} at most",
        lengths.0
    );
    ExitCode::SUCCESS
}

/// How far two doubles lie apart. None where one is no double, or a NaN.
fn gap(a: &str, b: &str) -> Option<f64> {
    let double = |word: &str| u64::from_str_radix(word, 16).ok().map(f64::from_bits);
    let gap = (double(a)? - double(b)?).abs();
    (!gap.is_nan()).then_some(gap)
}
