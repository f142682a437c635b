//! Shortens a script of calls that two programs answer differently.
//!   shrink ORIGINAL PROGRAM CALLS
//! Prints the fewest calls found that still show a difference and, as comments, the two answers.

use std::{
    env, fs,
    io::{self, Write},
    process::{Command, ExitCode, Stdio},
    thread,
};

/// A line is answered unless it has no word or is a comment; an overlong one is, whatever it holds.
const LONGEST: usize = 1024;

/// The most scripts that are tried.
const TRIALS: usize = 3000;

type Line = Vec<u8>;

fn main() -> ExitCode {
    let words: Vec<String> = env::args().skip(1).collect();
    let [original, program, calls] = &words[..] else {
        eprintln!("usage: shrink ORIGINAL PROGRAM CALLS");
        return ExitCode::from(2);
    };
    match shortened(original, program, calls) {
        Ok(true) => ExitCode::SUCCESS,
        Ok(false) => {
            eprintln!("the two programs answer alike");
            ExitCode::FAILURE
        }
        Err(error) => {
            eprintln!("{error}");
            ExitCode::from(2)
        }
    }
}

/// Prints the shortened script. False where there is no difference.
fn shortened(original: &str, program: &str, calls: &str) -> io::Result<bool> {
    let differ = |lines: &[Line]| difference(original, program, lines);
    let Some(script) = shrink(split(&fs::read(calls)?), differ)? else {
        return Ok(false);
    };
    let mut output = io::stdout().lock();
    for line in &script {
        output.write_all(line)?;
        output.write_all(b"\n")?;
    }
    for (name, path) in [("original", original), ("program", program)] {
        let answers = answers(path, &script)?;
        let last = answers.get(answered(&script).saturating_sub(1));
        write!(output, "# the {name} answers the last call: ")?;
        output.write_all(last.map_or(b"nothing", |answer| &answer[..]))?;
        output.write_all(b"\n")?;
    }
    Ok(true)
}

/// The shortest script found whose last call is answered differently. `differ` gives the number of answers
/// that agree before the first that does not, or nothing where all agree.
fn shrink(
    lines: Vec<Line>,
    mut differ: impl FnMut(&[Line]) -> io::Result<Option<usize>>,
) -> io::Result<Option<Vec<Line>>> {
    let Some(agreed) = differ(&lines)? else {
        return Ok(None);
    };
    let mut script = up_to(lines, agreed);
    let mut trials = 0;
    let mut piece = script.len();
    while piece > 0 && trials < TRIALS {
        let mut at = 0;
        // The last call is the one that shows the difference, and stays.
        while at + 1 < script.len() && trials < TRIALS {
            let end = (at + piece).min(script.len() - 1);
            let rest: Vec<Line> = [&script[..at], &script[end..]].concat();
            trials += 1;
            match differ(&rest)? {
                Some(agreed) => script = up_to(rest, agreed),
                None => at = end,
            }
        }
        piece /= 2;
    }
    Ok(Some(script))
}

/// The lines up to the one with so many answered before it.
fn up_to(mut lines: Vec<Line>, agreed: usize) -> Vec<Line> {
    let mut left = agreed;
    for i in 0..lines.len() {
        if !is_answered(&lines[i]) {
            continue;
        }
        if left == 0 {
            lines.truncate(i + 1);
            return lines;
        }
        left -= 1;
    }
    lines
}

fn is_answered(line: &[u8]) -> bool {
    line.len() > LONGEST || !(line.iter().all(|&b| b == b' ') || line.starts_with(b"#"))
}

fn answered(lines: &[Line]) -> usize {
    lines.iter().filter(|line| is_answered(line)).count()
}

fn difference(original: &str, program: &str, lines: &[Line]) -> io::Result<Option<usize>> {
    let (left, right) = (answers(original, lines)?, answers(program, lines)?);
    if left == right {
        return Ok(None);
    }
    Ok(Some(
        left.iter().zip(&right).take_while(|(a, b)| a == b).count(),
    ))
}

/// What a program answers to a script.
fn answers(program: &str, lines: &[Line]) -> io::Result<Vec<Line>> {
    let mut child = Command::new(program)
        .stdin(Stdio::piped())
        .stdout(Stdio::piped())
        .spawn()?;
    let mut input = child.stdin.take().expect("the input is piped");
    let script = [&lines.join(&b'\n')[..], b"\n"].concat();
    // A program that stops early closes its input; its answers tell the difference.
    let writer = thread::spawn(move || input.write_all(&script));
    let output = child.wait_with_output()?;
    let _ = writer.join();
    Ok(split(&output.stdout))
}

fn split(bytes: &[u8]) -> Vec<Line> {
    let mut lines: Vec<Line> = bytes.split(|&b| b == b'\n').map(<[u8]>::to_vec).collect();
    if lines.last().is_some_and(Vec::is_empty) {
        lines.pop();
    }
    lines
}

#[cfg(test)]
mod tests {
    use super::*;

    fn script(text: &str) -> Vec<Line> {
        text.lines().map(|line| line.as_bytes().to_vec()).collect()
    }

    /// A wrong program: it answers `bad` wrongly once `a` and then `b` were called.
    fn wrong(lines: &[Line]) -> io::Result<Option<usize>> {
        let mut agreed = 0;
        let mut seen = 0;
        for line in lines.iter().filter(|line| is_answered(line)) {
            match &line[..] {
                b"a" => seen = 1,
                b"b" if seen == 1 => seen = 2,
                b"bad" if seen == 2 => return Ok(Some(agreed)),
                _ => {}
            }
            agreed += 1;
        }
        Ok(None)
    }

    #[test]
    fn what_does_not_matter_is_left_out() {
        let long = "x\n# a comment\na\ny\n\nbad\nb\nz\nz\nz\nbad\nx\nbad";
        let short = shrink(script(long), wrong).unwrap();
        assert_eq!(short, Some(script("a\nb\nbad")));
    }

    #[test]
    fn a_script_that_agrees_is_not_shortened() {
        assert_eq!(shrink(script("b\na\nbad"), wrong).unwrap(), None);
    }
}
