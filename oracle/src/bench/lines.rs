//! Lines from a stream of any length, taken in portions, and their answers.

use std::io::{self, BufWriter, ErrorKind, Read, Write};

/// The most bytes that a line may have, its LF not counted.
pub(super) const LONGEST: usize = 1024;

/// Answers every line of the input, in order.
pub(super) fn serve(
    mut input: impl Read,
    output: impl Write,
    mut answer: impl FnMut(&[u8]) -> Option<String>,
) -> io::Result<()> {
    let mut output = BufWriter::new(output);
    let mut portion = vec![0; 1 << 16];
    let mut line = Vec::new();
    loop {
        // The next read may wait for a caller who waits for these answers.
        output.flush()?;
        let length = read(&mut input, &mut portion)?;
        if length == 0 {
            break;
        }
        let mut rest = &portion[..length];
        while let Some(end) = rest.iter().position(|byte| *byte == b'\n') {
            keep(&mut line, &rest[..end]);
            put(&mut output, answer(&line))?;
            line.clear();
            rest = &rest[end + 1..];
        }
        keep(&mut line, rest);
    }
    if !line.is_empty() {
        put(&mut output, answer(&line))?;
    }
    output.flush()
}

fn read(input: &mut impl Read, portion: &mut [u8]) -> io::Result<usize> {
    loop {
        match input.read(portion) {
            Err(error) if error.kind() == ErrorKind::Interrupted => {}
            result => return result,
        }
    }
}

/// Adds to a line. One byte over the limit is enough to know that it is too long.
fn keep(line: &mut Vec<u8>, bytes: &[u8]) {
    let room = LONGEST + 1 - line.len();
    line.extend_from_slice(&bytes[..bytes.len().min(room)]);
}

fn put(output: &mut impl Write, answer: Option<String>) -> io::Result<()> {
    let Some(text) = answer else {
        return Ok(());
    };
    output.write_all(text.as_bytes())?;
    output.write_all(b"\n")
}

#[cfg(test)]
mod tests {
    use super::*;

    /// Gives its bytes in portions of a fixed size.
    struct Cut<'a>(&'a [u8], usize);

    impl Read for Cut<'_> {
        fn read(&mut self, portion: &mut [u8]) -> io::Result<usize> {
            let length = self.1.min(self.0.len());
            portion[..length].copy_from_slice(&self.0[..length]);
            self.0 = &self.0[length..];
            Ok(length)
        }
    }

    fn lengths(input: &[u8], cut: usize) -> String {
        let mut output = Vec::new();
        let length = |line: &[u8]| (!line.is_empty()).then(|| line.len().to_string());
        serve(Cut(input, cut), &mut output, length).expect("memory takes all");
        String::from_utf8(output).expect("digits")
    }

    #[test]
    fn lines_are_the_same_however_the_input_is_cut() {
        for cut in [1, 2, 3, 7, 100] {
            assert_eq!(lengths(b"a\n\nbcd\nlast", cut), "1\n3\n4\n");
        }
    }

    #[test]
    fn a_long_line_is_kept_to_one_byte_over_the_limit() {
        let long = [b'x'; 3000];
        assert_eq!(lengths(&long, 1000), "1025\n");
    }
}
