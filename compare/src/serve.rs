//! A program that answers frames, line by line.

use std::io::{self, BufRead, BufReader, BufWriter, Read, Write};

use crate::Oracle;

const BUFFER: usize = 1 << 16;

/// Frames on standard input, answers on standard output. A frame whose answer
/// is `fe` is repeated on standard error.
pub fn stdin_to_stdout(oracle: Oracle) -> io::Result<()> {
    let input = BufReader::with_capacity(BUFFER, io::stdin().lock());
    let output = BufWriter::with_capacity(BUFFER, io::stdout().lock());
    answer_all(oracle, input, output)
}

fn answer_all(
    mut oracle: Oracle,
    mut input: BufReader<impl Read>,
    mut output: impl Write,
) -> io::Result<()> {
    let mut line = Vec::new();
    let mut answer = Vec::new();
    loop {
        line.clear();
        if input.read_until(b'\n', &mut line)? == 0 {
            return output.flush();
        }
        let frame = line.strip_suffix(b"\n").unwrap_or(&line);
        answer.clear();
        oracle.answer_into(frame, &mut answer);
        if answer == b"fe" {
            eprintln!("fault: {}", String::from_utf8_lossy(frame));
        }
        answer.push(b'\n');
        output.write_all(&answer)?;
        // Whoever waits for an answer before the next frame gets it.
        if input.buffer().is_empty() {
            output.flush()?;
        }
    }
}
