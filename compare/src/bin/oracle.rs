//! Frames on standard input, the original's answers on standard output; under rule 2
//! of document 02's R-4 a reading's.

use std::io;

use oracle::{Oracle, serve};

const HELP: &str = "\
oracle: reads document 01's frames on standard input, one a line, and writes the
original contact managers' answer to each on standard output. Frame 15 (document
02, R-1) is answered with the sum over the original's own list. Frames 21 to 23
(R-4) open the original under rule 1; under rule 2, which it does not have, a
reading of documents 01 and 02 answers.

The answer fe is none of document 01's: the original panicked, or answered what
no answer can hold. The frame is then repeated on standard error.
";

fn main() -> io::Result<()> {
    if std::env::args().nth(1).is_some() {
        print!("{HELP}");
        return Ok(());
    }
    serve::stdin_to_stdout(Oracle::new())
}
