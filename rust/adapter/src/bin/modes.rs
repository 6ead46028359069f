//! The proved polynomial manager, held against a reading of documents 01 and 02
//! in plain Rust (`compare/src/modes`), in both modes of its capacity, under both
//! delay rules, and with the strict flag off and on.
//!
//! Every call goes through both doors: the manager's own, which tests nothing,
//! and the total one, on a copy of the record. They must say and leave the same.
//! The opening that chooses nothing is one of mode 1, rule 1 and the flag off, and
//! is made beside it.

use std::process::ExitCode;

use adapter::doors::poly::Tested;
use oracle::modes::program;

fn main() -> ExitCode {
    program::main(Tested::nothing_open)
}
