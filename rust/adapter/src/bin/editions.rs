//! The proved free-volume and priority managers, held against a reading of
//! documents 01 and 02 in plain Rust (`compare/src/editions`), in both editions
//! of the end rule, under both delay rules, and with the strict flag off and on.
//!
//! Every call goes through both doors: the manager's own, which tests nothing,
//! and the total one, on a copy of the record. They must say and leave the same.
//! The opening that chooses nothing is one of edition 1, rule 1 and the flag off,
//! and is made beside it.

use std::process::ExitCode;

use adapter::doors::rated::Rated;
use oracle::editions::program;

fn main() -> ExitCode {
    program::main(Rated::of)
}
