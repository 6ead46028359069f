//! The proved managers, all four, held against a reading of documents 01 and 02 in
//! plain Rust (`compare/src/strict`), half of them with the strict flag on, and
//! against themselves with the other flag.
//!
//! Every call goes through both doors: the manager's own, which tests nothing,
//! and the total one, on a copy of the record. They must say and leave the same.
//! The opening that chooses nothing has the flag off, and is made beside it.

use std::process::ExitCode;

use adapter::doors::rated::Rated;
use adapter::doors::{poly, queue};
use oracle::strict::calls::OneOf;
use oracle::strict::program;
use oracle::strict::terms::Manager;

fn main() -> ExitCode {
    program::main(|manager| match (manager, manager.rated()) {
        (_, Some(which)) => OneOf::Rated(Rated::of(which)),
        (Manager::Poly, None) => OneOf::Poly(poly::Tested::nothing_open()),
        (_, None) => OneOf::Queue(queue::Tested::nothing_open()),
    })
}
