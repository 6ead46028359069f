//! The program around the check, for whatever calls are under test.

use std::process::ExitCode;

use super::calls::Calls;
use super::dialogues::Editions;
use super::terms::Manager;
use super::{Settings, check};
use crate::trial::program::{self, Program};

pub use crate::trial::program::Ended;

pub const HELP: &str = "\
editions: makes random calls to the free-volume and the priority manager, whose
records name their edition (document 02, R-5), their delay rule (R-4) and the
strict flag (R-7), and compares every answer with a reading of documents 01 and 02
in plain Rust.

  editions [--calls N] [--seed S]

  --calls N   make at least so many calls (1,000,000); the last dialogue is
              finished, so the figure is larger
  --seed S    the same seed gives the same calls (1)

After each booking, refused ones too, the whole list and the room are compared
as well. On free-volume records opened fresh on windows of up to 4,096 ticks
demand 3's sums are held tick by tick on the answers: under edition 2 in R-5's
words, under edition 1 in the demand's own. About two openings in three are under
rule 2, and half of them are strict. Editions, rules and flags that are none are
stated in openings and written into records.

On a difference a short dialogue that shows it is printed, and the check ends.
The answer 254 is none of document 01's: the ways to make a call do not agree, as
is told on standard error.
The last line on standard output is the figure: compared N calls, M of them
under edition 2, D differences. The lines before it say what these were. A
difference makes the exit status 1.
";

const PROGRAM: Program = Program {
    name: "editions",
    help: HELP,
};

/// The whole program over the process's arguments.
pub fn main<C: Calls>(make: impl Fn(Manager) -> C) -> ExitCode {
    run(&program::arguments(), make).exit()
}

pub fn run<C: Calls>(arguments: &[String], make: impl Fn(Manager) -> C) -> Ended {
    program::run(&PROGRAM, arguments, |asked| {
        let settings = Settings {
            calls: asked.calls,
            seed: asked.seed,
            editions: Editions::Both,
        };
        check(&settings, make)
    })
}
