//! The program around the check, for whatever calls are under test.

use std::process::ExitCode;

use super::calls::Calls;
use super::dialogues::Modes;
use super::{Settings, check};
use crate::trial::program::{self, Program};

pub use crate::trial::program::Ended;

pub const HELP: &str = "\
modes: makes random calls to the polynomial manager, whose records name their
mode (document 02, R-6), their delay rule (R-4) and the strict flag (R-7), and
compares every answer with a reading of documents 01 and 02 in plain Rust, in
which the true integral is an exact fraction.

  modes [--calls N] [--seed S]

  --calls N   make at least so many calls (1,000,000); the last dialogue is
              finished, so the figure is larger
  --seed S    the same seed gives the same calls (1)

After each booking, refused ones too, the whole list is compared as well. On
every offer and accepted booking in mode 2 R-6's claim is held: its end has
enough exact capacity, and one tick earlier has less, unless it is exactly the
size. On windows of up to 512 ticks the capacity is worked out tick by tick too,
and where the rate is above zero at every tick and not below zero at every half
tick no earlier tick has enough. About half of what is opened is under rule 2,
and half is strict. Modes, rules and flags that are none are stated in openings
and written into records; the other mode, rule and flag, offsets and coefficients
are written too.

On a difference a short dialogue that shows it is printed, and the check ends.
The answer 254 is none of document 01's: the ways to make a call do not agree, as
is told on standard error.
The last line on standard output is the figure: compared N calls, D differences.
The lines before it say what these were. A difference makes the exit status 1.
";

const PROGRAM: Program = Program {
    name: "modes",
    help: HELP,
};

/// The whole program over the process's arguments.
pub fn main<C: Calls>(make: impl Fn() -> C) -> ExitCode {
    run(&program::arguments(), make).exit()
}

pub fn run<C: Calls>(arguments: &[String], make: impl Fn() -> C) -> Ended {
    program::run(&PROGRAM, arguments, |asked| {
        let settings = Settings {
            calls: asked.calls,
            seed: asked.seed,
            modes: Modes::Both,
        };
        check(&settings, make)
    })
}
