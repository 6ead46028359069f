//! The program around the check, for whatever calls are under test.

use std::process::ExitCode;

use super::calls::Calls;
use super::dialogues::Choices;
use super::terms::Manager;
use super::{Settings, check};
use crate::trial::program::{self, Program};

pub use crate::trial::program::Ended;

pub const HELP: &str = "\
strict: makes random calls to the four managers, whose records name the strict
flag (document 02, R-7), half of them with the flag on, and compares every answer
with a reading of documents 01 and 02 in plain Rust.

  strict [--calls N] [--seed S]

  --calls N   make at least so many calls (1,000,000); the last dialogue is
              finished, so the figure is larger
  --seed S    the same seed gives the same calls (1)

Many bundles are smaller than what a tick carries, so that offers of zero length
are common. They are booked, on lists of 63 and 64 segments and on queues at their
limit too; equal send dates that are not offered are stated; flags that are none
are stated in openings and written into records, and the other flag is written.
Editions, modes and delay rules are mixed in. After each booking, refused ones too,
the whole list and the room are compared as well.

Each contact is opened a second time with the other flag, and this twin is asked
the same. But for 17 it must answer the same: no part of this is taken from the
reading. What the strict one refuses with 17 is made with the flag off on a copy,
and must be 0, 10 or 13 there. Held on the answers as well: what is booked under
the flag has a length; strict free-volume records opened fresh take no more
bookings than the window has ticks, with demand 3's sums tick by tick on windows of
up to 4,096 of them; strict priority records opened fresh list no empty segment;
edition 2 and the polynomial manager never answer 17.

On a difference a short dialogue that shows it is printed, and the check ends.
The answer 254 is none of document 01's: the ways to make a call do not agree, as
is told on standard error.
The last line on standard output is the figure: compared N calls, M of them
strict, D differences. The lines before it say what these were. A difference makes
the exit status 1.
";

const PROGRAM: Program = Program {
    name: "strict",
    help: HELP,
};

/// The whole program over the process's arguments.
pub fn main<C: Calls>(make: impl Fn(Manager) -> C) -> ExitCode {
    run(&program::arguments(), make).exit()
}

pub fn run<C: Calls>(arguments: &[String], make: impl Fn(Manager) -> C) -> Ended {
    program::run(&PROGRAM, arguments, |asked| {
        let settings = Settings {
            calls: asked.calls,
            seed: asked.seed,
            choices: Choices::All,
        };
        check(&settings, make)
    })
}
