//! The program around a check, for whatever calls are under test: its
//! arguments, its report and its exit status.

use std::fmt::Write;
use std::process::ExitCode;

use super::{Counted, Outcome, Spoken};
use crate::terminal::number;

const CALLS: usize = 1_000_000;
const SEED: u64 = 1;

/// What is told apart from other programs.
pub struct Program {
    pub name: &'static str,
    pub help: &'static str,
}

/// What the arguments ask for.
pub struct Asked {
    /// At least so many are made; the last dialogue is finished.
    pub calls: usize,
    pub seed: u64,
}

/// What is written, and the exit status.
pub struct Ended {
    pub output: String,
    pub errors: String,
    pub status: u8,
}

impl Ended {
    fn well(output: String) -> Self {
        Ended {
            output,
            errors: String::new(),
            status: 0,
        }
    }

    /// Written and ended as it says.
    pub fn exit(self) -> ExitCode {
        print!("{}", self.output);
        eprint!("{}", self.errors);
        ExitCode::from(self.status)
    }
}

/// The process's arguments.
pub fn arguments() -> Vec<String> {
    std::env::args().skip(1).collect()
}

pub fn run<F: Counted, D: Spoken>(
    program: &Program,
    arguments: &[String],
    check: impl FnOnce(Asked) -> Outcome<F, D>,
) -> Ended {
    match read(arguments) {
        Ok(Some(asked)) => report(&check(asked)),
        Ok(None) => Ended::well(program.help.into()),
        Err(fault) => Ended {
            output: String::new(),
            errors: format!("{fault}; see {} --help\n", program.name),
            status: 2,
        },
    }
}

/// `None` asks for help.
fn read(arguments: &[String]) -> Result<Option<Asked>, String> {
    let mut asked = Asked {
        calls: CALLS,
        seed: SEED,
    };
    let mut arguments = arguments.iter();
    while let Some(name) = arguments.next() {
        if name == "--help" || name == "-h" {
            return Ok(None);
        }
        let value = arguments.next().ok_or(format!("{name} needs a value"))?;
        match name.as_str() {
            "--calls" => asked.calls = number(name, value)?,
            "--seed" => asked.seed = number(name, value)?,
            _ => return Err(format!("{name} is not known")),
        }
    }
    Ok(Some(asked))
}

fn report<F: Counted, D: Spoken>(outcome: &Outcome<F, D>) -> Ended {
    let mut output = String::new();
    if let Some(found) = &outcome.found {
        write!(output, "{found}").expect("a string takes it");
    }
    output += &format!("{}\n", outcome.figures);
    let status = outcome.found.is_some().into();
    Ended {
        status,
        ..Ended::well(output)
    }
}
