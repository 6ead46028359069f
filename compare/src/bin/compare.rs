//! Compares a program with the original contact managers, frame by frame.

use std::path::{Path, PathBuf};
use std::process::ExitCode;

use oracle::drive::differ::Difference;
use oracle::drive::{self, Found, Outcome, Settings};
use oracle::generate::{Kind, list};
use oracle::terminal::{number, shown};

const HELP: &str = "\
compare: feeds a program and the original contact managers the same frames of
document 01, frame 15 of document 02's R-1 and frames 21 to 23 of its R-4, and
compares their answers line by line.

  compare --program PATH [--frames N] [--seed S] [--kind KIND] [--dump FILE]
  compare --dump FILE [--frames N] [--seed S] [--kind KIND]
  compare --make-list DIR

  --program PATH   reads frames on its standard input and writes one line for
                   each on its standard output; it is started afresh for every
                   200,000 frames
  --frames N       compare at least so many (1,000,000); the last dialogue is
                   finished, so the figure is a little larger
  --seed S         the same seed gives the same frames (1)
  --kind KIND      free, priority, poly, queue, malformed, room, filled, rules
                   or all (all); room is free with frame 15 after every other
                   frame, filled is priority without a booking of zero length;
                   all contains neither; rules is frames 21 to 23 under both
                   delay rules
  --dump FILE      also write the frames to FILE and the expected answers to
                   FILE.answers; all frames are then one run of the program.
                   Without --program they are only written
  --make-list DIR  write the stored list, some thousands of frames, always the
                   same, to DIR/stdin and the original's answers to DIR/stdout

Frames come in dialogues that begin with an opening. Half of each manager's are
tiny contacts, with every asked time and size, fresh and after every booking,
until there are no more; the others are random: small contacts, long ones whose
list grows to 64 segments and past it, contacts at the limits, wrong openings,
stale and changed offers, malformed lines. All of them ask frame 15 now and
then. The original has no such figure: the original's own list is added up.
Nor has it rule 2: what a frame 21, 22 or 23 opens under it is answered by a
reading of documents 01 and 02; under rule 1 the original itself is opened.

On a difference the frames since the last opening are run again, on the program
started afresh and on a new oracle, with ever fewer frames; the shortest run
that still shows a difference is printed with both answers.

The last line on standard output is the figure: compared N frames, D differences.
The lines before it say how many of them were frame 15, and how many were
answered by the reading of rule 2 and how many by the original; the others were
asked of no manager.
A difference, or a program that does not exit with 0, makes the exit status 1.
";

enum Command {
    Help,
    MakeList(PathBuf),
    Compare(Settings),
}

fn main() -> ExitCode {
    let arguments: Vec<String> = std::env::args().skip(1).collect();
    match read(&arguments) {
        Ok(command) => run(command),
        Err(fault) => {
            eprintln!("{fault}; see compare --help");
            ExitCode::from(2)
        }
    }
}

fn run(command: Command) -> ExitCode {
    let result = match command {
        Command::Help => {
            print!("{HELP}");
            return ExitCode::SUCCESS;
        }
        Command::MakeList(folder) => make_list(&folder),
        Command::Compare(settings) => compare(&settings),
    };
    result.unwrap_or_else(|error| {
        eprintln!("{error}");
        ExitCode::from(2)
    })
}

// ---------------------------------------------------------------------------
// Arguments

fn read(arguments: &[String]) -> Result<Command, String> {
    let mut settings = Settings {
        program: None,
        frames: 1_000_000,
        seed: 1,
        kind: Kind::All,
        dump: None,
    };
    let mut list = None;
    let mut arguments = arguments.iter();
    while let Some(name) = arguments.next() {
        if name == "--help" || name == "-h" {
            return Ok(Command::Help);
        }
        let value = arguments.next().ok_or(format!("{name} needs a value"))?;
        match name.as_str() {
            "--program" => settings.program = Some(value.into()),
            "--frames" => settings.frames = number(name, value)?,
            "--seed" => settings.seed = number(name, value)?,
            "--kind" => settings.kind = kind(value)?,
            "--dump" => settings.dump = Some(value.into()),
            "--make-list" => list = Some(PathBuf::from(value)),
            _ => return Err(format!("{name} is not known")),
        }
    }
    match list {
        Some(folder) => Ok(Command::MakeList(folder)),
        None if settings.program.is_none() && settings.dump.is_none() => {
            Err("--program, --dump or --make-list is needed".into())
        }
        None => Ok(Command::Compare(settings)),
    }
}

fn kind(value: &str) -> Result<Kind, String> {
    Kind::named(value).ok_or(format!("--kind {value} is not known"))
}

// ---------------------------------------------------------------------------
// Reports

fn make_list(folder: &Path) -> std::io::Result<ExitCode> {
    let count = list::write(folder)?;
    println!("listed {count} frames");
    Ok(ExitCode::SUCCESS)
}

fn compare(settings: &Settings) -> std::io::Result<ExitCode> {
    let outcome = drive::compare(settings)?;
    if settings.program.is_some() {
        return Ok(report(&outcome));
    }
    println!("wrote {} frames", outcome.compared);
    Ok(ExitCode::SUCCESS)
}

fn report(outcome: &Outcome) -> ExitCode {
    if let Some(found) = &outcome.found {
        report_found(found);
    }
    if let Some(end) = outcome.bad_end {
        println!("the program did not end well: {end}");
    }
    if outcome.rooms > 0 {
        println!("of them {} frames 15", outcome.rooms);
    }
    if outcome.by_reading > 0 {
        println!(
            "of them {} frames answered by the reading of rule 2, {} by the original",
            outcome.by_reading, outcome.by_original
        );
    }
    println!(
        "compared {} frames, {} differences",
        outcome.compared, outcome.differences
    );
    match outcome.found.is_some() || outcome.bad_end.is_some() {
        true => ExitCode::FAILURE,
        false => ExitCode::SUCCESS,
    }
}

fn report_found(found: &Found) {
    match &found.shortest {
        Some((lines, difference)) => {
            println!("the shortest run found that shows a difference:");
            for line in lines {
                println!("{}", shown(line));
            }
            report_difference(difference);
        }
        None => {
            println!("a difference that is not shown when the program is run afresh:");
            println!("{}", shown(&found.frame));
            report_difference(&found.difference);
        }
    }
}

fn report_difference(difference: &Difference) {
    let side = |line: &Option<Vec<u8>>| match line {
        Some(line) if line.ends_with(b"\n") => shown(line),
        Some(line) => format!("{} (without a line end)", shown(line)),
        None => "(no line)".into(),
    };
    println!("expected {}", side(&difference.expected));
    println!("answered {}", side(&difference.got));
}
