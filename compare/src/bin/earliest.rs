//! Checks a program's dry runs on priority records against document 02's R-8.

use std::process::ExitCode;

use oracle::drive::differ;
use oracle::earliest::claim::Place;
use oracle::earliest::watch::{About, Difference};
use oracle::earliest::{self, Outcome, Settings, Stop};
use oracle::frames::{Request, Span};
use oracle::terminal::{number, shown};

const HELP: &str = "\
earliest: feeds a program frames of document 01 and checks document 02's R-8 on
its answers: that a dry run on a priority record is offered the first place
there is.

  earliest --program PATH [--dry-runs N] [--seed S]

  --program PATH   reads frames on its standard input and writes one line for
                   each on its standard output; it is started afresh for every
                   run of up to about 200,000 frames
  --dry-runs N     check at least so many (200,000); the last run is finished,
                   so the figure is larger
  --seed S         the same seed gives the same frames (1)

The claim, on a record without an empty segment: the offer's start is the least
tick, not before the asked time and inside the window, from which the end rule
gives an end by the window's end and from which every instant up to that end,
the start itself included, is booked below the bundle's priority; and 7 is
answered exactly if there is no such tick.

It is worked out tick by tick from the window and the rates of the opening, from
document 01's end in exact terms, and from what the program itself has listed:
frame 12 is asked right before every dry run. The original's answers are not
looked at. A dry run must be answered 0 with these send dates, or 7; the receive
dates are not looked at. A list that does not cover the window as document 01
says is a difference too.

Runs of two sorts take turns: the dialogues of compare --kind priority, and
those of compare --kind filled, in which no send of zero length is booked, so
that no list has an empty segment. What is not checked is passed over and
counted: a record with an empty segment, a window of more than 4,096 ticks, a
bundle outside its limits, no priority record open.

On a difference the frames since the last opening are printed, with what is
listed, asked, answered and claimed, and the check ends.

The last line on standard output is the figure: checked N dry runs, D differences.
The lines before it say what these were. A difference, a program that does not
exit with 0 or does not write a line for each frame, or a run in which nothing
could be checked makes the exit status 1.
";

const DRY_RUNS: usize = 200_000;
const SEED: u64 = 1;

fn main() -> ExitCode {
    let arguments: Vec<String> = std::env::args().skip(1).collect();
    match read(&arguments) {
        Ok(Some(settings)) => check(&settings),
        Ok(None) => {
            print!("{HELP}");
            ExitCode::SUCCESS
        }
        Err(fault) => {
            eprintln!("{fault}; see earliest --help");
            ExitCode::from(2)
        }
    }
}

/// `None` asks for help.
fn read(arguments: &[String]) -> Result<Option<Settings>, String> {
    let (mut program, mut dry_runs, mut seed) = (None, DRY_RUNS, SEED);
    let mut arguments = arguments.iter();
    while let Some(name) = arguments.next() {
        if name == "--help" || name == "-h" {
            return Ok(None);
        }
        let value = arguments.next().ok_or(format!("{name} needs a value"))?;
        match name.as_str() {
            "--program" => program = Some(value.into()),
            "--dry-runs" => dry_runs = number(name, value)?,
            "--seed" => seed = number(name, value)?,
            _ => return Err(format!("{name} is not known")),
        }
    }
    Ok(Some(Settings {
        program: program.ok_or("--program is needed")?,
        dry_runs,
        seed,
    }))
}

fn check(settings: &Settings) -> ExitCode {
    match earliest::check(settings) {
        Ok(outcome) => report(&outcome),
        Err(error) => {
            eprintln!("{error}");
            ExitCode::from(2)
        }
    }
}

// ---------------------------------------------------------------------------
// Reports

fn report(outcome: &Outcome) -> ExitCode {
    match &outcome.stop {
        Some(Stop::Difference(difference)) => report_difference(difference),
        Some(Stop::BadEnd(end)) => println!("the program did not end well: {end}"),
        Some(Stop::Lines { asked, written }) => {
            println!("the program did not end well: {written} lines for {asked} frames");
        }
        Some(Stop::NothingChecked) => println!("a whole run in which nothing could be checked"),
        None => {}
    }
    println!("{}", outcome.figures);
    match outcome.stop {
        Some(_) => ExitCode::FAILURE,
        None => ExitCode::SUCCESS,
    }
}

fn report_difference(difference: &Difference) {
    println!("a difference; the frames since the last opening:");
    for line in differ::lines(&difference.frames) {
        println!("{}", shown(line));
    }
    match &difference.about {
        About::List(window) => {
            println!(
                "expected a list of bookings that covers [{},{})",
                window.start, window.end
            );
        }
        About::DryRun {
            listed,
            request,
            claim,
        } => report_dry_run(listed, *request, *claim),
    }
    println!("answered {}", shown(&difference.answer));
}

fn report_dry_run(listed: &[Span], request: Request, claim: Option<Place>) {
    let listed: Vec<String> = listed
        .iter()
        .map(|span| format!("[{},{}) {}", span.start, span.end, span.value))
        .collect();
    println!("listed {}", listed.join(", "));
    let Request { time, load } = request;
    println!(
        "asked at {time}, size {}, priority {}",
        load.size, load.priority
    );
    match claim {
        Some(Place { start, end }) => println!("claimed send {start},{end}"),
        None => println!("claimed 7: there is no such start"),
    }
}
