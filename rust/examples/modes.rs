//! Asks the same of a pass whose rate was fitted as a line with slope 1, in both
//! modes of the polynomial manager, and prints what a planner sees.

use howrekano::{Bundle, DelaySegment, Interval, PolySeg, Polynome, PolynomialChoices, Refusal};

const WINDOW: Interval = Interval { start: 0, end: 12 };

/// Sizes that are asked for at the window's start.
const SIZES: [u64; 6] = [1, 8, 9, 40, 72, 73];

fn main() -> Result<(), Refusal> {
    println!(
        "Mode 2 takes the true integral of the rate; mode 1, the original's, drops the fractions \
         on the way.\n"
    );
    let Interval { end, .. } = WINDOW;
    for constant in [0, 3] {
        println!(
            "A pass of {end} ticks whose rate is {constant} at first and one more each tick:\n"
        );
        let passes = [opened(1, constant, 0)?, opened(2, constant, 0)?];
        println!("size | mode 1       | mode 2");
        for size in SIZES {
            let [ported, exact] = passes.map(|pass| sent(&pass, size));
            println!("{size:>4} | {ported:<11}  | {exact}");
        }
        let [ported, exact] = passes.map(|pass| largest(&pass));
        println!("\nThe largest that is offered: {ported} in mode 1, {exact} in mode 2.\n");
    }
    println!("The first line, written with an offset 2^30 ticks after the window's start:");
    for mode in [1, 2] {
        match opened(mode, 1 << 30, 1 << 30) {
            Ok(_) => println!("mode {mode}: opened"),
            Err(refusal) => println!("mode {mode}: {refusal}"),
        }
    }
    Ok(())
}

fn opened(mode: u64, constant: i64, offset: u64) -> Result<PolySeg, Refusal> {
    let line = Polynome {
        coefficients: [constant, 1, 0, 0],
        offset,
    };
    let delays = [DelaySegment {
        start: WINDOW.start,
        end: WINDOW.end,
        delay: 3,
    }];
    let choices = PolynomialChoices {
        mode,
        ..PolynomialChoices::default()
    };
    PolySeg::open_with(choices, WINDOW, line, &delays)
}

fn asked(pass: &PolySeg, size: u64) -> Result<Interval, Refusal> {
    let bundle = Bundle { size, priority: 0 };
    Ok(pass.dry_run(WINDOW.start, bundle)?.send)
}

fn sent(pass: &PolySeg, size: u64) -> String {
    match asked(pass, size) {
        Ok(send) => format!("{} to {}", send.start, send.end),
        Err(refusal) => format!("refused ({})", refusal.number()),
    }
}

/// The largest size that is offered, 0 where none is.
fn largest(pass: &PolySeg) -> u64 {
    let offered = (1..).take_while(|size| asked(pass, *size).is_ok());
    offered.last().unwrap_or_default()
}
