//! Asks for the same sends on a pass whose delay changes twice, under both rules of
//! the delays, and prints when each is received; then opens a polynomial pass whose
//! delays stop early.

use howrekano::{
    Bundle, Choices, DelaySegment, FreeVolume, Interval, Offer, PolySeg, Polynome,
    PolynomialChoices, RateSegment, Refusal,
};

const WINDOW: Interval = Interval { start: 0, end: 12 };
const RATE: u64 = 10;

/// The far station switches its antenna at 4 and at 8.
const DELAYS: [DelaySegment; 3] = [delay(0, 4, 30), delay(4, 8, 20), delay(8, 12, 25)];

/// Sends that start or end at a switch, at the window's ends, or elsewhere.
const SENT: [(u64, u64); 7] = [(0, 1), (2, 3), (3, 4), (4, 5), (4, 8), (5, 9), (8, 12)];

const fn delay(start: u64, end: u64, delay: u64) -> DelaySegment {
    DelaySegment { start, end, delay }
}

fn main() -> Result<(), Refusal> {
    println!(
        "Rule 2 gives the tick at which a delay changes to what follows; rule 1, the original's, to \
         what ends there.\n"
    );
    println!("A pass of {} ticks:\n", WINDOW.end);
    for DelaySegment { start, end, delay } in DELAYS {
        println!("from {start:>2} to {end:>2}: delay {delay}");
    }
    let passes = [rated(1)?, rated(2)?];
    println!("\n         | received");
    println!("sent     | rule 1    rule 2");
    for (start, end) in SENT {
        let [first, second] = passes.map(|pass| received(&pass, start, end));
        let mark = if first == second { "" } else { "  differ" };
        println!("{start} to {end:<2}  | {first}  {second}{mark}");
    }
    println!("\nA polynomial pass whose delays end at 8, asked for a tick from 8 on:");
    for rule in [1, 2] {
        match polynomial(rule).and_then(|pass| pass.dry_run(8, ticks(1))) {
            Ok(offer) => println!("rule {rule}: {offer:?}"),
            Err(refusal) => println!("rule {rule}: {refusal}"),
        }
    }
    Ok(())
}

fn rated(rule: u64) -> Result<FreeVolume, Refusal> {
    let choices = Choices {
        rule,
        ..Choices::default()
    };
    let Interval { start, end } = WINDOW;
    let rates = [RateSegment {
        start,
        end,
        rate: RATE,
    }];
    FreeVolume::open_with(choices, WINDOW, &rates, &DELAYS)
}

fn polynomial(rule: u64) -> Result<PolySeg, Refusal> {
    let choices = PolynomialChoices {
        rule,
        ..PolynomialChoices::default()
    };
    let flat = Polynome {
        coefficients: [RATE as i64, 0, 0, 0],
        offset: 0,
    };
    PolySeg::open_with(choices, WINDOW, flat, &DELAYS[..2])
}

/// What is sent in so many ticks.
fn ticks(ticks: u64) -> Bundle {
    Bundle {
        size: RATE * ticks,
        priority: 0,
    }
}

fn received(pass: &FreeVolume, start: u64, end: u64) -> String {
    match pass.dry_run(start, ticks(end - start)) {
        Ok(Offer { recv, .. }) => format!("{} to {}", recv.start, recv.end),
        Err(refusal) => format!("refused ({})", refusal.number()),
    }
}
