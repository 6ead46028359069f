//! Document 02's R-6 read from the documents' words, R-4's rules with it: by hand,
//! against the original in mode 1 and under rule 1, and held against programs that
//! are wrong.

mod by_hand;
mod claims;
mod itself;
#[path = "../lookups/mod.rs"]
mod lookups;
mod original;
mod program;
mod refused;
mod ways;
mod wrong;

use oracle::frames::{PolyOpening, Window};
use oracle::modes::calls::Calls;
use oracle::modes::reading::Reading;
use oracle::modes::terms::Opening;
use oracle::rules::EARLIER;
use oracle::stated::poly_a;
use oracle::strict::flag::OFF;

/// Case 10's contact with these coefficients, in this mode, under rule 1 and with the
/// flag off.
fn opening_a(mode: u64, coefficients: [i64; 4]) -> Opening {
    Opening {
        mode,
        rule: EARLIER,
        strict: OFF,
        contact: PolyOpening {
            coefficients,
            ..poly_a()
        },
    }
}

/// One tick beside the offset: each step of the range rule is a sum.
fn one_tick(mode: u64, coefficients: [i64; 4]) -> Opening {
    let mut opening = opening_a(mode, coefficients);
    opening.contact.window = Window { start: 0, end: 1 };
    opening
}

fn opened(opening: &Opening) -> Reading {
    let mut reading = Reading::default();
    assert_eq!(reading.open(opening), Ok(()));
    reading
}
