//! Document 02's R-5 read from the documents' words, R-4's rules with it: by hand,
//! against the original under edition 1 and rule 1, and held against programs that
//! are wrong.

mod by_hand;
mod itself;
#[path = "../lookups/mod.rs"]
mod lookups;
mod original;
mod program;
mod sums;
mod ways;
mod wrong;

use oracle::editions::terms::Opening;
use oracle::frames::{RatedOpening, Span};
use oracle::rules::EARLIER;
use oracle::stated::{contact_a, spans_of};
use oracle::strict::flag::OFF;

/// Any contact in this edition, under rule 1 and with the flag off.
fn opening_of(edition: u64, contact: RatedOpening) -> Opening {
    Opening {
        edition,
        rule: EARLIER,
        strict: OFF,
        contact,
    }
}

/// Contact A of document 01, in this edition.
fn opening_a(edition: u64) -> Opening {
    opening_of(edition, contact_a())
}

/// Contact A with other rates.
fn rated_a<const N: usize>(edition: u64, rates: [(i64, i64, i64); N]) -> Opening {
    let contact = RatedOpening {
        rates: spans_of(rates),
        ..contact_a()
    };
    opening_of(edition, contact)
}

fn listed(spans: &[Span]) -> Vec<(i64, i64, i64)> {
    spans
        .iter()
        .map(|span| (span.start, span.end, span.value))
        .collect()
}
