//! Document 02's R-8, checked tick by tick: it holds on the oracle, wrong
//! answers are seen, and it needs records without an empty segment.

mod by_hand;
mod empty;
mod holds;
mod program;
#[path = "../programs/mod.rs"]
mod programs;
mod watched;
mod wrong;

use oracle::Oracle;
use oracle::drive::differ;
use oracle::frames::{Content, Frame, Span};

/// The lines of a run, without their line ends.
fn lines(text: &[u8]) -> impl Iterator<Item = &[u8]> {
    differ::lines(text).map(differ::bare)
}

/// What a priority record lists.
fn listed(oracle: &mut Oracle) -> Vec<Span> {
    match oracle.answer_frame(&Frame::List) {
        Ok(Content::Segments(spans)) => spans,
        other => panic!("no list: {other:?}"),
    }
}
