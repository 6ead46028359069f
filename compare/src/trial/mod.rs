//! A library's calls held against a reading of the documents, call by call, in
//! dialogues from a seed: what the trials of single requests have in common
//! ([`crate::editions`], [`crate::modes`], [`crate::strict`]).

pub mod altered;
pub mod answers;
pub mod choices;
pub mod offers;
pub mod program;
pub mod scales;
pub mod shrink;
pub mod tally;
pub mod words;

use std::fmt;

use crate::drive::Progress;
use answers::Difference;

/// A dialogue: calls to one manager, which begins with nothing open.
pub trait Spoken: Clone {
    type Call: Clone + PartialEq + fmt::Display;
    /// Whose words are broken where an answer is as expected and yet wrong.
    const CLAIMED: &'static str;

    fn manager(&self) -> String;
    fn calls(&self) -> &Vec<Self::Call>;
    fn calls_mut(&mut self) -> &mut Vec<Self::Call>;
}

/// What was called and how it was answered.
pub trait Counted: Default + fmt::Display {
    fn calls(&self) -> usize;
    fn dialogues(&mut self) -> &mut usize;
    fn differences(&mut self) -> &mut usize;
}

pub struct Outcome<F, D: Spoken> {
    pub figures: F,
    pub found: Option<Found<D>>,
}

/// A difference, in the shortest dialogue found that shows one.
pub struct Found<D: Spoken> {
    pub dialogue: D,
    pub difference: Difference<D::Call>,
}

/// Plays dialogues until enough calls have been made or an answer is wrong.
/// `play` makes the calls of a dialogue, up to the first difference.
pub fn check<F: Counted, D: Spoken>(
    calls: usize,
    mut make: impl FnMut() -> D,
    play: impl Fn(&D, &mut F) -> Option<Difference<D::Call>>,
) -> Outcome<F, D> {
    let mut figures = F::default();
    let mut progress = Progress::new("calls", calls);
    let mut found = None;
    while found.is_none() && figures.calls() < calls {
        let dialogue = make();
        *figures.dialogues() += 1;
        if let Some(difference) = play(&dialogue, &mut figures) {
            *figures.differences() += 1;
            let again = |shorter: &D| play(shorter, &mut F::default());
            found = Some(shrink::shrink(again, &dialogue, difference));
        }
        progress.report(figures.calls());
    }
    Outcome { figures, found }
}
