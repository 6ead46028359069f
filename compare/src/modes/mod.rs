//! Document 02's R-6 held against a library's calls: polynomial records that
//! name their mode, the ported capacity or the true integral, their delay rule
//! and the strict flag.
//!
//! [`reading`] answers every call from the words of documents 01 and 02 alone,
//! the true integral in exact fractions; [`dialogues`] makes calls from a seed;
//! [`play`] holds the answers of the calls under test ([`calls`]) against the
//! reading's, and R-6's claims against them ([`claims`]), tick by tick where the
//! window is short ([`ticks`]).

pub mod calls;
pub mod claims;
pub mod dialogues;
pub mod figures;
pub mod play;
pub mod program;
pub mod reading;
pub mod terms;
pub mod ticks;

use crate::trial;
use calls::Calls;
use dialogues::{Dialogues, Modes};
use figures::Figures;
use terms::Dialogue;

pub struct Settings {
    /// At least so many are made; the last dialogue is finished.
    pub calls: usize,
    pub seed: u64,
    pub modes: Modes,
}

pub type Outcome = trial::Outcome<Figures, Dialogue>;

/// Plays dialogues until enough calls have been made or an answer is wrong.
/// `make` gives the calls of a manager with nothing open.
pub fn check<C: Calls>(settings: &Settings, make: impl Fn() -> C) -> Outcome {
    let mut dialogues = Dialogues::of(settings.seed, settings.modes);
    let play =
        |dialogue: &Dialogue, figures: &mut Figures| play::play(dialogue, &mut make(), figures);
    trial::check(settings.calls, || dialogues.dialogue(), play)
}
