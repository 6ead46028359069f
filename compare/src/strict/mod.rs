//! Document 02's R-7 held against a library's calls: records of all four managers
//! that name the strict flag.
//!
//! The flag is in the readings of R-5 ([`crate::editions`]) and R-6
//! ([`crate::modes`]) and in that of the queue manager ([`queues`]); what it refuses
//! stands in one place ([`flag`]). [`dialogues`] makes calls from a seed; [`play`]
//! holds the answers of the calls under test ([`calls`]) against the reading's
//! ([`reading`]), against those of the same contact with the other flag ([`twins`]),
//! and against what R-7 says of all answers ([`claims`]).

pub mod calls;
pub mod claims;
pub mod dialogues;
pub mod figures;
pub mod flag;
pub mod play;
pub mod program;
pub mod queues;
pub mod reading;
pub mod terms;
pub mod twins;

use crate::trial;
use calls::Calls;
use dialogues::{Choices, Dialogues};
use figures::Figures;
use terms::{Dialogue, Manager};

pub struct Settings {
    /// At least so many are made; the last dialogue is finished.
    pub calls: usize,
    pub seed: u64,
    pub choices: Choices,
}

pub type Outcome = trial::Outcome<Figures, Dialogue>;

/// Plays dialogues until enough calls have been made or an answer is wrong.
/// `make` gives the calls of a manager with nothing open.
pub fn check<C: Calls>(settings: &Settings, make: impl Fn(Manager) -> C) -> Outcome {
    let mut dialogues = Dialogues::of(settings.seed, settings.choices);
    let play = |dialogue: &Dialogue, figures: &mut Figures| play::play(dialogue, &make, figures);
    trial::check(settings.calls, || dialogues.dialogue(), play)
}
