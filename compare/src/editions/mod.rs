//! Document 02's R-5 held against a library's calls: free-volume and priority
//! records that name their edition of the end rule, their delay rule and the
//! strict flag.
//!
//! [`reading`] answers every call from the words of documents 01 and 02 alone;
//! [`dialogues`] makes calls from a seed; [`play`] holds the answers of the
//! calls under test ([`calls`]) against the reading's, and demand 3 against
//! them tick by tick ([`sums`]).

pub mod calls;
pub mod dialogues;
pub mod figures;
pub mod play;
pub mod program;
pub mod reading;
pub mod sums;
pub mod terms;

use crate::trial;
use calls::Calls;
use dialogues::{Dialogues, Editions};
use figures::Figures;
use terms::{Dialogue, Manager};

pub struct Settings {
    /// At least so many are made; the last dialogue is finished.
    pub calls: usize,
    pub seed: u64,
    pub editions: Editions,
}

pub type Outcome = trial::Outcome<Figures, Dialogue>;

/// Plays dialogues until enough calls have been made or an answer is wrong.
/// `make` gives the calls of a manager with nothing open.
pub fn check<C: Calls>(settings: &Settings, make: impl Fn(Manager) -> C) -> Outcome {
    let mut dialogues = Dialogues::of(settings.seed, settings.editions);
    let play = |dialogue: &Dialogue, figures: &mut Figures| {
        play::play(dialogue, &mut make(dialogue.manager), figures)
    };
    trial::check(settings.calls, || dialogues.dialogue(), play)
}
