//! Random dialogues from a seed.

pub(crate) mod asked;
pub(crate) mod contacts;
mod shapes;
mod talk;
pub(crate) mod wrong;

use super::terms::{Dialogue, EXACT, PORTED};
use crate::generate::rng::Rng;
use crate::rules::EARLIER;
use crate::strict::flag::OFF;
use crate::trial::choices::{self, Chosen};
use talk::Talk;

/// Which modes, rules and flags are chosen.
#[derive(Clone, Copy, Debug, PartialEq, Eq)]
pub enum Modes {
    /// Mostly mode 2 and rule 2, half of them strict, and now and then one that is
    /// none.
    Both,
    /// Mode 1 and rule 1 alone, the flag off: there is an original to compare with.
    Ported,
}

/// Of so many openings one is in mode 1.
const PORTED_SHARE: usize = 4;

impl Modes {
    fn pick(self, rng: &mut Rng) -> Chosen {
        if self == Modes::Ported {
            return Chosen {
                kind: PORTED,
                rule: EARLIER,
                strict: OFF,
            };
        }
        let kind = match rng.once_in(PORTED_SHARE) {
            true => PORTED,
            false => EXACT,
        };
        Chosen {
            kind,
            rule: choices::rule(rng),
            strict: choices::strict(rng),
        }
    }
}

pub struct Dialogues {
    rng: Rng,
    modes: Modes,
}

impl Dialogues {
    pub fn of(seed: u64, modes: Modes) -> Self {
        Dialogues {
            rng: Rng::new(seed),
            modes,
        }
    }

    pub fn dialogue(&mut self) -> Dialogue {
        Talk::of(&mut self.rng, self.modes).whole()
    }
}
