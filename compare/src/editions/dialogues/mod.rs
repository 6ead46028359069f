//! Random dialogues from a seed.

pub(crate) mod asked;
pub(crate) mod contacts;
mod talk;
pub(crate) mod wrong;

use super::terms::{Dialogue, FIRST, Manager, SECOND};
use crate::generate::rng::Rng;
use crate::rules::EARLIER;
use crate::strict::flag::OFF;
use crate::trial::choices::{self, Chosen};
use talk::Talk;

/// Which editions, rules and flags are chosen.
#[derive(Clone, Copy, Debug, PartialEq, Eq)]
pub enum Editions {
    /// Mostly edition 2 and rule 2, half of them strict, and now and then one that
    /// is none.
    Both,
    /// Edition 1 and rule 1 alone, the flag off: there is an original to compare
    /// with.
    First,
}

/// Of so many dialogues one is of edition 1.
const FIRST_SHARE: usize = 4;

impl Editions {
    fn pick(self, rng: &mut Rng) -> Chosen {
        if self == Editions::First {
            return Chosen {
                kind: FIRST,
                rule: EARLIER,
                strict: OFF,
            };
        }
        let kind = match rng.once_in(FIRST_SHARE) {
            true => FIRST,
            false => SECOND,
        };
        Chosen {
            kind,
            rule: choices::rule(rng),
            strict: choices::strict(rng),
        }
    }
}

pub struct Dialogues {
    rng: Rng,
    editions: Editions,
}

impl Dialogues {
    pub fn of(seed: u64, editions: Editions) -> Self {
        Dialogues {
            rng: Rng::new(seed),
            editions,
        }
    }

    pub fn dialogue(&mut self) -> Dialogue {
        let manager = self.rng.pick(&[Manager::Free, Manager::Priority]);
        Talk::of(&mut self.rng, manager, self.editions).whole()
    }
}
