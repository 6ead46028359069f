//! Random dialogues from a seed.

mod asked;
mod contacts;
mod fields;
mod talk;

use super::flag::{OFF, ON, is_flag};
use super::terms::{Dialogue, Manager};
use crate::editions::terms::{FIRST, SECOND};
use crate::generate::rng::Rng;
use crate::rules::EARLIER;
use crate::trial::choices::{self, Chosen};
use talk::Talk;

/// What is chosen beside the flag.
#[derive(Clone, Copy, Debug, PartialEq, Eq)]
pub enum Choices {
    /// Editions, modes and rules, and now and then choices that are none.
    All,
    /// Edition 1, mode 1 and rule 1 alone, and nothing is written into records:
    /// with the flag off there is an original to compare with.
    Original,
}

/// Of so many openings one is of edition 2, where no send is of zero length.
const SECOND_SHARE: usize = 4;
/// Of so many openings this part is strict: a little more than half, as calls on
/// records whose flag is none are neither.
const STRICT_SHARE: (usize, usize) = (5, 9);

impl Choices {
    /// Modes have the editions' numbers.
    fn pick(self, rng: &mut Rng, manager: Manager) -> Chosen {
        let (part, all) = STRICT_SHARE;
        let strict = if rng.below(all) < part { ON } else { OFF };
        let share = match manager {
            Manager::Poly => 2,
            _ => SECOND_SHARE,
        };
        match self {
            Choices::Original => Chosen {
                kind: FIRST,
                rule: EARLIER,
                strict,
            },
            Choices::All => Chosen {
                kind: if rng.once_in(share) { SECOND } else { FIRST },
                rule: choices::rule(rng),
                strict,
            },
        }
    }

    /// One of the choices is none, or all are; a queue opening chooses its flag
    /// alone.
    fn spoil(self, rng: &mut Rng, manager: Manager, chosen: Chosen) -> Chosen {
        let spoiled = choices::spoiled(rng, chosen);
        if is_flag(spoiled.strict) && (manager == Manager::Queue || rng.once_in(2)) {
            let strict = choices::no_flag(rng);
            return Chosen { strict, ..chosen };
        }
        spoiled
    }
}

pub struct Dialogues {
    rng: Rng,
    choices: Choices,
}

impl Dialogues {
    pub fn of(seed: u64, choices: Choices) -> Self {
        Dialogues {
            rng: Rng::new(seed),
            choices,
        }
    }

    /// Few to the polynomial manager, which has no send of zero length.
    pub fn dialogue(&mut self) -> Dialogue {
        let manager = match self.rng.below(14) {
            0..4 => Manager::Free,
            4..8 => Manager::Priority,
            8..10 => Manager::Poly,
            _ => Manager::Queue,
        };
        Talk::of(&mut self.rng, manager, self.choices).whole()
    }
}
