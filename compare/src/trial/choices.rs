//! What openings choose by number and records then name, editions, modes, rules
//! and the strict flag alike: such as are none, and how they are counted.

use crate::generate::rng::Rng;
use crate::generate::ruled::contacts;
use crate::strict::flag::{OFF, ON};

/// What an opening chooses beside its contact.
#[derive(Clone, Copy, Debug, PartialEq, Eq)]
pub struct Chosen {
    /// The edition or the mode.
    pub kind: u64,
    pub rule: u64,
    pub strict: u64,
}

impl Chosen {
    /// Where nothing is open.
    pub const NOTHING: Chosen = Chosen {
        kind: 0,
        rule: 0,
        strict: NO_FLAG[0],
    };
}

/// Choices that are none; some look like 1 or 2 in fewer bits.
const NONE: [u64; 12] = [
    0,
    3,
    4,
    127,
    255,
    256,
    257,
    258,
    (1 << 32) + 1,
    (1 << 32) + 2,
    u64::MAX - 1,
    u64::MAX,
];

/// Flags that are none; some look like 0 or 1 in fewer bits.
const NO_FLAG: [u64; 10] = [
    2,
    3,
    255,
    256,
    257,
    1 << 32,
    (1 << 32) + 1,
    1 << 63,
    u64::MAX - 1,
    u64::MAX,
];

/// The largest that there is, of each kind.
const LAST: u64 = 2;

pub fn none(rng: &mut Rng) -> u64 {
    rng.pick(&NONE)
}

pub fn no_flag(rng: &mut Rng) -> u64 {
    rng.pick(&NO_FLAG)
}

pub fn rule(rng: &mut Rng) -> u64 {
    contacts::rule(rng).into()
}

/// Half of what is opened is strict.
pub fn strict(rng: &mut Rng) -> u64 {
    rng.pick(&[OFF, ON])
}

/// Choices of which one is none, or all.
pub fn spoiled(rng: &mut Rng, chosen: Chosen) -> Chosen {
    let kind = none(rng);
    let rule = none(rng);
    let strict = no_flag(rng);
    match rng.below(7) {
        0..2 => Chosen { kind, ..chosen },
        2..4 => Chosen { rule, ..chosen },
        4..6 => Chosen { strict, ..chosen },
        _ => Chosen { kind, rule, strict },
    }
}

/// All that are none are counted as 0.
pub fn counted(choice: u64) -> u64 {
    if choice > LAST { 0 } else { choice }
}

/// A counted choice in readable form.
pub fn named(what: &str, counted: u64) -> String {
    match counted {
        0 => format!("no {what}"),
        known => format!("{what} {known}"),
    }
}

/// A flag as it is counted.
#[derive(Clone, Copy, Debug, PartialEq, Eq, PartialOrd, Ord)]
pub enum Flag {
    Off,
    On,
    None,
}

impl Flag {
    pub fn of(strict: u64) -> Self {
        match strict {
            OFF => Flag::Off,
            ON => Flag::On,
            _ => Flag::None,
        }
    }

    /// In readable form.
    pub fn name(self) -> &'static str {
        match self {
            Flag::Off => "flag off",
            Flag::On => "strict",
            Flag::None => "no flag",
        }
    }
}
