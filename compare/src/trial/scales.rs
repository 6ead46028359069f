//! Windows of every scale: tiny ones of which everything can be asked, small
//! ones, ones with room for a long list, and ones at the limits.

use crate::generate::rng::Rng;
use crate::limits::MAX_LENGTH;

/// Lengths of windows, the shortest and the longest of each scale.
const TINY: (i64, i64) = (1, 5);
const SMALL: (i64, i64) = (1, 40);
const MIDDLE: (i64, i64) = (41, 1_500);
/// Long enough for 64 listed segments.
const ROOMY: (i64, i64) = (140, 400);

#[derive(Clone, Copy, Debug, PartialEq, Eq)]
pub enum Scale {
    Tiny,
    Small,
    Middle,
    Roomy,
    Limit,
}

pub fn scale(rng: &mut Rng) -> Scale {
    match rng.below(16) {
        0 => Scale::Tiny,
        1..10 => Scale::Small,
        10..12 => Scale::Middle,
        12..13 => Scale::Roomy,
        _ => Scale::Limit,
    }
}

pub fn length(rng: &mut Rng, scale: Scale) -> i64 {
    let (shortest, longest) = match scale {
        Scale::Tiny => TINY,
        Scale::Small => SMALL,
        Scale::Middle => MIDDLE,
        Scale::Roomy => ROOMY,
        Scale::Limit => match rng.below(4) {
            0 => return MAX_LENGTH,
            1 => return rng.any_scale(MAX_LENGTH),
            _ => (MAX_LENGTH / 2, MAX_LENGTH),
        },
    };
    rng.between(shortest, longest)
}
