//! Rule bytes that are none, and lines of another length.

use crate::frames::{Frame, Ruled};
use crate::generate::rng::Rng;

/// Some look like 1 or 2 in fewer bits.
const NONE: [u8; 10] = [0, 3, 4, 5, 16, 127, 128, 129, 130, 255];

pub fn no_rule(rng: &mut Rng) -> u8 {
    match rng.once_in(4) {
        true => rng.between(3, 255) as u8,
        false => rng.pick(&NONE),
    }
}

/// Frames 21 to 23 without their rule byte or with more than one, and 01 to 03
/// with one: ff, even where the opening would be refused. A rule byte that stands
/// first leaves the length as it is, and what is then read is an opening.
pub fn of_another_length(rng: &mut Rng, opening: Ruled, rule: u8) -> Vec<u8> {
    let byte = format!("{rule:02x}").into_bytes();
    let plain = opening.clone().plain().encode();
    let ruled = Frame::OpenRuled(opening, rule).encode();
    match rng.below(8) {
        0..2 => ruled[..ruled.len() - 2].to_vec(),
        2 => ruled[..ruled.len() - 1].to_vec(),
        3 => [ruled, b"0".to_vec()].concat(),
        4 => [ruled, byte].concat(),
        5..7 => [plain, byte].concat(),
        _ => [&ruled[..2], &byte, &plain[2..]].concat(),
    }
}
