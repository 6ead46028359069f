//! A shorter dialogue that still shows a difference.

use super::answers::Difference;
use super::{Found, Spoken};

/// Drops calls, large parts first, as long as a difference is shown. Each try
/// is played from the start.
pub fn shrink<D: Spoken>(
    play: impl Fn(&D) -> Option<Difference<D::Call>>,
    dialogue: &D,
    difference: Difference<D::Call>,
) -> Found<D> {
    let mut found = cut_after(dialogue.clone(), difference);
    let mut part = found.dialogue.calls().len();
    while part > 0 {
        let mut at = 0;
        while at < found.dialogue.calls().len() {
            match show_without(&play, &found.dialogue, at, part) {
                Some(shorter) => found = shorter,
                None => at += part,
            }
        }
        part /= 2;
    }
    found
}

/// What comes after the difference does not matter.
fn cut_after<D: Spoken>(mut dialogue: D, difference: Difference<D::Call>) -> Found<D> {
    dialogue.calls_mut().truncate(difference.place + 1);
    Found {
        dialogue,
        difference,
    }
}

fn show_without<D: Spoken>(
    play: &impl Fn(&D) -> Option<Difference<D::Call>>,
    dialogue: &D,
    at: usize,
    part: usize,
) -> Option<Found<D>> {
    let mut shorter = dialogue.clone();
    let end = (at + part).min(shorter.calls().len());
    shorter.calls_mut().drain(at..end);
    let difference = play(&shorter)?;
    Some(cut_after(shorter, difference))
}
