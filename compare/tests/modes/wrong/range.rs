//! Flaws of the range rule.

use oracle::frames::Window;
use oracle::modes::reading::fraction::Fraction;
use oracle::modes::terms::{EXACT, Opening};

use super::flaw::Flaw;

pub fn is_of(flaw: Flaw) -> bool {
    matches!(
        flaw,
        Flaw::PortedRange
            | Flaw::RoundedTwelvefold
            | Flaw::FirstTwelvefold
            | Flaw::LimitOneLess
            | Flaw::LimitOneMore
            | Flaw::NearerEnd
            | Flaw::LastStepUntested
            | Flaw::SignedSteps
    )
}

/// Numbers are inside their limits; whether the steps are, as the flaw has it.
pub fn fits(flaw: Flaw, opening: &Opening) -> bool {
    let (distance, fold) = (distance(flaw, opening), fold(flaw, opening));
    let limit = limit(flaw, opening);
    let passes = |value: Fraction| fold * value.abs() > limit;
    let mut value = Fraction::ZERO;
    for power in (0..opening.contact.coefficients.len()).rev() {
        let quotient = quotient(flaw, opening, power);
        value = value * distance
            + match flaw == Flaw::SignedSteps {
                true => quotient,
                false => quotient.abs(),
            };
        if passes(value) {
            return false;
        }
    }
    flaw == Flaw::LastStepUntested || !passes(value * distance)
}

fn distance(flaw: Flaw, opening: &Opening) -> Fraction {
    let Window { start, end } = opening.contact.window;
    let from_offset = |date: i64| date.abs_diff(opening.contact.offset);
    let (one, other) = (from_offset(start), from_offset(end));
    Fraction::whole(match flaw == Flaw::NearerEnd {
        true => one.min(other),
        false => one.max(other),
    })
}

fn fold(flaw: Flaw, opening: &Opening) -> Fraction {
    let is_exact = opening.mode == EXACT;
    let twelvefold = match flaw {
        Flaw::PortedRange => false,
        Flaw::FirstTwelvefold => true,
        _ => is_exact,
    };
    Fraction::whole(if twelvefold { 12 } else { 1 })
}

fn limit(flaw: Flaw, opening: &Opening) -> Fraction {
    let beside = match flaw {
        Flaw::LimitOneLess => -1,
        Flaw::LimitOneMore => 1,
        _ => 0,
    };
    let is_exact = i128::from(opening.mode == EXACT);
    Fraction::whole((1_i128 << 61) + is_exact * beside)
}

fn quotient(flaw: Flaw, opening: &Opening, power: usize) -> Fraction {
    let coefficient = i128::from(opening.contact.coefficients[power]);
    let divisor = power as i128 + 1;
    let is_rounded = match flaw {
        Flaw::PortedRange | Flaw::RoundedTwelvefold => true,
        _ => opening.mode != EXACT,
    };
    match is_rounded {
        true => Fraction::whole(coefficient / divisor),
        false => Fraction::of(coefficient, divisor),
    }
}
