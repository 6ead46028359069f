//! Capacity between two dates: document 01's sum of rounded quotients, or the
//! true integral (document 02, R-6).

use super::fraction::Fraction;
use crate::frames::COEFFICIENTS;
use crate::modes::terms::{EXACT, Opening};

/// Of a polynomial that keeps its mode's range rule, between dates of the
/// window.
#[derive(Clone, Copy, Debug, PartialEq, Eq)]
pub struct Capacity {
    mode: u64,
    offset: i64,
    coefficients: [i64; COEFFICIENTS],
}

impl Capacity {
    pub fn of(opening: &Opening) -> Self {
        Capacity {
            mode: opening.mode,
            offset: opening.contact.offset,
            coefficients: opening.contact.coefficients,
        }
    }

    pub fn between(&self, from: i64, to: i64) -> Fraction {
        let (from, to) = (self.distance(from), self.distance(to));
        match self.mode == EXACT {
            true => self.integral(from, to),
            false => self.ported(to) - self.ported(from),
        }
    }

    fn distance(&self, date: i64) -> i128 {
        i128::from(date) - i128::from(self.offset)
    }

    /// "with d = x - offset, go from the highest coefficient down, value = value
    /// x d + c_i / (i+1), division towards zero; multiply by d at last".
    fn ported(&self, distance: i128) -> Fraction {
        let mut value = 0;
        for (power, coefficient) in self.coefficients.iter().enumerate().rev() {
            value = value * distance + i128::from(*coefficient) / (power as i128 + 1);
        }
        Fraction::whole(value * distance)
    }

    /// "Capacity from now on means the true integral": of c t^n it is c times
    /// the difference of the powers n + 1, by n + 1. Each coefficient that is not
    /// zero keeps its power in range.
    fn integral(&self, from: i128, to: i128) -> Fraction {
        let mut value = Fraction::ZERO;
        for (power, coefficient) in self.coefficients.iter().enumerate() {
            if *coefficient != 0 {
                let exponent = power as u32 + 1;
                let raised = |distance| Fraction::whole(distance).power(exponent);
                let of_one = Fraction::of(*coefficient, exponent.into());
                value = value + of_one * (raised(to) - raised(from));
            }
        }
        value
    }
}
