//! Exact fractions.

use std::cmp::Ordering;
use std::fmt;
use std::ops::{Add, Mul, Sub};

/// In lowest terms, the denominator above zero: equal fractions are the same.
///
/// Inside the limits no numerator passes 2^106 or so: values are at most 2^61
/// before a multiplication by a distance of at most 2^40, and denominators
/// divide 48. What would pass 2^127 all the same ends the program, in any build.
#[derive(Clone, Copy, Debug, PartialEq, Eq)]
pub struct Fraction {
    numerator: i128,
    denominator: i128,
}

const TOO_LARGE: &str = "a fraction inside the limits fits";

impl Fraction {
    pub const ZERO: Fraction = Fraction {
        numerator: 0,
        denominator: 1,
    };

    pub fn whole(number: impl Into<i128>) -> Self {
        Fraction {
            numerator: number.into(),
            denominator: 1,
        }
    }

    /// The denominator is above zero.
    pub fn of(numerator: impl Into<i128>, denominator: i128) -> Self {
        let numerator = numerator.into();
        let common = common_divisor(numerator, denominator);
        Fraction {
            numerator: numerator / common,
            denominator: denominator / common,
        }
    }

    pub fn abs(self) -> Self {
        Fraction {
            numerator: self.numerator.abs(),
            ..self
        }
    }

    pub fn power(self, exponent: u32) -> Self {
        let raised = |number: i128| number.checked_pow(exponent).expect(TOO_LARGE);
        Fraction {
            numerator: raised(self.numerator),
            denominator: raised(self.denominator),
        }
    }

    /// The largest whole number that is not above it.
    pub fn floor(self) -> i128 {
        self.numerator.div_euclid(self.denominator)
    }

    pub fn is_whole(self) -> bool {
        self.denominator == 1
    }
}

/// The denominators are small, so this ends soon.
fn common_divisor(numerator: i128, denominator: i128) -> i128 {
    let (mut one, mut other) = (numerator.abs(), denominator);
    while other != 0 {
        (one, other) = (other, one % other);
    }
    one
}

fn product(one: i128, other: i128) -> i128 {
    one.checked_mul(other).expect(TOO_LARGE)
}

impl Add for Fraction {
    type Output = Fraction;

    fn add(self, other: Fraction) -> Fraction {
        let common = common_divisor(self.denominator, other.denominator);
        let (own, others) = (self.denominator / common, other.denominator / common);
        let numerator = product(self.numerator, others)
            .checked_add(product(other.numerator, own))
            .expect(TOO_LARGE);
        Fraction::of(numerator, product(self.denominator, others))
    }
}

impl Sub for Fraction {
    type Output = Fraction;

    fn sub(self, other: Fraction) -> Fraction {
        self + Fraction {
            numerator: -other.numerator,
            ..other
        }
    }
}

impl Mul for Fraction {
    type Output = Fraction;

    fn mul(self, other: Fraction) -> Fraction {
        Fraction::of(
            product(self.numerator, other.numerator),
            product(self.denominator, other.denominator),
        )
    }
}

impl Ord for Fraction {
    fn cmp(&self, other: &Fraction) -> Ordering {
        let left = product(self.numerator, other.denominator);
        left.cmp(&product(other.numerator, self.denominator))
    }
}

impl PartialOrd for Fraction {
    fn partial_cmp(&self, other: &Fraction) -> Option<Ordering> {
        Some(self.cmp(other))
    }
}

impl fmt::Display for Fraction {
    fn fmt(&self, text: &mut fmt::Formatter) -> fmt::Result {
        match self.is_whole() {
            true => write!(text, "{}", self.numerator),
            false => write!(text, "{}/{}", self.numerator, self.denominator),
        }
    }
}
