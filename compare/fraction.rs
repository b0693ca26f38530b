//! Exact fractions, and the two roundings to whole numbers.
//!
//! The parts are `i128`, and they suffice. The largest sums of a form are those of its slack: 64 coefficients of 31 bits, each times
//! at most 7 × 6, below 2^43. The largest denominator of a quotient is 2 × 7 × 4^10, below 2^24; a binomial ratio has one of at
//! most 35, and a sum of such ratios over two inputs of degree 7 one that divides 105 × 105. So every product is far below 2^127.
//! The build also turns overflow checks on: a number that did not fit would end the program.

use std::ops::{Add, Mul};

/// The quotient by a positive number, toward minus infinity.
pub fn floor(numerator: i128, denominator: i128) -> i128 {
    numerator.div_euclid(denominator)
}

/// The quotient by a positive number, toward plus infinity.
pub fn ceiling(numerator: i128, denominator: i128) -> i128 {
    -floor(-numerator, denominator)
}

/// A fraction in lowest terms with a positive denominator.
#[derive(Clone, Copy)]
pub struct Fraction {
    numerator: i128,
    denominator: i128,
}

impl Fraction {
    pub const ZERO: Fraction = Fraction {
        numerator: 0,
        denominator: 1,
    };

    /// The denominator must be positive.
    pub fn new(numerator: i128, denominator: i128) -> Fraction {
        let common = common_divisor(numerator.abs(), denominator);
        Fraction {
            numerator: numerator / common,
            denominator: denominator / common,
        }
    }

    pub fn whole(number: i128) -> Fraction {
        Fraction {
            numerator: number,
            denominator: 1,
        }
    }

    pub fn floor(self) -> i128 {
        floor(self.numerator, self.denominator)
    }

    pub fn ceiling(self) -> i128 {
        ceiling(self.numerator, self.denominator)
    }

    /// The numerator over a denominator that is a multiple of this fraction's.
    pub fn over(self, multiple: i128) -> i128 {
        assert_eq!(multiple % self.denominator, 0, "not a common denominator");
        self.numerator * (multiple / self.denominator)
    }
}

impl Add for Fraction {
    type Output = Fraction;

    fn add(self, other: Fraction) -> Fraction {
        Fraction::new(
            self.numerator * other.denominator + other.numerator * self.denominator,
            self.denominator * other.denominator,
        )
    }
}

impl Mul for Fraction {
    type Output = Fraction;

    fn mul(self, other: Fraction) -> Fraction {
        Fraction::new(
            self.numerator * other.numerator,
            self.denominator * other.denominator,
        )
    }
}

/// Euclid's algorithm; the second number is positive.
fn common_divisor(first: i128, second: i128) -> i128 {
    if first == 0 {
        second
    } else {
        common_divisor(second % first, first)
    }
}
