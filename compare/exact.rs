//! Exact values at rational points.

use crate::enclosure::{Enclosure, Point};
use crate::record::Mapping;
use crate::whole::Whole;

/// The value is `value`/`weight`, and the weight is positive.
pub struct ExactValue {
    value: Whole,
    weight: Whole,
}

impl ExactValue {
    /// The sum over all terms, each multiplied by the denominators that it lacks.
    pub fn new(mapping: &Mapping, point: Point) -> ExactValue {
        let powers: Vec<Vec<Whole>> = point
            .0
            .iter()
            .zip(mapping.degrees)
            .map(|(fraction, degree)| homogeneous_powers(*fraction, degree))
            .collect();
        let mut value = Whole::from(0);
        for term in &mapping.terms {
            let mut product = Whole::from(term.coefficient);
            for (powers, exponent) in powers.iter().zip(term.exponents) {
                product = &product * &powers[exponent as usize];
            }
            value = &value + &product;
        }
        let mut weight = Whole::one();
        for powers in &powers {
            weight = &weight * &powers[0];
        }
        ExactValue { value, weight }
    }

    pub fn at_least(&self, bound: i128) -> bool {
        &Whole::from(bound) * &self.weight <= self.value
    }

    pub fn at_most(&self, bound: i128) -> bool {
        &Whole::from(bound) * &self.weight >= self.value
    }

    pub fn lies_in(&self, range: Enclosure) -> bool {
        self.at_least(range.low) && self.at_most(range.high)
    }
}

/// For each exponent i the number u^i × D^(n − i); with exponent 0 that is the weight D^n.
fn homogeneous_powers((numerator, denominator): (u32, u32), degree: u32) -> Vec<Whole> {
    let numerators = powers(numerator, degree);
    let denominators = powers(denominator, degree);
    let pairs = numerators.iter().zip(denominators.iter().rev());
    pairs.map(|(up, down)| up * down).collect()
}

/// The powers with exponents from 0 to the degree.
fn powers(base: u32, degree: u32) -> Vec<Whole> {
    let base = Whole::from(i128::from(base));
    let next = |power: &Whole| Some(power * &base);
    std::iter::successors(Some(Whole::one()), next)
        .take(degree as usize + 1)
        .collect()
}
