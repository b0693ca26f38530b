//! The nested form: Horner's rule with enclosures for numbers.

use crate::enclosure::{Answer, Cell, Enclosure, Point};
use crate::fraction::{ceiling, floor};
use crate::record::{Mapping, Term};

/// A factor from least/parts to most/parts.
#[derive(Clone, Copy)]
struct Factor {
    least: u32,
    most: u32,
    parts: u32,
}

impl Factor {
    fn times(self, enclosure: Enclosure) -> Enclosure {
        let parts = i128::from(self.parts);
        let ends = [i128::from(self.least), i128::from(self.most)];
        let lows = ends.map(|end| floor(enclosure.low * end, parts));
        let highs = ends.map(|end| ceiling(enclosure.high * end, parts));
        // Rounding keeps order, so the least quotient is the quotient of the least product.
        Enclosure {
            low: lows[0].min(lows[1]),
            high: highs[0].max(highs[1]),
        }
    }
}

/// Horner's rule along one input; its coefficients are the results along the inputs behind it.
fn horner(terms: &[Term], input: usize, factors: &[Factor; 3]) -> Enclosure {
    if input == factors.len() {
        return Enclosure::single(terms[0].coefficient);
    }
    let coefficients = terms
        .chunk_by(|one, next| one.exponents[input] == next.exponents[input])
        .map(|part| horner(part, input + 1, factors));
    coefficients
        .rev()
        .reduce(|sum, coefficient| factors[input].times(sum).plus(coefficient))
        .expect("a mapping has at least one term")
}

fn slack(mapping: &Mapping, cell: Cell) -> i128 {
    let products = mapping.terms.len() as i128 - 1;
    let widths = cell.0.iter().enumerate().map(|(input, span)| {
        let sum = mapping
            .terms
            .iter()
            .map(|term| i128::from(term.exponents[input]) * term.coefficient.abs())
            .sum();
        ceiling(sum, i128::from(span.parts()))
    });
    2 * products + widths.sum::<i128>()
}

pub fn enclose(mapping: &Mapping, cell: Cell) -> Answer {
    let factors = cell.0.map(|span| Factor {
        least: span.place,
        most: span.place + 1,
        parts: span.parts(),
    });
    Answer {
        range: horner(&mapping.terms, 0, &factors),
        slack: slack(mapping, cell),
    }
}

/// Two numbers that hold the exact value at a point.
pub fn at_point(mapping: &Mapping, point: Point) -> Enclosure {
    let factors = point.0.map(|(numerator, denominator)| Factor {
        least: numerator,
        most: numerator,
        parts: denominator,
    });
    horner(&mapping.terms, 0, &factors)
}
