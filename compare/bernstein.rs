//! The Bernstein form.

use crate::enclosure::{Answer, Cell, Enclosure};
use crate::fraction::{ceiling, floor, Fraction};
use crate::grid::{Grid, Mean};
use crate::record::{Mapping, Term};

/// The binomial coefficient.
pub fn choose(n: u32, k: u32) -> i128 {
    (0..k).fold(1, |product, i| {
        product * i128::from(n - i) / i128::from(i + 1)
    })
}

/// The exact number b_j of the whole box.
fn coefficient(mapping: &Mapping, index: [u32; 3]) -> Fraction {
    let below = |term: &&Term| (0..3).all(|v| term.exponents[v] <= index[v]);
    let part = |term: &Term| {
        let ratios = (0..3).map(|v| {
            let exponent = term.exponents[v];
            Fraction::new(
                choose(index[v], exponent),
                choose(mapping.degrees[v], exponent),
            )
        });
        ratios.fold(Fraction::whole(term.coefficient), |product, ratio| {
            product * ratio
        })
    };
    let parts = mapping.terms.iter().filter(below).map(part);
    parts.fold(Fraction::ZERO, |sum, part| sum + part)
}

/// All numbers b_j of the whole box.
pub fn coefficients(mapping: &Mapping) -> Grid<Fraction> {
    Grid::new(mapping.degrees, |index| coefficient(mapping, index))
}

impl Mean for Enclosure {
    /// One end of each table, each rounded outward.
    fn mean(&self, other: &Enclosure) -> Enclosure {
        Enclosure {
            low: floor(self.low + other.low, 2),
            high: ceiling(self.high + other.high, 2),
        }
    }
}

/// The numbers of the whole box, rounded down and up; every cell starts from them.
pub fn whole_box(exact: &Grid<Fraction>, degrees: [u32; 3]) -> Grid<Enclosure> {
    Grid::new(degrees, |index| {
        let number = exact.get(index);
        Enclosure {
            low: number.floor(),
            high: number.ceiling(),
        }
    })
}

/// The binary digits of the places, from the most significant on, input after input.
fn narrowed(table: &Grid<Enclosure>, cell: Cell) -> Grid<Enclosure> {
    let mut table = table.clone();
    for (input, span) in cell.0.iter().enumerate() {
        for digit in (0..span.depth).rev() {
            table = table.half(input, span.place >> digit & 1 == 1);
        }
    }
    table
}

fn slack(mapping: &Mapping, cell: Cell) -> i128 {
    let parts = (0..3).map(|input| {
        let degree = i128::from(mapping.degrees[input]);
        let depth = cell.0[input].depth;
        let bend = mapping.terms.iter().map(|term| {
            let exponent = i128::from(term.exponents[input]);
            term.coefficient.abs() * exponent * (exponent - 1)
        });
        if degree == 0 {
            0
        } else {
            ceiling(degree * i128::from(depth), 2) + ceiling(bend.sum(), 2 * degree << (2 * depth))
        }
    });
    1 + parts.sum::<i128>()
}

pub fn enclose(mapping: &Mapping, table: &Grid<Enclosure>, cell: Cell) -> Answer {
    let narrowed = narrowed(table, cell);
    let range = narrowed
        .numbers()
        .copied()
        .reduce(Enclosure::hull)
        .expect("a grid has at least one number");
    Answer {
        range,
        slack: slack(mapping, cell),
    }
}
