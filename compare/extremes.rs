//! Bounds of a mapping's true least and greatest value, from both sides.
//!
//! Over any part of the box the polynomial lies between its least and its greatest exact Bernstein coefficient, and the
//! coefficients at the corners are values that it reaches. So halving the box exactly, always where the bound is worst, closes in
//! on the extreme from outside and from inside.

use crate::forms::Forms;
use crate::grid::{Grid, Mean};
use crate::record::all_exponents;

/// Coefficients are held times n_1! × n_2! × n_3! × 2^50. The sum of the coefficients is below 2^37, the factorials below 2^25,
/// so a number is below 2^112. A bound that is held against them is below 2^43 before it is brought to the scale, and below 2^118 then.
const BINARY_DIGITS: u32 = 50;

const MOST_SPLITS: usize = 24;

/// A number of the scale above. Each mean takes one binary digit; a halving along an input of degree n takes at most n.
#[derive(Clone, Copy)]
struct Scaled(i128);

impl Mean for Scaled {
    fn mean(&self, other: &Scaled) -> Scaled {
        let sum = self.0 + other.0;
        assert_eq!(sum & 1, 0, "a mean must be exact");
        Scaled(sum >> 1)
    }
}

/// The true least value lies from `outside` to `reached`, and `reached` is a value; both are of the scale above.
#[derive(Clone, Copy)]
struct Least {
    outside: i128,
    reached: i128,
}

pub struct Extremes {
    scale: i128,
    least: Least,
    /// Of the negated mapping.
    negated: Least,
}

impl Extremes {
    pub fn new(forms: &Forms) -> Extremes {
        let degrees = forms.mapping.degrees;
        let factorial = |n: &u32| (1..=i128::from(*n)).product::<i128>();
        let denominator: i128 = degrees.iter().map(factorial).product();
        let signed = |sign: i128| {
            Grid::new(degrees, |index| {
                Scaled(sign * (forms.exact.get(index).over(denominator) << BINARY_DIGITS))
            })
        };
        Extremes {
            scale: denominator << BINARY_DIGITS,
            least: least_value(signed(1), degrees),
            negated: least_value(signed(-1), degrees),
        }
    }

    /// Whether some value is known to be at most the bound.
    pub fn reaches_down_to(&self, bound: i128) -> bool {
        self.least.reached <= bound * self.scale
    }

    pub fn reaches_up_to(&self, bound: i128) -> bool {
        self.negated.reached <= -bound * self.scale
    }

    /// Whether some value is known to be less than the bound.
    pub fn falls_below(&self, bound: i128) -> bool {
        self.least.reached < bound * self.scale
    }

    pub fn rises_above(&self, bound: i128) -> bool {
        self.negated.reached < -bound * self.scale
    }

    /// Whether every value is known to be greater than the bound.
    pub fn stays_above(&self, bound: i128) -> bool {
        self.least.outside > bound * self.scale
    }

    pub fn stays_below(&self, bound: i128) -> bool {
        self.negated.outside > -bound * self.scale
    }
}

/// A part of the box with its exact coefficients.
struct Part {
    grid: Grid<Scaled>,
    halvings: [u32; 3],
    least: i128,
}

impl Part {
    fn new(grid: Grid<Scaled>, halvings: [u32; 3]) -> Part {
        let least = grid.numbers().map(|number| number.0).min();
        let least = least.expect("a grid has at least one number");
        Part {
            grid,
            halvings,
            least,
        }
    }

    /// The least value at a corner.
    fn reached(&self, degrees: [u32; 3]) -> i128 {
        let corners = all_exponents([1; 3]).map(|upper| {
            let index = [0, 1, 2].map(|v| upper[v] * degrees[v]);
            self.grid.get(index).0
        });
        corners.min().expect("a box has corners")
    }

    /// The input that was halved least often among those that bend and leave the means exact.
    fn next_input(&self, degrees: [u32; 3]) -> Option<usize> {
        let used: u32 = (0..3).map(|v| self.halvings[v] * degrees[v]).sum();
        let usable = |v: &usize| degrees[*v] > 0 && used + degrees[*v] <= BINARY_DIGITS;
        (0..3).filter(usable).min_by_key(|v| self.halvings[*v])
    }

    fn half(&self, input: usize, upper: bool) -> Part {
        let mut halvings = self.halvings;
        halvings[input] += 1;
        Part::new(self.grid.half(input, upper), halvings)
    }
}

fn least_value(grid: Grid<Scaled>, degrees: [u32; 3]) -> Least {
    let whole = Part::new(grid, [0; 3]);
    let mut reached = whole.reached(degrees);
    let mut outside = whole.least;
    let mut parts = vec![whole];
    for _ in 0..MOST_SPLITS {
        let worst = (0..parts.len()).min_by_key(|k| parts[*k].least);
        let worst = parts.swap_remove(worst.expect("a split gives two parts"));
        outside = worst.least;
        let input = worst.next_input(degrees).filter(|_| outside < reached);
        let Some(input) = input else {
            return Least { outside, reached };
        };
        for upper in [false, true] {
            let half = worst.half(input, upper);
            reached = reached.min(half.reached(degrees));
            parts.push(half);
        }
    }
    Least { outside, reached }
}
