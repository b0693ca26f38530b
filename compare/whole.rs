//! Whole numbers of any size, for exact values: a value at a point with denominator 1,024 takes up to 180 bits.

use std::cmp::Ordering;
use std::ops::{Add, Mul};

/// Sign and size. The size has its least digit first, in base 2^32, and no zero digit at its end; zero is not negative.
#[derive(Clone, PartialEq, Eq)]
pub struct Whole {
    negative: bool,
    digits: Vec<u32>,
}

impl Whole {
    pub fn one() -> Whole {
        Whole::from(1)
    }

    fn new(negative: bool, mut digits: Vec<u32>) -> Whole {
        while digits.last() == Some(&0) {
            digits.pop();
        }
        Whole {
            negative: negative && !digits.is_empty(),
            digits,
        }
    }
}

impl From<i128> for Whole {
    fn from(number: i128) -> Whole {
        let size = number.unsigned_abs();
        let digits = (0..4).map(|place| (size >> (32 * place)) as u32).collect();
        Whole::new(number < 0, digits)
    }
}

/// The low 32 bits of a number, and the rest as a carry.
fn digit_and_carry(number: u64) -> (u32, u64) {
    (number as u32, number >> 32)
}

fn compare_sizes(first: &[u32], second: &[u32]) -> Ordering {
    let by_length = first.len().cmp(&second.len());
    by_length.then_with(|| first.iter().rev().cmp(second.iter().rev()))
}

fn add_sizes(longer: &[u32], shorter: &[u32]) -> Vec<u32> {
    let mut carry = 0;
    let mut sum = Vec::with_capacity(longer.len() + 1);
    for (place, &digit) in longer.iter().enumerate() {
        let other = shorter.get(place).copied().unwrap_or(0);
        let (low, rest) = digit_and_carry(u64::from(digit) + u64::from(other) + carry);
        sum.push(low);
        carry = rest;
    }
    sum.push(carry as u32);
    sum
}

/// The first size is at least the second.
fn subtract_sizes(larger: &[u32], smaller: &[u32]) -> Vec<u32> {
    let mut borrow = 0;
    let mut difference = Vec::with_capacity(larger.len());
    for (place, &digit) in larger.iter().enumerate() {
        let other = smaller.get(place).copied().unwrap_or(0);
        let (partial, below) = digit.overflowing_sub(other);
        let (low, again) = partial.overflowing_sub(borrow);
        difference.push(low);
        borrow = u32::from(below || again);
    }
    difference
}

impl Add for &Whole {
    type Output = Whole;

    fn add(self, other: &Whole) -> Whole {
        let (larger, smaller) = match compare_sizes(&self.digits, &other.digits) {
            Ordering::Less => (other, self),
            _ => (self, other),
        };
        let digits = if larger.negative == smaller.negative {
            add_sizes(&larger.digits, &smaller.digits)
        } else {
            subtract_sizes(&larger.digits, &smaller.digits)
        };
        Whole::new(larger.negative, digits)
    }
}

impl Mul for &Whole {
    type Output = Whole;

    fn mul(self, other: &Whole) -> Whole {
        let mut product = vec![0; self.digits.len() + other.digits.len()];
        for (start, &digit) in self.digits.iter().enumerate() {
            let mut carry = 0;
            for (offset, &factor) in other.digits.iter().enumerate() {
                let place = start + offset;
                let sum = u64::from(digit) * u64::from(factor) + u64::from(product[place]) + carry;
                (product[place], carry) = digit_and_carry(sum);
            }
            product[start + other.digits.len()] = carry as u32;
        }
        Whole::new(self.negative != other.negative, product)
    }
}

impl Ord for Whole {
    fn cmp(&self, other: &Whole) -> Ordering {
        match (self.negative, other.negative) {
            (false, false) => compare_sizes(&self.digits, &other.digits),
            (true, true) => compare_sizes(&other.digits, &self.digits),
            (negative, _) => {
                if negative {
                    Ordering::Less
                } else {
                    Ordering::Greater
                }
            }
        }
    }
}

impl PartialOrd for Whole {
    fn partial_cmp(&self, other: &Whole) -> Option<Ordering> {
        Some(self.cmp(other))
    }
}
