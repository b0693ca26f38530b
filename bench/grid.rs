//! The method that the checker replaces: sampling. The polynomial is evaluated by Horner's rule in f64, as a quick
//! checker would, at every 64th count of a 16-bit raw input and at the last one. It says nothing of what lies
//! between the samples.

/// The highest count of a raw input.
const LAST: u32 = 65_535;
/// How far the samples are apart.
const STEP: usize = 64;
/// How many samples there are along one input.
pub const SAMPLES: usize = LAST as usize / STEP + 2;

/// The sampled places of one input, from 0 to 1.
fn places() -> impl Iterator<Item = f64> {
    (0..LAST)
        .step_by(STEP)
        .chain([LAST])
        .map(|raw| f64::from(raw) / f64::from(LAST))
}

/// The value by Horner's rule.
fn value(coefficients: impl DoubleEndedIterator<Item = f64>, x: f64) -> f64 {
    coefficients.rev().fold(0.0, |sum, a| sum * x + a)
}

/// The least and the greatest of sampled values.
fn extremes(values: impl Iterator<Item = f64>) -> (f64, f64) {
    values.fold((f64::INFINITY, f64::NEG_INFINITY), |(low, high), x| {
        (low.min(x), high.max(x))
    })
}

/// The least and the greatest sampled value of a mapping of one input.
pub fn one_input(coefficients: &[i32]) -> (f64, f64) {
    extremes(places().map(|x| value(coefficients.iter().map(|a| f64::from(*a)), x)))
}

/// The least and the greatest sampled value of a mapping of two inputs; `length` is the second degree + 1. Each
/// value of input 1 leaves a polynomial of input 2.
pub fn two_inputs(coefficients: &[i32], length: usize) -> (f64, f64) {
    let mut row = vec![0.0; length];
    let mut ends = (f64::INFINITY, f64::NEG_INFINITY);
    for x in places() {
        for (k, a) in row.iter_mut().enumerate() {
            let along_first = coefficients.iter().skip(k).step_by(length);
            *a = value(along_first.map(|a| f64::from(*a)), x);
        }
        let (low, high) = extremes(places().map(|y| value(row.iter().copied(), y)));
        ends = (ends.0.min(low), ends.1.max(high));
    }
    ends
}
