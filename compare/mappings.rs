//! Makes records of mappings, ordinary and extreme ones.

use crate::bernstein::choose;
use crate::enclosure::Enclosure;
use crate::random::Random;
use crate::record::{all_exponents, register};

const LEAST: i128 = -(1 << 31);
const LARGEST: i128 = (1 << 31) - 1;

/// The widest shapes, the flattest ones, and absent bends in between.
const SHAPES: [[u32; 3]; 14] = [
    [7, 7, 0],
    [3, 3, 3],
    [7, 3, 1],
    [1, 3, 7],
    [0, 7, 7],
    [7, 0, 7],
    [7, 0, 0],
    [3, 0, 3],
    [1, 1, 1],
    [2, 2, 0],
    [2, 0, 0],
    [1, 0, 0],
    [0, 2, 0],
    [0, 0, 0],
];

/// A record and the number of inputs that it names.
pub struct Record {
    pub bytes: Vec<u8>,
    pub inputs: usize,
}

pub fn any_record(random: &mut Random) -> Record {
    let degrees = any_degrees(random);
    let present = (1..=3).rev().find(|v| degrees[v - 1] > 0).unwrap_or(1);
    // Sometimes the last inputs are named, but no term has them.
    let more = random.below(4 - present);
    let inputs = random.pick(&[present, present + more]);
    let kind = random.below(8);
    let any_shift = random.up_to(15);
    let shift = random.pick(&[0, 0, 1, 4, any_shift]);
    let coefficients = any_coefficients(degrees, register(kind, shift), random);
    Record::new(inputs, degrees, (kind, shift), &coefficients)
}

/// Two or three inputs and coefficients of a few steps: here the rounding decides the ends, and a half sticks out of its parent most
/// often.
pub fn small_record(random: &mut Random) -> Record {
    let mut degrees = [0; 3];
    let inputs = 2 + random.below(2);
    degrees[..inputs].fill_with(|| 1 + random.up_to(2));
    let coefficients: Vec<i128> = all_exponents(degrees)
        .map(|_| random.between(-3, 3))
        .collect();
    Record::new(inputs, degrees, (random.below(8), 0), &coefficients)
}

impl Record {
    fn new(
        inputs: usize,
        degrees: [u32; 3],
        (kind, shift): (usize, u32),
        coefficients: &[i128],
    ) -> Record {
        let fields = [
            (1, 4),
            (inputs as u32, 2),
            (degrees[0], 3),
            (degrees[1], 3),
            (degrees[2], 3),
            (kind as u32, 3),
            (shift, 4),
            (0, 2),
        ];
        let header = fields
            .iter()
            .fold(0u32, |bits, (field, width)| bits << width | field);
        let mut bytes = header.to_be_bytes()[1..].to_vec();
        for coefficient in coefficients {
            let fitting = *coefficient.clamp(&LEAST, &LARGEST) as i32;
            bytes.extend(fitting.to_be_bytes());
        }
        Record { bytes, inputs }
    }
}

fn any_degrees(random: &mut Random) -> [u32; 3] {
    if random.once_in(3) {
        return random.pick(&SHAPES);
    }
    let most = random.pick(&[2, 3, 7]);
    let inputs = 1 + random.below(3);
    loop {
        let mut degrees = [0; 3];
        degrees[..inputs].fill_with(|| random.up_to(most));
        if degrees.iter().map(|n| n + 1).product::<u32>() <= 64 {
            return degrees;
        }
    }
}

fn any_coefficients(degrees: [u32; 3], register: Enclosure, random: &mut Random) -> Vec<i128> {
    let plain: fn(&mut Random) -> i128 = match random.below(14) {
        0 => |random| random.between(-1, 1),
        1 => |random| random.between(-3, 3),
        2 => |random| random.pick(&[LEAST, LARGEST]),
        3 => |random| random.pick(&[LEAST, LEAST + 1, LARGEST, LARGEST - 1, 0, 1, -1]),
        4 => |random| random.between(LEAST, LARGEST),
        5 => |random| {
            let most = 1 << random.below(32);
            random.between(-most, most)
        },
        6 | 7 => return near_register(degrees, register, random),
        _ => return from_control_values(degrees, register, random),
    };
    all_exponents(degrees).map(|_| plain(random)).collect()
}

/// The constant is an end of the register or a step beside it; the rest moves the value by a few steps or a part of the width.
fn near_register(degrees: [u32; 3], register: Enclosure, random: &mut Random) -> Vec<i128> {
    let width = register.high - register.low;
    let most = random.pick(&[1, 3, width, width / 4, width / 64]);
    let end = random.pick(&[register.low, register.high]) + random.between(-1, 1);
    let rest = all_exponents(degrees)
        .skip(1)
        .map(|_| random.between(-most, most));
    std::iter::once(end).chain(rest).collect()
}

/// A polynomial whose Bernstein coefficients are whole numbers about the register: most lie in it or at its ends, a few stick out. Such
/// a mapping is often open at first, and fits or leaves after some halvings.
fn from_control_values(degrees: [u32; 3], register: Enclosure, random: &mut Random) -> Vec<i128> {
    let width = register.high - register.low;
    let excess = random.pick(&[1, 2, width / 8 + 1, width]);
    let seldom = random.pick(&[2, 4, 8, 1000]);
    let mut control_value = || {
        let inside = random.between(register.low, register.high);
        let off = random.between(0, excess);
        if random.once_in(seldom) {
            random.pick(&[register.low - off, register.high + off])
        } else {
            random.pick(&[register.low, register.high, inside, inside])
        }
    };
    let controls: Vec<([u32; 3], i128)> = all_exponents(degrees)
        .map(|index| (index, control_value()))
        .collect();
    all_exponents(degrees)
        .map(|exponents| power_coefficient(degrees, exponents, &controls))
        .collect()
}

/// The coefficient of the power form: for each input C(n, i) times the i-th difference of the control values.
fn power_coefficient(
    degrees: [u32; 3],
    exponents: [u32; 3],
    controls: &[([u32; 3], i128)],
) -> i128 {
    let reached = controls
        .iter()
        .filter(|(index, _)| (0..3).all(|v| index[v] <= exponents[v]));
    let part = |(index, value): &([u32; 3], i128)| {
        (0..3).fold(*value, |product, v| {
            let sign = if (exponents[v] - index[v]) % 2 == 0 {
                1
            } else {
                -1
            };
            product * sign * choose(degrees[v], exponents[v]) * choose(exponents[v], index[v])
        })
    };
    reached.map(part).sum()
}
