//! The record reader: a mapping as a list of terms.

use crate::enclosure::Enclosure;

/// The number under which something is refused.
#[derive(Clone, Copy, PartialEq, Eq)]
pub struct Refusal(pub u32);

/// One coefficient with its exponents.
pub struct Term {
    pub exponents: [u32; 3],
    pub coefficient: i128,
}

pub struct Mapping {
    /// The number of inputs, 1 to 3.
    pub inputs: usize,
    pub degrees: [u32; 3],
    /// The ends of the register, in steps.
    pub register: Enclosure,
    /// In the order of the record: the exponent of the last input runs fastest.
    pub terms: Vec<Term>,
}

const HEADER_LENGTH: usize = 3;

/// The lowest and the highest count of each register kind.
const COUNTS: [(i128, i128); 8] = [
    (0, 255),
    (-128, 127),
    (0, 65_535),
    (-32_768, 32_767),
    (0, 4_095),
    (-2_048, 2_047),
    (0, 16_383),
    (-8_192, 8_191),
];

/// The fields of a header, before anything is known of them.
struct Header {
    format: u32,
    inputs: usize,
    degrees: [u32; 3],
    kind: usize,
    shift: u32,
    zero_bits: u32,
}

impl Header {
    fn read(bytes: &[u8]) -> Option<Header> {
        let header = bytes.get(..HEADER_LENGTH)?;
        let mut bits = header
            .iter()
            .flat_map(|byte| (0..8).rev().map(move |place| u32::from(byte >> place & 1)));
        let mut field = |width| {
            bits.by_ref()
                .take(width)
                .fold(0, |number, bit| 2 * number + bit)
        };
        Some(Header {
            format: field(4),
            inputs: field(2) as usize,
            degrees: [field(3), field(3), field(3)],
            kind: field(3) as usize,
            shift: field(4),
            zero_bits: field(2),
        })
    }

    fn terms(&self) -> usize {
        self.degrees.iter().map(|n| *n as usize + 1).product()
    }

    /// The first condition of the list that applies.
    fn refusal(&self, record_length: usize) -> Option<Refusal> {
        let absent_degree = self.degrees.iter().skip(self.inputs).any(|n| *n != 0);
        let conditions = [
            (self.format != 1, 2),
            (self.inputs == 0, 3),
            (absent_degree, 4),
            (self.zero_bits != 0, 5),
            (self.terms() > 64, 6),
            (record_length != full_length(self.terms()), 7),
        ];
        let first = conditions.iter().find(|(applies, _)| *applies);
        first.map(|(_, number)| Refusal(*number))
    }
}

/// The ends of a register, in steps.
pub fn register(kind: usize, shift: u32) -> Enclosure {
    let (low, high) = COUNTS[kind];
    let count = 1 << shift;
    Enclosure {
        low: low * count,
        high: high * count,
    }
}

/// The length of a record with so many coefficients.
pub const fn full_length(terms: usize) -> usize {
    HEADER_LENGTH + 4 * terms
}

/// All exponents, or indices, up to the degrees; the last one runs fastest.
pub fn all_exponents(degrees: [u32; 3]) -> impl Iterator<Item = [u32; 3]> {
    let [first, second, third] = degrees;
    (0..=first)
        .flat_map(move |i| (0..=second).flat_map(move |j| (0..=third).map(move |k| [i, j, k])))
}

/// Reads a record, or gives the first refusal that applies.
pub fn read(bytes: &[u8]) -> Result<Mapping, Refusal> {
    let header = Header::read(bytes).ok_or(Refusal(1))?;
    if let Some(refusal) = header.refusal(bytes.len()) {
        return Err(refusal);
    }
    let coefficients = bytes[HEADER_LENGTH..].chunks_exact(4);
    let terms = all_exponents(header.degrees)
        .zip(coefficients)
        .map(|(exponents, part)| Term {
            exponents,
            coefficient: coefficient(part),
        });
    Ok(Mapping {
        inputs: header.inputs,
        degrees: header.degrees,
        register: register(header.kind, header.shift),
        terms: terms.collect(),
    })
}

/// Two's complement: the first bit counts negative.
fn coefficient(part: &[u8]) -> i128 {
    let unsigned = part
        .iter()
        .fold(0, |number, byte| 256 * number + i128::from(*byte));
    if unsigned >= 1 << 31 {
        unsigned - (1 << 32)
    } else {
        unsigned
    }
}
