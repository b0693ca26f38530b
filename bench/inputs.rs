//! What is measured on: mappings, lists of cells, and jobs. All of it is the same in every run.

use crate::plain::{Enquiry, Mapping, CELL};

/// A mapping as it is written into a record.
pub struct Sample {
    pub name: &'static str,
    pub degrees: &'static [u8],
    /// The register is signed and has 16 bits; a count is worth 2^shift steps.
    pub shift: u8,
    pub coefficients: Vec<i32>,
}

/// The number of the register's kind.
const KIND: u32 = 3;

/// A sequence of numbers that look random (a linear congruence; its upper bits are used).
pub struct Source(u64);

impl Source {
    pub fn new(seed: u64) -> Source {
        Source(seed)
    }

    /// A number below `limit`.
    pub fn below(&mut self, limit: u32) -> u32 {
        self.0 = self
            .0
            .wrapping_mul(6_364_136_223_846_793_005)
            .wrapping_add(1_442_695_040_888_963_407);
        ((self.0 >> 32) * u64::from(limit) >> 32) as u32
    }

    /// One of the things in the list.
    pub fn choice<T: Copy>(&mut self, list: &[T]) -> T {
        list[self.below(list.len() as u32) as usize]
    }
}

/// How many coefficients degrees ask for.
fn terms(degrees: &[u8]) -> usize {
    degrees.iter().map(|n| usize::from(*n) + 1).product()
}

impl Sample {
    /// A mapping with coefficients of both signs.
    pub fn mixed(name: &'static str, degrees: &'static [u8]) -> Sample {
        let mut source = Source::new(1);
        let size = 40_000;
        let number = |_| source.below(2 * size + 1) as i32 - size as i32;
        Sample {
            name,
            degrees,
            shift: 0,
            coefficients: (0..terms(degrees)).map(number).collect(),
        }
    }

    /// The product, over all inputs, of polynomials of one input each, times `size`.
    pub fn product(name: &'static str, degrees: &'static [u8], row: &[i32], size: i32) -> Sample {
        let mut coefficients = vec![size];
        for _ in degrees {
            coefficients = coefficients
                .iter()
                .flat_map(|a| row.iter().map(move |b| a * b))
                .collect();
        }
        Sample {
            name,
            degrees,
            shift: 0,
            coefficients,
        }
    }

    pub fn inputs(&self) -> u8 {
        self.degrees.len() as u8
    }

    pub fn record(&self) -> Vec<u8> {
        let degrees = [0, 1, 2].map(|v| self.degrees.get(v).copied().unwrap_or(0));
        let inputs = 4 + u32::from(self.inputs());
        let fields = degrees
            .into_iter()
            .fold(inputs, |fields, degree| fields << 3 | u32::from(degree));
        let header = ((fields << 3 | KIND) << 4 | u32::from(self.shift)) << 2;
        let mut record = header.to_be_bytes()[1..].to_vec();
        record.extend(self.coefficients.iter().flat_map(|a| a.to_be_bytes()));
        record
    }

    /// A list of cells of mixed depth.
    pub fn cells(&self, count: usize) -> Vec<u8> {
        let mut source = Source::new(2);
        let mut cells = Vec::with_capacity(CELL * count);
        for _ in 0..count {
            let depths = [0, 1, 2].map(|v| match v < self.degrees.len() {
                true => source.below(11) as u8,
                false => 0,
            });
            cells.extend(depths);
            for depth in depths {
                cells.extend((source.below(1 << depth) as u16).to_be_bytes());
            }
        }
        cells
    }

    /// A job on this mapping.
    pub fn job(&self, calls: &[[u8; 3]]) -> Vec<u8> {
        let record = self.record();
        let mut job = (record.len() as u16).to_be_bytes().to_vec();
        job.extend(record);
        job.extend(calls.as_flattened());
        job
    }

    /// Halvings of all regions in turn, along each input in turn, until `count` of them are made.
    pub fn halvings(&self, count: usize) -> Vec<[u8; 3]> {
        let rounds = (0..).flat_map(|round: u32| (0..1u32 << round).map(move |at| (round, at)));
        rounds
            .take(count)
            .map(|(round, at)| [b'H', at as u8, (round % u32::from(self.inputs())) as u8 + 1])
            .collect()
    }

    /// A job as a gateway makes one: 11 halvings, 8 probes, 2 reports, and half of the regions tried for clearing.
    pub fn typical(&self) -> Vec<u8> {
        let mut calls = self.halvings(7);
        calls.extend((0..8).map(|region| [b'P', region, region % (1 << self.inputs())]));
        calls.push([b'R', 0, 0]);
        calls.extend((4..8).rev().map(|region| [b'C', region, 0]));
        calls.extend((0..4).map(|_| [b'H', 0, 1]));
        calls.push([b'R', 0, 0]);
        self.job(&calls)
    }

    /// The job that settles a mapping: regions that fit are cleared, the others halved, each along its shallowest
    /// input. None where that does not end in `fits`.
    pub fn settling(&self) -> Option<Vec<u8>> {
        let mut enquiry = Enquiry::open(Mapping::read(&self.record()).ok()?);
        let mut calls = Vec::new();
        while let Some(region) = enquiry.regions().last() {
            let number = enquiry.regions().len() as u8 - 1;
            let depths = &region.cell.depths[..self.degrees.len()];
            let (shallowest, _) = depths.iter().enumerate().min_by_key(|(_, depth)| **depth)?;
            let call = if enquiry.clear(number).is_ok() {
                [b'C', number, 0]
            } else {
                let input = shallowest as u8 + 1;
                enquiry.halve(number, input).ok()?;
                [b'H', number, input]
            };
            calls.push(call);
        }
        (enquiry.verdict(enquiry.range()) == "fits").then(|| self.job(&calls))
    }
}

/// The mappings whose answers, halvings and jobs are timed.
pub fn samples() -> Vec<Sample> {
    let shapes: [(&str, &[u8]); 5] = [
        ("one input, degree 2", &[2]),
        ("one input, degree 7", &[7]),
        ("two inputs, degrees 3, 3", &[3, 3]),
        ("two inputs, degrees 7, 7", &[7, 7]),
        ("three inputs, degrees 3, 3, 3", &[3, 3, 3]),
    ];
    let sample = |(name, degrees)| Sample::mixed(name, degrees);
    shapes.into_iter().map(sample).collect()
}

/// The mappings that the grid is held against: products of Chebyshev polynomials on 0 to 1, which swing
/// between -30,000 and 30,000 and reach both several times.
pub fn curves() -> [Sample; 3] {
    let third = [-1, 18, -48, 32];
    let seventh = [-1, 98, -1_568, 9_408, -26_880, 39_424, -28_672, 8_192];
    [
        Sample::product("one input, degree 3", &[3], &third, 30_000),
        Sample::product("one input, degree 7", &[7], &seventh, 30_000),
        Sample::product("two inputs, degrees 3, 3", &[3, 3], &third, 30_000),
    ]
}

/// A job of random bytes that mostly make sense.
pub fn random_job(source: &mut Source) -> Vec<u8> {
    let shapes: [&'static [u8]; 9] = [
        &[1],
        &[2],
        &[7],
        &[0, 2],
        &[3, 3],
        &[7, 7],
        &[1, 1, 1],
        &[3, 3, 3],
        &[7, 3, 1],
    ];
    let mut sample = Sample::mixed("random", source.choice(&shapes));
    let size = 1 << source.below(32);
    for a in &mut sample.coefficients {
        *a = (source.below(size) as i32).wrapping_mul(source.choice(&[1, -1]));
    }
    let calls: Vec<[u8; 3]> = (0..source.below(60))
        .map(|_| {
            [
                source.choice(b"HHHHHCCPPRX"),
                source.below(12).min(source.below(64)) as u8,
                source.below(5) as u8,
            ]
        })
        .collect();
    let mut job = sample.job(&calls);
    // Another register, shift and zero bits; and now and then a cut or a changed byte.
    job[3] ^= source.below(2) as u8;
    job[4] ^= source.below(64) as u8 * 4;
    if source.below(8) == 0 {
        let at = source.below(job.len() as u32) as usize;
        job[at] = source.below(256) as u8;
    }
    if source.below(8) == 0 {
        job.truncate(source.below(job.len() as u32 + 1) as usize);
    }
    job
}
