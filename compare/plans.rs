//! Makes jobs, each after one of several plans.

use crate::mappings::{any_record, small_record, Record};
use crate::random::Random;
use crate::record::full_length;

const MOST_REGIONS: usize = 64;
const DEEPEST: usize = 10;
const MOST_BYTES: usize = 4096;

pub struct Job {
    pub plan: &'static str,
    pub bytes: Vec<u8>,
}

struct Plan {
    share: usize,
    name: &'static str,
    make: fn(&mut Random) -> Vec<u8>,
}

const PLANS: [Plan; 16] = [
    Plan {
        share: 30,
        name: "mixed calls",
        make: |random| mixed(random).job(),
    },
    Plan {
        share: 14,
        name: "deep",
        make: deep,
    },
    Plan {
        share: 8,
        name: "wide",
        make: wide,
    },
    Plan {
        share: 8,
        name: "small numbers",
        make: small_numbers,
    },
    Plan {
        share: 12,
        name: "clear and probe",
        make: clear_and_probe,
    },
    Plan {
        share: 8,
        name: "numbers outside the limits",
        make: outside_limits,
    },
    Plan {
        share: 5,
        name: "unknown codes",
        make: unknown_codes,
    },
    Plan {
        share: 4,
        name: "last call cut short",
        make: last_call_cut,
    },
    Plan {
        share: 6,
        name: "flipped bits",
        make: flipped_bits,
    },
    Plan {
        share: 6,
        name: "length bytes changed",
        make: length_changed,
    },
    Plan {
        share: 6,
        name: "truncated",
        make: truncated,
    },
    Plan {
        share: 5,
        name: "any header",
        make: any_header,
    },
    Plan {
        share: 2,
        name: "noise",
        make: noise,
    },
    Plan {
        share: 1,
        name: "at the limit of bytes",
        make: at_limit,
    },
    Plan {
        share: 1,
        name: "over the limit of bytes",
        make: over_limit,
    },
    Plan {
        share: 1,
        name: "empty",
        make: |_| Vec::new(),
    },
];

pub fn any_job(random: &mut Random) -> Job {
    let all: usize = PLANS.iter().map(|plan| plan.share).sum();
    let mut ticket = random.below(all);
    let drawn = PLANS.iter().find(|plan| {
        let here = ticket < plan.share;
        ticket = ticket.wrapping_sub(plan.share);
        here
    });
    let plan = drawn.expect("the ticket is below the sum of the shares");
    Job {
        plan: plan.name,
        bytes: (plan.make)(random),
    }
}

/// A record and the calls behind it.
struct Draft {
    record: Record,
    calls: Vec<u8>,
    /// How many regions are open if every halving was granted; only a guess once a call was refused or a region cleared.
    open: usize,
}

impl Draft {
    fn new(record: Record) -> Draft {
        Draft {
            record,
            calls: Vec::new(),
            open: 1,
        }
    }

    fn job(&self) -> Vec<u8> {
        let length = self.record.bytes.len() as u16;
        [&length.to_be_bytes(), &self.record.bytes[..], &self.calls].concat()
    }

    fn call(&mut self, code: u8, region: usize, argument: usize) {
        self.calls.extend([code, region as u8, argument as u8]);
    }

    fn halve(&mut self, region: usize, input: usize) {
        self.call(b'H', region, input);
        self.open = MOST_REGIONS.min(self.open + 1);
    }

    fn report(&mut self) {
        self.call(b'R', 0, 0);
    }

    fn any_region(&self, random: &mut Random) -> usize {
        random.below(self.open)
    }

    fn any_input(&self, random: &mut Random) -> usize {
        1 + random.below(self.record.inputs)
    }

    fn probe(&mut self, region: usize, random: &mut Random) {
        let corner = random.below(1 << self.record.inputs);
        self.call(b'P', region, corner);
    }

    fn any_call(&mut self, random: &mut Random) {
        let region = self.any_region(random);
        match random.below(8) {
            0..=2 => self.halve(region, self.any_input(random)),
            3 => self.call(b'C', region, 0),
            4..=5 => self.probe(region, random),
            _ => self.report(),
        }
    }

    fn any_calls(&mut self, count: usize, random: &mut Random) {
        for _ in 0..count {
            self.any_call(random);
        }
    }
}

fn mixed(random: &mut Random) -> Draft {
    let mut draft = Draft::new(any_record(random));
    let count = random.below(40);
    draft.any_calls(count, random);
    draft
}

/// Follows one cell down to the deepest and beyond, input after input: the lower half keeps its number, the upper half is the last.
fn deep(random: &mut Random) -> Vec<u8> {
    let mut draft = Draft::new(any_record(random));
    let sides = random.pick(&[&[false] as &[bool], &[true], &[false, true]]);
    let beyond = 1 + random.below(2);
    let mut region = 0;
    for input in 1..=draft.record.inputs {
        for _ in 0..DEEPEST {
            draft.halve(region, input);
            if random.pick(sides) {
                region = draft.open - 1;
            }
            if random.once_in(3) {
                draft.probe(region, random);
            }
        }
        for _ in 0..beyond {
            draft.call(b'H', region, input);
        }
        draft.report();
    }
    draft.call(b'C', region, 0);
    draft.any_calls(5, random);
    draft.job()
}

/// Halves every region in turn until no more can be open, and twice beyond.
fn wide(random: &mut Random) -> Vec<u8> {
    let mut draft = Draft::new(any_record(random));
    let first = random.below(3);
    for round in first.. {
        let input = 1 + round % draft.record.inputs;
        for region in 0..draft.open {
            draft.halve(region, input);
        }
        draft.report();
        if draft.open == MOST_REGIONS {
            break;
        }
    }
    for _ in 0..2 {
        draft.halve(draft.any_region(random), draft.any_input(random));
    }
    let count = random.below(80);
    draft.any_calls(count, random);
    draft.report();
    draft.job()
}

/// Numbers of a few steps, and a report after each halving. A half can stick out of its parent only along an input that stands
/// before one that was halved, so the last input comes first.
fn small_numbers(random: &mut Random) -> Vec<u8> {
    let mut draft = Draft::new(small_record(random));
    let inputs = draft.record.inputs;
    for round in 0..1 + random.below(5) {
        for region in 0..draft.open {
            draft.halve(region, inputs - round % inputs);
            draft.report();
        }
    }
    draft.job()
}

/// Clears what can be cleared, probes, and halves what is left.
fn clear_and_probe(random: &mut Random) -> Vec<u8> {
    let mut draft = Draft::new(any_record(random));
    for round in 0..1 + random.below(5) {
        // From the last region down: a region that takes a cleared one's number was tried before.
        for region in (0..draft.open).rev() {
            draft.call(b'C', region, 0);
        }
        if random.once_in(2) {
            draft.probe(draft.any_region(random), random);
        }
        draft.report();
        let input = 1 + round % draft.record.inputs;
        for region in 0..draft.open {
            draft.halve(region, input);
        }
    }
    draft.report();
    draft.job()
}

/// Regions, inputs and corners from 0 to 255 between ordinary calls.
fn outside_limits(random: &mut Random) -> Vec<u8> {
    let mut draft = Draft::new(any_record(random));
    for _ in 0..random.below(40) {
        draft.any_call(random);
        let code = random.pick(b"HCP");
        let any = usize::from(random.byte());
        let region = random.pick(&[0, draft.open - 1, draft.open, 63, 64, any]);
        let argument = random.pick(&[0, 1, 2, 3, 4, 7, 8, 255, any]);
        draft.call(code, region, argument);
    }
    draft.job()
}

fn unknown_codes(random: &mut Random) -> Vec<u8> {
    let mut draft = Draft::new(any_record(random));
    for _ in 0..random.below(30) {
        draft.any_call(random);
        let any = random.byte();
        let code = random.pick(&[b'h', b'r', b'G', b'I', 0, 10, 255, any]);
        draft.call(code, 0, 1);
    }
    draft.job()
}

fn last_call_cut(random: &mut Random) -> Vec<u8> {
    let mut job = mixed(random).job();
    let code = random.pick(b"HCPRx");
    job.extend(random.pick(&[&[code] as &[u8], &[code, 0]]));
    job
}

fn flipped_bits(random: &mut Random) -> Vec<u8> {
    let mut job = mixed(random).job();
    // Most flips hit the first bytes, where each bit has its own meaning.
    let reach = random.pick(&[6, 6, job.len()]);
    for _ in 0..1 + random.below(3) {
        let place = random.below(reach);
        job[place] ^= 1 << random.below(8);
    }
    job
}

fn length_changed(random: &mut Random) -> Vec<u8> {
    let mut job = mixed(random).job();
    let length = u16::from_be_bytes([job[0], job[1]]);
    let off = random.pick(&[1, 2, 3, 4]);
    let any = random.next() as u16;
    let other = random.pick(&[
        off - 1,
        length + off,
        length.saturating_sub(off),
        length.swap_bytes(),
        length + 256,
        job.len() as u16 - 2,
        job.len() as u16 - 1,
        any,
    ]);
    job[..2].copy_from_slice(&other.to_be_bytes());
    job
}

/// Cut in the length bytes, the header, a coefficient, at the record's end, or in a call.
fn truncated(random: &mut Random) -> Vec<u8> {
    let draft = mixed(random);
    let mut job = draft.job();
    let record_end = 2 + draft.record.bytes.len();
    let any = random.below(job.len());
    let kept = random.pick(&[
        0,
        1,
        2,
        3,
        4,
        5,
        6,
        record_end - 1,
        record_end,
        record_end + 1,
        record_end + 2,
        any,
    ]);
    job.truncate(kept);
    job
}

/// A header of any bits, most of them with the format right, and a record whose length matches or is off by a little.
fn any_header(random: &mut Random) -> Vec<u8> {
    let mut header = [random.byte(), random.byte(), random.byte()];
    if !random.once_in(8) {
        header[0] = header[0] & 0x0F | 0x10;
    }
    if random.once_in(2) {
        header[2] &= 0xFC;
    }
    let bits = u32::from_be_bytes([0, header[0], header[1], header[2]]);
    let terms = [15, 12, 9]
        .iter()
        .map(|place| (bits >> place & 7) as usize + 1)
        .product();
    let length =
        full_length(terms) + random.pick(&[0, 0, 0, 1, 2, 4, 8]) - random.pick(&[0, 0, 1, 4]);
    let mut record = header.to_vec();
    record.resize_with(length, || random.byte());
    let mut draft = Draft::new(Record {
        bytes: record,
        inputs: 3,
    });
    draft.any_calls(4, random);
    draft.job()
}

fn noise(random: &mut Random) -> Vec<u8> {
    let any = random.below(300);
    let length = random.pick(&[1, 2, 3, 5, any]);
    (0..length).map(|_| random.byte()).collect()
}

/// A job that is filled with calls and cut to a length.
fn filled(length: usize, random: &mut Random) -> Vec<u8> {
    let mut draft = mixed(random);
    draft.any_calls(length / 3, random);
    let mut job = draft.job();
    job.truncate(length);
    job
}

fn at_limit(random: &mut Random) -> Vec<u8> {
    let length = MOST_BYTES - random.pick(&[0, 0, 1, 2]);
    filled(length, random)
}

fn over_limit(random: &mut Random) -> Vec<u8> {
    let length = MOST_BYTES + random.pick(&[1, 1, 2, 3, 100, MOST_BYTES, 60_000]);
    filled(length, random)
}
