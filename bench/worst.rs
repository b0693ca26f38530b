//! The jobs of 4,096 bytes among which the worst is sought.
//!
//! A halving asks the form twice, and the answer takes the longer the deeper the cell is. Each halving opens a region, and
//! at most 64 are open, so that a long job must clear as often as it halves; to be cleared, regions must be in the register,
//! which is wide enough for that here. Each plan halves the deepest region that can be halved, and where no more can be
//! opened it clears one that cannot be halved any more.

use crate::inputs::Sample;

/// Bytes of the longest job.
const LONGEST: usize = 4096;
const MOST_REGIONS: usize = 64;
const DEEPEST: u8 = 10;

/// Which input of a region is halved.
#[derive(Clone, Copy)]
enum Order {
    First,
    Last,
    Shallowest,
}

impl Order {
    /// The input to halve, counted from 0; none where all are at their deepest.
    fn choose(self, depths: &[u8]) -> Option<usize> {
        let mut open = (0..depths.len()).filter(|v| depths[*v] < DEEPEST);
        match self {
            Order::First => open.next(),
            Order::Last => open.next_back(),
            Order::Shallowest => open.min_by_key(|v| depths[*v]),
        }
    }
}

/// The deepest region that can be halved, and the input to halve it along.
fn deepest(regions: &[Vec<u8>], order: Order) -> Option<(usize, usize)> {
    let depth = |depths: &Vec<u8>| depths.iter().map(|d| u32::from(*d)).sum::<u32>();
    let choices = regions.iter().enumerate();
    choices
        .filter_map(|(at, depths)| Some((at, order.choose(depths)?)))
        .max_by_key(|(at, _)| depth(&regions[*at]))
}

/// So many calls: halvings of the deepest regions, and clearings where no more can be opened.
fn halvings_and_clearings(inputs: usize, order: Order, count: usize) -> Vec<[u8; 3]> {
    let mut regions = vec![vec![0; inputs]];
    let mut calls = Vec::new();
    while calls.len() < count {
        let choice = deepest(&regions, order).filter(|_| regions.len() < MOST_REGIONS);
        if let Some((at, v)) = choice {
            regions[at][v] += 1;
            regions.push(regions[at].clone());
            calls.push([b'H', at as u8, v as u8 + 1]);
        } else {
            let done = |depths: &Vec<u8>| order.choose(depths).is_none();
            let at = regions.iter().position(done).unwrap_or(0);
            regions.swap_remove(at);
            calls.push([b'C', at as u8, 0]);
        }
    }
    calls
}

/// A job of the longest length: calls from a plan that is given how many there is room for.
fn longest(sample: &Sample, plan: impl Fn(usize) -> Vec<[u8; 3]>) -> Vec<u8> {
    let room = LONGEST - sample.job(&[]).len();
    let mut job = sample.job(&plan(room / 3));
    job.resize(LONGEST, b'R');
    job
}

/// The jobs among which the worst is sought, with a name each.
pub fn candidates() -> Vec<(String, Vec<u8>)> {
    let shapes: [(&str, &[u8]); 4] = [
        ("degrees 7, 7", &[7, 7]),
        ("degrees 3, 3, 3", &[3, 3, 3]),
        ("degrees 7, 3, 1", &[7, 3, 1]),
        ("degrees 1, 3, 7", &[1, 3, 7]),
    ];
    let orders = [
        ("first input first", Order::First),
        ("last input first", Order::Last),
        ("shallowest input first", Order::Shallowest),
    ];
    let mut jobs = Vec::new();
    for (name, degrees) in shapes {
        let mut sample = Sample::mixed(name, degrees);
        sample.shift = 15;
        for (how, order) in orders {
            let job = longest(&sample, |count| {
                halvings_and_clearings(degrees.len(), order, count)
            });
            jobs.push((format!("{name}: halvings and clearings, {how}"), job));
        }
        for (what, call) in [("probes", [b'P', 63, 1]), ("reports", [b'R', 0, 0])] {
            let job = longest(&sample, |count| {
                let mut calls = sample.halvings(MOST_REGIONS - 1);
                calls.resize(count, call);
                calls
            });
            jobs.push((format!("{name}: 63 halvings and {what}"), job));
        }
    }
    jobs
}
