//! Runs every header through both record readers.

use std::time::Instant;

use crate::library;
use crate::record::{self, full_length, Refusal};

const HEADERS: u32 = 1 << 24;

/// A record of up to 512 coefficients, and the most bytes more that are tried.
const LONGEST: usize = full_length(512) + 65_536;

/// Counts by number; 0 stands for accepted records.
type Counts = [u64; 8];

/// Compares the two readers over every header, with the matching length and with wrong ones.
pub fn compare() -> Result<(), String> {
    let start = Instant::now();
    let mut bytes: Vec<u8> = (0..LONGEST).map(|place| (place * 37 % 251) as u8).collect();
    let mut matching = Counts::default();
    let mut wrong = Counts::default();
    for header in 0..HEADERS {
        bytes[..3].copy_from_slice(&header.to_be_bytes()[1..]);
        let length = full_length(terms(header));
        count(&bytes[..length], &mut matching)?;
        for length in wrong_lengths(length) {
            count(&bytes[..length], &mut wrong)?;
        }
    }
    print("matching length", &matching);
    print("wrong length", &wrong);
    println!("time: {:.1} s", start.elapsed().as_secs_f64());
    let never = (0..8).find(|number| matching[*number] + wrong[*number] == 0);
    match never {
        Some(number) => Err(format!("never seen: {number}")),
        None => Ok(()),
    }
}

/// The number of coefficients that the degrees of a header ask for, accepted or not.
fn terms(header: u32) -> usize {
    let degrees = [15, 12, 9].map(|place| (header >> place & 7) as usize);
    degrees.iter().map(|n| n + 1).product()
}

/// Shorter than a header, a header alone, off by a byte or a coefficient, or longer by a power of 256. Every header asks for at least
/// one coefficient, so none of these is the matching length.
fn wrong_lengths(length: usize) -> [usize; 10] {
    let (longer, much_longer) = (length + 256, length + 65_536);
    [
        0,
        1,
        2,
        3,
        length - 4,
        length - 1,
        length + 1,
        length + 4,
        longer,
        much_longer,
    ]
}

fn count(bytes: &[u8], counts: &mut Counts) -> Result<(), String> {
    let library = library::record(bytes);
    let own = match record::read(bytes) {
        Ok(_) => 0,
        Err(Refusal(number)) => number,
    };
    if library != own {
        let header = &bytes[..bytes.len().min(3)];
        let length = bytes.len();
        return Err(format!(
            "header {header:02x?}, {length} bytes: library {library}, comparison {own}"
        ));
    }
    counts[own as usize] += 1;
    Ok(())
}

fn print(name: &str, counts: &Counts) {
    println!("{name}: accepted {}", counts[0]);
    for (number, count) in counts.iter().enumerate().skip(1) {
        println!("{name}: refusal {number}: {count}");
    }
}
