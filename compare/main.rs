//! Compares the proved range checker, through its static library, with an independent implementation, and holds what it reports
//! against exact values. docs/COMPARE.md says how to run it and what it can show.

mod bernstein;
mod enclosure;
mod enquiry;
mod exact;
mod extremes;
mod forms;
mod fraction;
mod grid;
mod headers;
mod honest;
mod job;
mod jobs;
#[path = "../include/rangecheck.rs"]
mod library;
mod lines;
mod mappings;
mod nested;
mod plans;
mod questions;
mod random;
mod record;
mod tally;
mod whole;

use std::process::ExitCode;
use std::time::{SystemTime, UNIX_EPOCH};

const USAGE: &str = "usage: compare jobs COUNT [SEED] | compare headers";

fn main() -> ExitCode {
    let arguments: Vec<String> = std::env::args().skip(1).collect();
    match run(&arguments) {
        Ok(()) => {
            println!("no difference");
            ExitCode::SUCCESS
        }
        Err(fault) => {
            println!("{fault}");
            ExitCode::FAILURE
        }
    }
}

fn run(arguments: &[String]) -> Result<(), String> {
    let words: Vec<&str> = arguments.iter().map(String::as_str).collect();
    match words[..] {
        ["jobs", count] => jobs::compare(number(count)?, clock_seed()),
        ["jobs", count, seed] => jobs::compare(number(count)?, number(seed)?),
        ["headers"] => headers::compare(),
        _ => Err(USAGE.to_string()),
    }
}

fn number(text: &str) -> Result<u64, String> {
    text.parse().map_err(|_| format!("not a number: {text}"))
}

/// The clock's nanoseconds. A clock before its epoch gives 0, a seed like any other.
fn clock_seed() -> u64 {
    let since = SystemTime::now().duration_since(UNIX_EPOCH);
    since.map_or(0, |since| since.as_nanos() as u64)
}
