//! Runs jobs through the library and through the comparison, and checks what both say.

use std::time::Instant;

use crate::forms::Forms;
use crate::honest::Truth;
use crate::job;
use crate::library;
use crate::lines::Line;
use crate::plans::{any_job, Job};
use crate::questions;
use crate::random::Random;
use crate::tally::Tally;

/// What an output buffer is filled with, to see which bytes change.
const UNTOUCHED: u8 = 0xA5;

/// How often the sizes of the output buffer are tried.
const SIZES_ONCE_IN: usize = 4;

struct Comparison {
    random: Random,
    tally: Tally,
    output: Vec<u8>,
}

/// Compares so many jobs, and prints what was seen.
pub fn compare(count: u64, seed: u64) -> Result<(), String> {
    println!("seed {seed}, {count} jobs");
    let start = Instant::now();
    let mut comparison = Comparison {
        random: Random::new(seed),
        tally: Tally::default(),
        output: vec![UNTOUCHED; library::ENOUGH],
    };
    for number in 1..=count {
        let job = any_job(&mut comparison.random);
        let checked = comparison.check(&job);
        checked.map_err(|fault| described(number, &job, &fault))?;
        questions::check_any(&mut comparison.random, &mut comparison.tally)?;
    }
    comparison.tally.print();
    println!("time: {:.1} s", start.elapsed().as_secs_f64());
    comparison.tally.complete()
}

pub fn hexadecimal(bytes: &[u8]) -> String {
    bytes.iter().map(|byte| format!("{byte:02x}")).collect()
}

fn described(number: u64, job: &Job, fault: &str) -> String {
    let bytes = hexadecimal(&job.bytes);
    format!(
        "job {number} ({}): {fault}\njob in hexadecimal: {bytes}",
        job.plan
    )
}

impl Comparison {
    fn check(&mut self, job: &Job) -> Result<(), String> {
        self.tally.add(&format!("jobs, {}", job.plan), 1);
        self.tally.add("jobs", 1);
        let library = self.library_answer(&job.bytes)?;
        let own = job::answer(&job.bytes);
        if library != own.as_bytes() {
            let text = String::from_utf8_lossy(&library);
            return Err(format!(
                "the answers differ\n--- library:\n{text}--- comparison:\n{own}---"
            ));
        }
        if self.random.once_in(SIZES_ONCE_IN) {
            self.check_sizes(&job.bytes, &library)?;
        }
        let lines = own
            .lines()
            .map(Line::read)
            .collect::<Result<Vec<Line>, String>>()?;
        for line in &lines {
            self.tally.add_line(line);
        }
        if let Ok((mapping, _)) = job::load(&job.bytes) {
            let forms = Forms::new(mapping);
            let truth = Truth::new(&forms, &mut self.random);
            let checked = truth.check(&lines, &mut self.tally);
            checked.map_err(|fault| format!("{fault}\n--- both:\n{own}---"))?;
        }
        Ok(())
    }

    /// The answer in a large buffer, of which nothing behind the answer may change.
    fn library_answer(&mut self, job: &[u8]) -> Result<Vec<u8>, String> {
        let returned = library::job(job, &mut self.output);
        let length = usize::try_from(returned)
            .ok()
            .filter(|length| *length <= library::ENOUGH);
        let length = length.ok_or_else(|| format!("the library returned {returned}"))?;
        let (answer, behind) = self.output.split_at_mut(length);
        if behind.iter().any(|byte| *byte != UNTOUCHED) {
            return Err("a byte behind the answer changed".to_string());
        }
        let kept = answer.to_vec();
        answer.fill(UNTOUCHED);
        Ok(kept)
    }

    /// Buffers that are too small by one, empty, exactly large enough, and larger.
    fn check_sizes(&mut self, job: &[u8], answer: &[u8]) -> Result<(), String> {
        let length = answer.len();
        for size in [length - 1, 0, length, length + 1 + self.random.below(100)] {
            let mut output = vec![UNTOUCHED; size];
            let returned = library::job(job, &mut output);
            let enough = size >= length;
            let mut wanted = vec![UNTOUCHED; size];
            if enough {
                wanted[..length].copy_from_slice(answer);
            }
            if returned != if enough { length as i64 } else { -1 } || output != wanted {
                return Err(format!(
                    "a buffer of {size} bytes for {length}: the library returned {returned}"
                ));
            }
            self.tally.add(
                if enough {
                    "buffers large enough"
                } else {
                    "buffers too small"
                },
                1,
            );
        }
        Ok(())
    }
}
