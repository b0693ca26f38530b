//! The benchmark: the proved library against the same method in plain Rust, on the same inputs in one run.
//!
//! Without arguments it compares all outputs, and then times and prints the tables of docs/SPEED.md. With `candidates
//! FOLDER` it writes the jobs among which the worst is sought. With `ours FILE` or `plain FILE` it runs the job of the
//! file once.

mod grid;
mod inputs;
#[path = "../include/rangecheck.rs"]
mod library;
mod plain;
mod timing;
mod worst;

use inputs::{Sample, Source};
use std::fs;
use std::hint::black_box;
use std::process::ExitCode;

/// Cells in one list.
const CELLS: usize = 64;
/// Halvings that open as many regions as there can be.
const HALVINGS: usize = 63;
/// How many random jobs are compared.
const RANDOM_JOBS: usize = 2_000;
const FORMS: [(u8, &str); 3] = [(0, "nested"), (1, "Bernstein"), (2, "pair")];

/// What the library answers to a job, in the first bytes of the output.
fn answer<'a>(job: &[u8], output: &'a mut [u8]) -> Option<&'a [u8]> {
    let length = usize::try_from(library::job(job, output)).ok()?;
    Some(&output[..length])
}

/// Fails where the two give different lines.
fn compare_job(job: &[u8], output: &mut [u8], lines: &mut Vec<u8>) -> Result<(), String> {
    plain::job(job, lines);
    match answer(job, output) {
        Some(answer) if answer == lines.as_slice() => Ok(()),
        Some(answer) => Err(format!(
            "lines differ on the job {job:?}\nlibrary:\n{}\nplain:\n{}",
            String::from_utf8_lossy(answer),
            String::from_utf8_lossy(lines)
        )),
        None => Err(format!("no answer to the job {job:?}")),
    }
}

/// Fails where the two give different ends.
fn compare_cells(form: u8, record: &[u8], cells: &[u8]) -> Result<(), String> {
    let mut ends = [[0; 3 * CELLS]; 2];
    let numbers = [
        library::enclose(form, record, cells, &mut ends[0]),
        plain::enclose(form, record, cells, &mut ends[1]),
    ];
    if numbers[0] == numbers[1] && ends[0] == ends[1] {
        Ok(())
    } else {
        Err(format!("form {form} differs on the record {record:?}"))
    }
}

/// Both sides give the expected lines for the jobs that the repository executes.
fn compare_cases(output: &mut [u8], lines: &mut Vec<u8>) -> Result<(), String> {
    let mut rest: &[u8] = include_bytes!("../crates/job_cases/stdin");
    let mut text = Vec::new();
    while let [high, low, behind @ ..] = rest {
        let (job, others) = behind.split_at(usize::from(u16::from_be_bytes([*high, *low])));
        compare_job(job, output, lines)?;
        text.extend_from_slice(lines);
        text.extend_from_slice(b".\n");
        rest = others;
    }
    if text == include_bytes!("../crates/job_cases/stdout") {
        Ok(())
    } else {
        Err("the executed jobs have other lines than expected".to_string())
    }
}

/// Everything that is timed gives equal outputs on both sides, and so do the executed jobs and random ones.
fn compare_all() -> Result<(), String> {
    let mut output = vec![0; library::ENOUGH];
    let mut lines = Vec::new();
    compare_cases(&mut output, &mut lines)?;
    for sample in inputs::samples() {
        let record = sample.record();
        if library::record(&record) != 0 || plain::Mapping::read(&record).is_err() {
            return Err(format!("the record of {} is refused", sample.name));
        }
        for (form, _) in FORMS {
            compare_cells(form, &record, &sample.cells(CELLS))?;
        }
        for job in [sample.job(&sample.halvings(HALVINGS)), sample.typical()] {
            compare_job(&job, &mut output, &mut lines)?;
        }
    }
    for curve in inputs::curves() {
        compare_job(&settling(&curve)?, &mut output, &mut lines)?;
    }
    let mut source = Source::new(3);
    for _ in 0..RANDOM_JOBS {
        compare_job(&inputs::random_job(&mut source), &mut output, &mut lines)?;
    }
    Ok(())
}

fn settling(curve: &Sample) -> Result<Vec<u8>, String> {
    let unsettled = || format!("no job settles {}", curve.name);
    curve.settling().ok_or_else(unsettled)
}

/// A number with three figures, in thousands or millions where it is large.
fn short(number: f64) -> String {
    match number {
        x if x >= 999_500.0 => format!("{:.2} million", x / 1e6),
        x if x >= 9_995.0 => format!("{:.0} thousand", x / 1e3),
        x => format!("{x:.0}"),
    }
}

/// One row: how many of something a second each side does, where it does `count` of them in the given seconds.
fn row(what: &str, sample: &Sample, count: usize, (ours, plain): (f64, f64)) {
    println!(
        "| {what}, {} | {} | {} | {:.2} |",
        sample.name,
        short(count as f64 / ours),
        short(count as f64 / plain),
        ours / plain
    );
}

/// Seconds that a job takes on each side.
fn time_job(job: &[u8]) -> (f64, f64) {
    let mut output = vec![0; library::ENOUGH];
    let mut lines = Vec::new();
    let ours = || {
        black_box(library::job(black_box(job), &mut output));
    };
    let plain = || plain::job(black_box(job), black_box(&mut lines));
    timing::alternate(ours, plain)
}

/// Seconds that a form takes for a list of cells on each side.
fn time_form(form: u8, record: &[u8], cells: &[u8]) -> (f64, f64) {
    let mut ends = [[0; 3 * CELLS]; 2];
    let [first, second] = &mut ends;
    let ours = || {
        let cells = black_box(cells);
        black_box(library::enclose(form, record, cells, black_box(first)));
    };
    let plain = || {
        let cells = black_box(cells);
        black_box(plain::enclose(form, record, cells, black_box(second)));
    };
    timing::alternate(ours, plain)
}

/// Seconds that reading a record takes on each side.
fn time_record(record: &[u8]) -> (f64, f64) {
    let ours = || {
        black_box(library::record(black_box(record)));
    };
    let plain = || {
        let _ = black_box(plain::Mapping::read(black_box(record)));
    };
    timing::alternate(ours, plain)
}

/// The rows of one mapping.
fn time_sample(sample: &Sample) {
    let record = sample.record();
    let cells = sample.cells(CELLS);
    for (form, name) in FORMS {
        let times = time_form(form, &record, &cells);
        row(&format!("{name} answers"), sample, CELLS, times);
    }
    let halvings = sample.job(&sample.halvings(HALVINGS));
    row("halvings", sample, HALVINGS, time_job(&halvings));
    row("whole jobs", sample, 1, time_job(&sample.typical()));
    row("records read", sample, 1, time_record(&record));
}

/// A row of the second table: sampling a mapping, against the whole job that settles it.
fn time_grid(curve: &Sample) -> Result<(), String> {
    let job = settling(curve)?;
    let calls = (job.len() - 2 - curve.record().len()) / 3;
    let mut output = vec![0; library::ENOUGH];
    let coefficients = &curve.coefficients;
    let sampled = || {
        black_box(match curve.degrees {
            [_] => grid::one_input(black_box(coefficients)),
            [.., last] => grid::two_inputs(black_box(coefficients), usize::from(*last) + 1),
            [] => (0.0, 0.0),
        });
    };
    let ours = || {
        black_box(library::job(black_box(&job), &mut output));
    };
    let (ours, sampled) = timing::alternate(ours, sampled);
    println!(
        "| {} | {} | {calls} | {} | {} | {:.3} |",
        curve.name,
        grid::SAMPLES.pow(u32::from(curve.inputs())),
        short(1.0 / ours),
        short(1.0 / sampled),
        ours / sampled
    );
    Ok(())
}

/// Compares all outputs, and prints both tables.
fn print_tables() -> Result<(), String> {
    compare_all()?;
    println!("| what | ours, a second | plain, a second | ours/plain, in time |");
    println!("|---|---|---|---|");
    for sample in inputs::samples() {
        time_sample(&sample);
    }
    println!();
    println!("| mapping | samples | calls of the job | jobs, a second | grids, a second | job/grid, in time |");
    println!("|---|---|---|---|---|---|");
    for curve in inputs::curves() {
        time_grid(&curve)?;
    }
    Ok(())
}

/// Writes each candidate for the worst job to a file, and prints the file, how many halvings it makes, and its name.
fn write_candidates(folder: &str) -> Result<(), String> {
    let mut output = vec![0; library::ENOUGH];
    let mut lines = Vec::new();
    for (number, (name, job)) in worst::candidates().iter().enumerate() {
        compare_job(job, &mut output, &mut lines)?;
        let halvings = lines.windows(6).filter(|word| word == b"halved").count();
        let file = format!("{folder}/{number}.job");
        fs::write(&file, job).map_err(|error| error.to_string())?;
        println!("{file} {halvings} {name}");
    }
    Ok(())
}

fn run_library(job: &[u8]) -> Option<usize> {
    let mut output = vec![0; library::ENOUGH];
    answer(job, &mut output).map(<[u8]>::len)
}

/// Kept apart from its caller, so that instructions can be counted inside it.
#[inline(never)]
fn run_plain(job: &[u8]) -> Option<usize> {
    let mut lines = Vec::with_capacity(library::ENOUGH);
    plain::job(job, &mut lines);
    Some(lines.len())
}

fn run(words: &[&str]) -> Result<(), String> {
    match words {
        [] => print_tables(),
        ["candidates", folder] => write_candidates(folder),
        [side @ ("ours" | "plain"), file] => {
            let job = fs::read(file).map_err(|error| error.to_string())?;
            let run = if *side == "ours" {
                run_library
            } else {
                run_plain
            };
            let length = run(&job).ok_or("no answer")?;
            println!("{length} bytes");
            Ok(())
        }
        _ => Err("usage: bench [candidates FOLDER | ours FILE | plain FILE]".to_string()),
    }
}

fn main() -> ExitCode {
    let words: Vec<String> = std::env::args().skip(1).collect();
    let words: Vec<&str> = words.iter().map(String::as_str).collect();
    match run(&words) {
        Ok(()) => ExitCode::SUCCESS,
        Err(reason) => {
            eprintln!("{reason}");
            ExitCode::FAILURE
        }
    }
}
