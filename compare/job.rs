//! The job: bytes in, text out.

use crate::enclosure::Point;
use crate::enquiry::{Enquiry, Verdict};
use crate::forms::Forms;
use crate::record::{self, Mapping, Refusal};

const MOST_BYTES: usize = 4096;
const TOO_LONG: Refusal = Refusal(41);
const CUT_SHORT: Refusal = Refusal(42);
const UNREADABLE: Refusal = Refusal(43);

/// The mapping and the calls behind it, or the refusal of the whole job.
pub fn load(job: &[u8]) -> Result<(Mapping, &[u8]), Refusal> {
    if job.len() > MOST_BYTES {
        return Err(TOO_LONG);
    }
    let (length, rest) = job.split_at_checked(2).ok_or(CUT_SHORT)?;
    let length = usize::from(length[0]) * 256 + usize::from(length[1]);
    let (bytes, calls) = rest.split_at_checked(length).ok_or(CUT_SHORT)?;
    Ok((record::read(bytes)?, calls))
}

/// All lines of a job.
pub fn answer(job: &[u8]) -> String {
    match load(job) {
        Ok((mapping, calls)) => run(&Forms::new(mapping), calls),
        Err(refusal) => no(refusal),
    }
}

fn run(forms: &Forms, calls: &[u8]) -> String {
    let mut enquiry = Enquiry::open(forms);
    let mut text = range_line(&enquiry);
    for call in calls.chunks(3) {
        text += &one_call(&mut enquiry, call).unwrap_or_else(no);
    }
    let (verdict, witness) = enquiry.close();
    text + &verdict_line(verdict, witness, forms.mapping.inputs)
}

fn one_call(enquiry: &mut Enquiry, call: &[u8]) -> Result<String, Refusal> {
    match *call {
        [b'H', region, input] => Ok(format!("halved {}\n", enquiry.halve(region, input)?)),
        [b'C', region, _] => Ok(format!("cleared {}\n", enquiry.clear(region)?)),
        [b'P', region, corner] => {
            let ends = enquiry.probe(region, corner)?;
            Ok(format!("point {} {}\n", ends.low, ends.high))
        }
        [b'R', _, _] => Ok(range_line(enquiry)),
        _ => Err(UNREADABLE),
    }
}

fn no(refusal: Refusal) -> String {
    format!("no {}\n", refusal.0)
}

fn range_line(enquiry: &Enquiry) -> String {
    let (answer, verdict) = enquiry.report();
    let range = answer.range;
    let word = verdict.word();
    format!(
        "range {} {} {} {word}\n",
        range.low, range.high, answer.slack
    )
}

fn verdict_line(verdict: Verdict, witness: Option<Point>, inputs: usize) -> String {
    let point = witness.map_or(String::new(), |point| {
        let inputs = point.0.iter().take(inputs);
        inputs
            .map(|(numerator, denominator)| format!(" {numerator}/{denominator}"))
            .collect()
    });
    format!("verdict {}{point}\n", verdict.word())
}
