//! Counts of what a run has seen.

use std::collections::BTreeMap;
use std::ops::RangeInclusive;

use crate::enquiry::Verdict;
use crate::lines::Line;

/// The refusals of a job: of the record, of an enquiry's calls, and of the job itself.
const JOB_REFUSALS: [RangeInclusive<u32>; 3] = [1..=7, 21..=26, 41..=43];

/// The refusals where forms are asked over cells: of the record, and of the rest.
const FORM_REFUSALS: [RangeInclusive<u32>; 2] = [2..=7, 71..=73];

#[derive(Default)]
pub struct Tally {
    counts: BTreeMap<String, u64>,
}

impl Tally {
    pub fn add(&mut self, name: &str, times: u64) {
        // Looked up first, so that a name is copied only when it is new.
        match self.counts.get_mut(name) {
            Some(count) => *count += times,
            None => {
                self.counts.insert(name.to_string(), times);
            }
        }
    }

    pub fn add_line(&mut self, line: &Line) {
        self.add(&format!("line {}", line.name()), 1);
        match line {
            Line::No(number) => self.add(&refusal_name("job", *number), 1),
            Line::Range(_, verdict) => self.add(&verdict_name("range", *verdict), 1),
            Line::Verdict(verdict, _) => self.add(&verdict_name("last", *verdict), 1),
            _ => (),
        }
    }

    pub fn print(&self) {
        for (name, count) in &self.counts {
            println!("{name}: {count}");
        }
    }

    /// Fails where a refusal or a verdict never occurred, for then the run has not tried everything.
    pub fn complete(&self) -> Result<(), String> {
        let of_jobs = JOB_REFUSALS.into_iter().flatten();
        let of_forms = FORM_REFUSALS.into_iter().flatten();
        let refusals = of_jobs
            .map(|number| refusal_name("job", number))
            .chain(of_forms.map(|number| refusal_name("form", number)));
        let verdicts = ["range", "last"].into_iter().flat_map(|place| {
            Verdict::ALL
                .into_iter()
                .map(move |verdict| verdict_name(place, verdict))
        });
        let missing: Vec<String> = refusals
            .chain(verdicts)
            .filter(|name| !self.counts.contains_key(name))
            .collect();
        if missing.is_empty() {
            Ok(())
        } else {
            Err(format!("never seen: {}", missing.join(", ")))
        }
    }
}

/// With two digits, so that the names sort by number.
pub fn refusal_name(place: &str, number: u32) -> String {
    format!("{place} refusal {number:02}")
}

fn verdict_name(place: &str, verdict: Verdict) -> String {
    format!("{place} verdict {}", verdict.word())
}
