//! Holds reported ranges and verdicts against exact values.

use crate::enclosure::{Answer, Cell, Enclosure, Point};
use crate::enquiry::Verdict;
use crate::exact::ExactValue;
use crate::extremes::Extremes;
use crate::forms::Forms;
use crate::lines::Line;
use crate::random::Random;
use crate::tally::Tally;

/// What is known of a mapping without any form.
pub struct Truth<'a> {
    forms: &'a Forms,
    samples: Vec<ExactValue>,
    extremes: Extremes,
}

/// The last range and verdict that were seen.
struct Seen {
    range: Enclosure,
    verdict: Verdict,
}

impl<'a> Truth<'a> {
    pub fn new(forms: &'a Forms, random: &mut Random) -> Truth<'a> {
        let mapping = &forms.mapping;
        let points = sample_points(mapping.inputs, mapping.degrees, random);
        let samples = points
            .into_iter()
            .map(|point| ExactValue::new(mapping, point));
        Truth {
            forms,
            samples: samples.collect(),
            extremes: Extremes::new(forms),
        }
    }

    /// Checks the lines of one answer in their order.
    pub fn check(&self, lines: &[Line], tally: &mut Tally) -> Result<(), String> {
        let mut seen: Option<Seen> = None;
        for line in lines {
            match line {
                Line::Range(answer, verdict) => {
                    self.check_range(answer, tally)?;
                    self.check_verdict(*verdict)?;
                    check_order(seen, answer.range, *verdict)?;
                    seen = Some(Seen {
                        range: answer.range,
                        verdict: *verdict,
                    });
                }
                Line::Point(ends) => check_point(&seen, *ends)?,
                Line::Verdict(verdict, witness) => {
                    self.check_verdict(*verdict)?;
                    self.check_witness(*verdict, witness, tally)?;
                    check_final(&seen, *verdict)?;
                }
                _ => (),
            }
        }
        Ok(())
    }

    fn check_range(&self, answer: &Answer, tally: &mut Tally) -> Result<(), String> {
        self.check_enclosed(answer.range, "range")?;
        tally.add("ranges checked", 1);
        tally.add("points held against a range", self.samples.len() as u64);
        self.check_near(answer, tally)
    }

    /// No sampled value and neither known extreme lies outside.
    fn check_enclosed(&self, range: Enclosure, name: &str) -> Result<(), String> {
        let sampled = self.samples.iter().all(|value| value.lies_in(range));
        let extremes = &self.extremes;
        if sampled && !extremes.falls_below(range.low) && !extremes.rises_above(range.high) {
            Ok(())
        } else {
            Err(format!("a value lies outside the {name} {range:?}"))
        }
    }

    /// Some value must be at most low + slack, and some one at least high − slack. No finite list of points can refute that. A
    /// lower bound of the true least value can: the condition fails where low + slack is less than that bound. So what is
    /// checked is a necessary condition; where a value is known that meets it, it is confirmed, and else it stays undecided.
    fn check_near(&self, answer: &Answer, tally: &mut Tally) -> Result<(), String> {
        let most = answer.range.low + answer.slack;
        let least = answer.range.high - answer.slack;
        if self.extremes.stays_above(most) || self.extremes.stays_below(least) {
            return Err(format!(
                "an end is farther than the slack from every value: {answer:?}"
            ));
        }
        let near_low = self.extremes.reaches_down_to(most)
            || self.samples.iter().any(|value| value.at_most(most));
        let near_high = self.extremes.reaches_up_to(least)
            || self.samples.iter().any(|value| value.at_least(least));
        for near in [near_low, near_high] {
            tally.add(
                if near {
                    "ends near, confirmed by a value"
                } else {
                    "ends near, not decided"
                },
                1,
            );
        }
        Ok(())
    }

    fn check_verdict(&self, verdict: Verdict) -> Result<(), String> {
        match verdict {
            Verdict::Fits => {
                self.check_enclosed(self.forms.mapping.register, "register that it fits")
            }
            // A verdict of leaves is held against its witness at the last line, where it must still stand.
            Verdict::Leaves | Verdict::Open => Ok(()),
        }
    }

    fn check_witness(
        &self,
        verdict: Verdict,
        witness: &[(u32, u32)],
        tally: &mut Tally,
    ) -> Result<(), String> {
        let mapping = &self.forms.mapping;
        let wanted = if verdict == Verdict::Leaves {
            mapping.inputs
        } else {
            0
        };
        if witness.len() != wanted {
            return Err(format!(
                "a witness with {} inputs in place of {wanted}",
                witness.len()
            ));
        }
        if verdict != Verdict::Leaves {
            return Ok(());
        }
        let mut point = ORIGIN;
        point.0[..wanted].copy_from_slice(witness);
        if witness
            .iter()
            .any(|(numerator, denominator)| numerator > denominator)
        {
            return Err(format!("a witness outside the box: {point:?}"));
        }
        tally.add("witnesses checked", 1);
        if ExactValue::new(mapping, point).lies_in(mapping.register) {
            return Err(format!(
                "a witness whose value is in the register: {point:?}"
            ));
        }
        Ok(())
    }
}

/// Each range lies inside the last one, and so inside every earlier one.
fn check_order(seen: Option<Seen>, range: Enclosure, verdict: Verdict) -> Result<(), String> {
    match &seen {
        Some(last) if !range.within(last.range) => {
            Err(format!("{range:?} is not inside {:?}", last.range))
        }
        _ => check_final(&seen, verdict),
    }
}

fn check_final(seen: &Option<Seen>, verdict: Verdict) -> Result<(), String> {
    match seen {
        Some(last) if last.verdict != Verdict::Open && last.verdict != verdict => Err(format!(
            "{} came after {}",
            verdict.word(),
            last.verdict.word()
        )),
        _ => Ok(()),
    }
}

/// The ends of a probe hold a value of the box, so they cannot be apart from a range.
fn check_point(seen: &Option<Seen>, ends: Enclosure) -> Result<(), String> {
    match seen {
        Some(last) if ends.apart(last.range) => {
            Err(format!("the point {ends:?} is apart from {:?}", last.range))
        }
        _ => Ok(()),
    }
}

const ORIGIN: Point = Point([(0, 1); 3]);

/// Corners, points of the grid of the Bernstein coefficients, points of small grids, and points with any denominator up to 1,024.
fn sample_points(inputs: usize, degrees: [u32; 3], random: &mut Random) -> Vec<Point> {
    let mut points: Vec<Point> = (0..1 << inputs)
        .map(|corner| Cell::WHOLE_BOX.corner(corner))
        .collect();
    for most in [None, Some(6), Some(1024)] {
        for _ in 0..8 {
            let mut point = ORIGIN;
            for input in 0..inputs {
                let denominator = match most {
                    None => degrees[input].max(1),
                    Some(most) => 1 + random.up_to(most - 1),
                };
                point.0[input] = (random.up_to(denominator), denominator);
            }
            points.push(point);
        }
    }
    points
}
