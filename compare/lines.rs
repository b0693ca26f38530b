//! Lines of an answer, read back from their text.

use crate::enclosure::{Answer, Enclosure};
use crate::enquiry::Verdict;

pub enum Line {
    Range(Answer, Verdict),
    Halved,
    Cleared,
    Point(Enclosure),
    No(u32),
    /// With the fractions of the witness.
    Verdict(Verdict, Vec<(u32, u32)>),
}

impl Line {
    pub fn read(text: &str) -> Result<Line, String> {
        let words: Vec<&str> = text.split(' ').collect();
        let line = match words[..] {
            ["range", low, high, slack, verdict] => range(low, high, slack, verdict),
            ["halved", _] => Some(Line::Halved),
            ["cleared", _] => Some(Line::Cleared),
            ["point", low, high] => enclosure(low, high).map(Line::Point),
            ["no", number] => number.parse().ok().map(Line::No),
            ["verdict", word, ref witness @ ..] => last_verdict(word, witness),
            _ => None,
        };
        line.ok_or_else(|| format!("no such line: {text}"))
    }

    pub fn name(&self) -> &'static str {
        match self {
            Line::Range(..) => "range",
            Line::Halved => "halved",
            Line::Cleared => "cleared",
            Line::Point(_) => "point",
            Line::No(_) => "no",
            Line::Verdict(..) => "verdict",
        }
    }
}

fn range(low: &str, high: &str, slack: &str, word: &str) -> Option<Line> {
    let answer = Answer {
        range: enclosure(low, high)?,
        slack: slack.parse().ok()?,
    };
    Some(Line::Range(answer, verdict(word)?))
}

fn enclosure(low: &str, high: &str) -> Option<Enclosure> {
    Some(Enclosure {
        low: low.parse().ok()?,
        high: high.parse().ok()?,
    })
}

fn verdict(word: &str) -> Option<Verdict> {
    Verdict::ALL
        .into_iter()
        .find(|verdict| verdict.word() == word)
}

fn last_verdict(word: &str, witness: &[&str]) -> Option<Line> {
    let fraction = |text: &&str| {
        let (numerator, denominator) = text.split_once('/')?;
        Some((numerator.parse().ok()?, denominator.parse().ok()?))
    };
    let fractions = witness.iter().map(fraction).collect::<Option<Vec<_>>>()?;
    Some(Line::Verdict(verdict(word)?, fractions))
}
