//! The enquiry: open regions, the cleared hull and the witness.

use crate::enclosure::{Answer, Cell, Enclosure, Point};
use crate::forms::Forms;
use crate::record::Refusal;

const MOST_REGIONS: usize = 64;
pub const DEEPEST: u32 = 10;

const NO_REGION: Refusal = Refusal(21);
const NO_INPUT: Refusal = Refusal(22);
const TOO_DEEP: Refusal = Refusal(23);
const FULL: Refusal = Refusal(24);
const NOT_WITHIN: Refusal = Refusal(25);
const NO_CORNER: Refusal = Refusal(26);

#[derive(Clone, Copy)]
struct Region {
    cell: Cell,
    answer: Answer,
}

#[derive(Clone, Copy, PartialEq, Eq)]
pub enum Verdict {
    Fits,
    Leaves,
    Open,
}

impl Verdict {
    pub const ALL: [Verdict; 3] = [Verdict::Fits, Verdict::Leaves, Verdict::Open];

    pub fn word(self) -> &'static str {
        match self {
            Verdict::Fits => "fits",
            Verdict::Leaves => "leaves",
            Verdict::Open => "open",
        }
    }
}

pub struct Enquiry<'a> {
    forms: &'a Forms,
    regions: Vec<Region>,
    cleared: Option<Answer>,
    witness: Option<Point>,
}

impl<'a> Enquiry<'a> {
    pub fn open(forms: &'a Forms) -> Enquiry<'a> {
        let cell = Cell::WHOLE_BOX;
        let answer = forms.pair(cell);
        Enquiry {
            forms,
            regions: vec![Region { cell, answer }],
            cleared: None,
            witness: None,
        }
    }

    fn region(&self, number: u8) -> Result<Region, Refusal> {
        let region = self.regions.get(usize::from(number));
        region.copied().ok_or(NO_REGION)
    }

    fn half(&self, parent: Region, input: usize, upper: bool) -> Region {
        let cell = parent.cell.half(input, upper);
        let own = self.forms.pair(cell);
        // The slack is the half's own: the value near the parent's end may lie in the other half.
        let range = own.range.tighter(parent.answer.range);
        Region {
            cell,
            answer: Answer { range, ..own },
        }
    }

    /// Halves along an input, counted from 1, and gives the number of open regions.
    pub fn halve(&mut self, number: u8, input: u8) -> Result<usize, Refusal> {
        let parent = self.region(number)?;
        if input == 0 || usize::from(input) > self.forms.mapping.inputs {
            return Err(NO_INPUT);
        }
        let index = usize::from(input) - 1;
        if parent.cell.0[index].depth == DEEPEST {
            return Err(TOO_DEEP);
        }
        if self.regions.len() == MOST_REGIONS {
            return Err(FULL);
        }
        self.regions[usize::from(number)] = self.half(parent, index, false);
        self.regions.push(self.half(parent, index, true));
        Ok(self.regions.len())
    }

    /// Gives the number of open regions.
    pub fn clear(&mut self, number: u8) -> Result<usize, Refusal> {
        let region = self.region(number)?;
        if !region.answer.range.within(self.forms.mapping.register) {
            return Err(NOT_WITHIN);
        }
        self.regions.swap_remove(usize::from(number));
        self.cleared = match self.cleared {
            Some(hull) => Some(hull.join(region.answer)),
            None => Some(region.answer),
        };
        Ok(self.regions.len())
    }

    pub fn probe(&mut self, number: u8, corner: u8) -> Result<Enclosure, Refusal> {
        let region = self.region(number)?;
        if u32::from(corner) >= 1 << self.forms.mapping.inputs {
            return Err(NO_CORNER);
        }
        let point = region.cell.corner(u32::from(corner));
        let ends = self.forms.at_point(point);
        if ends.apart(self.forms.mapping.register) {
            self.witness.get_or_insert(point);
        }
        Ok(ends)
    }

    pub fn report(&self) -> (Answer, Verdict) {
        let open = self.regions.iter().map(|region| region.answer);
        let answer = open
            .chain(self.cleared)
            .reduce(Answer::join)
            .expect("what is not open was cleared");
        let verdict = if self.witness.is_some() {
            Verdict::Leaves
        } else if answer.range.within(self.forms.mapping.register) {
            Verdict::Fits
        } else {
            Verdict::Open
        };
        (answer, verdict)
    }

    /// The last verdict, and the witness if there is one.
    pub fn close(self) -> (Verdict, Option<Point>) {
        (self.report().1, self.witness)
    }
}
