//! Asks single forms over lists of cells, through the library and through the comparison. In a job one form can hide the other.

use crate::enclosure::{Answer, Cell, Point, Span};
use crate::enquiry::DEEPEST;
use crate::exact::ExactValue;
use crate::forms::Forms;
use crate::jobs::hexadecimal;
use crate::library;
use crate::mappings::any_record;
use crate::random::Random;
use crate::record::{self, Refusal};
use crate::tally::{refusal_name, Tally};

const NO_FORM: Refusal = Refusal(71);
const NO_CELLS: Refusal = Refusal(72);
const NO_ROOM: Refusal = Refusal(73);

const CELL_LENGTH: usize = 9;

/// What the places of the ends are filled with, to see which change.
const UNTOUCHED: i64 = 0x5A5A_5A5A_5A5A_5A5A;

const FORMS: [fn(&Forms, Cell) -> Answer; 3] = [Forms::nested, Forms::bernstein, Forms::pair];

struct Question {
    form: u8,
    record: Vec<u8>,
    cells: Vec<u8>,
    places: usize,
}

/// Asks one question of both sides, and holds the answers against exact values.
pub fn check_any(random: &mut Random, tally: &mut Tally) -> Result<(), String> {
    let question = Question::any(random);
    let mut ends = vec![UNTOUCHED; question.places];
    let returned = library::enclose(question.form, &question.record, &question.cells, &mut ends);
    let answers = question.answers();
    let number = answers.as_ref().map_or_else(|refusal| refusal.0, |_| 0);
    let answers = answers.unwrap_or_default();
    let mut wanted = vec![UNTOUCHED; question.places];
    for (place, end) in wanted.iter_mut().zip(answers.iter().flat_map(numbers)) {
        *place = i64::try_from(end).map_err(|_| format!("an end of more than 64 bits: {end}"))?;
    }
    if returned != number || ends != wanted {
        let asked = question.described();
        return Err(format!("{asked}: the answers differ\n--- library: {returned} {ends:?}\n--- comparison: {number} {wanted:?}"));
    }
    match number {
        0 => tally.add("cells asked", answers.len() as u64),
        number => tally.add(&refusal_name("form", number), 1),
    }
    question.check_enclosed(&answers, random, tally)
}

fn numbers(answer: &Answer) -> [i128; 3] {
    [answer.range.low, answer.range.high, answer.slack]
}

impl Question {
    fn any(random: &mut Random) -> Question {
        let mut record = any_record(random).bytes;
        if random.once_in(20) {
            let place = random.below(3);
            record[place] ^= 1 << random.below(8);
        }
        let count = random.below(5);
        let mut cells: Vec<u8> = (0..count).flat_map(|_| any_cell(random)).collect();
        if random.once_in(20) {
            cells.truncate(random.below(cells.len() + 1));
        }
        let any = random.byte();
        let form = if random.once_in(20) {
            random.pick(&[3, 255, any])
        } else {
            random.below(FORMS.len()) as u8
        };
        let more = random.below(5);
        let places = if random.once_in(20) {
            random.below(3 * count + 1)
        } else {
            3 * count + more
        };
        Question {
            form,
            record,
            cells,
            places,
        }
    }

    fn described(&self) -> String {
        let (form, places) = (self.form, self.places);
        let [record, cells] = [&self.record, &self.cells].map(|bytes| hexadecimal(bytes));
        format!("form {form}, record {record}, cells {cells}, room for {places} numbers")
    }

    /// What is to be answered, or the first refusal that applies.
    fn answers(&self) -> Result<Vec<Answer>, Refusal> {
        let mapping = record::read(&self.record)?;
        let form = FORMS.get(usize::from(self.form)).ok_or(NO_FORM)?;
        let cells = self.read_cells().ok_or(NO_CELLS)?;
        if self.places < 3 * cells.len() {
            return Err(NO_ROOM);
        }
        let forms = Forms::new(mapping);
        Ok(cells.into_iter().map(|cell| form(&forms, cell)).collect())
    }

    /// None where the length does not match or a cell is outside the limits.
    fn read_cells(&self) -> Option<Vec<Cell>> {
        let cells = self.cells.chunks(CELL_LENGTH).map(read_cell);
        cells.collect()
    }

    /// Values at the corners of each cell and at some points inside lie in its enclosure.
    fn check_enclosed(
        &self,
        answers: &[Answer],
        random: &mut Random,
        tally: &mut Tally,
    ) -> Result<(), String> {
        let (Ok(mapping), Some(cells)) = (record::read(&self.record), self.read_cells()) else {
            return Ok(());
        };
        for (cell, answer) in cells.into_iter().zip(answers) {
            let corners = (0..8).map(|corner| cell.corner(corner));
            let inside = (0..4).map(|_| point_inside(cell, random));
            for point in corners.chain(inside) {
                tally.add("points held against a cell's enclosure", 1);
                if !ExactValue::new(&mapping, point).lies_in(answer.range) {
                    let asked = self.described();
                    return Err(format!(
                        "{asked}: the value at {point:?} is outside {answer:?}"
                    ));
                }
            }
        }
        Ok(())
    }
}

fn read_cell(bytes: &[u8]) -> Option<Cell> {
    let [first, second, third, ref places @ ..] = *<&[u8; CELL_LENGTH]>::try_from(bytes).ok()?;
    let mut spans = [first, second, third].map(|depth| Span {
        depth: u32::from(depth),
        place: 0,
    });
    for (span, place) in spans.iter_mut().zip(places.chunks_exact(2)) {
        span.place = u32::from(place[0]) * 256 + u32::from(place[1]);
    }
    let within = |span: &Span| span.depth <= DEEPEST && span.place < span.parts();
    spans.iter().all(within).then_some(Cell(spans))
}

/// Most cells are within the limits.
fn any_cell(random: &mut Random) -> Vec<u8> {
    let mut depths = Vec::new();
    let mut places = Vec::new();
    for _ in 0..3 {
        let depth = random.up_to(DEEPEST);
        let last = (1 << depth) - 1;
        let any = random.up_to(last);
        let place = random.pick(&[0, last, any, any]);
        // One more than the deepest, or than the last place.
        let (deeper, farther) = (random.once_in(100), random.once_in(100));
        depths.push(if deeper { DEEPEST + 1 } else { depth } as u8);
        let place = if farther { last + 1 } else { place } as u16;
        places.extend(place.to_be_bytes());
    }
    [depths, places].concat()
}

fn point_inside(cell: Cell, random: &mut Random) -> Point {
    Point(cell.0.map(|span| {
        let finer = 1 + random.up_to(7);
        let numerator = span.place * finer + random.up_to(finer);
        (numerator, span.parts() * finer)
    }))
}
