//! The checker's method in plain Rust, written for speed: the yardstick of the benchmark. Nothing is proved here.
//!
//! Records, forms, calls and lines are those of docs/. Every answer is worked out from the mapping and the cell
//! alone. An enclosure is kept as its low end and minus its high end: then both sides round down, and each step is
//! written once.

/// The most coefficients of a mapping.
const MOST_TERMS: usize = 64;
/// The longest row along one input: one more than the highest degree.
const MOST_LENGTH: usize = 8;
/// How deep an input may be halved.
const DEEPEST: u8 = 10;
/// The most regions that are open at once.
const MOST_REGIONS: usize = 64;
/// The most bytes of a job.
const MOST_INPUT: usize = 4096;
/// Bytes of a cell in a list of cells.
pub const CELL: usize = 9;

/// Binomial coefficients: "n over i" stands at `[n][i]`.
const BINOMIALS: [[i64; MOST_LENGTH]; MOST_LENGTH] = [
    [1, 0, 0, 0, 0, 0, 0, 0],
    [1, 1, 0, 0, 0, 0, 0, 0],
    [1, 2, 1, 0, 0, 0, 0, 0],
    [1, 3, 3, 1, 0, 0, 0, 0],
    [1, 4, 6, 4, 1, 0, 0, 0],
    [1, 5, 10, 10, 5, 1, 0, 0],
    [1, 6, 15, 20, 15, 6, 1, 0],
    [1, 7, 21, 35, 35, 21, 7, 1],
];
/// The least common multiple of the binomial coefficients of each degree.
const MULTIPLES: [i64; MOST_LENGTH] = [1, 1, 2, 3, 12, 10, 60, 105];
/// The lowest and the highest count of each register kind.
const COUNTS: [(i64, i64); 8] = [
    (0, 255),
    (-128, 127),
    (0, 65_535),
    (-32_768, 32_767),
    (0, 4_095),
    (-2_048, 2_047),
    (0, 16_383),
    (-8_192, 8_191),
];

/// The low end and minus the high end of an enclosure.
type Ends = [i64; 2];
/// One value for each combination of exponents; the exponent of input 3 runs fastest.
type Table<T> = [T; MOST_TERMS];

/// A mapping of one to three inputs.
pub struct Mapping {
    inputs: u8,
    /// Degree + 1 of each input.
    lengths: [usize; 3],
    terms: usize,
    /// The ends of the register, in steps.
    register: (i64, i64),
    coefficients: [i32; MOST_TERMS],
}

impl Mapping {
    /// The mapping of a record, or the number of the first refusal.
    pub fn read(record: &[u8]) -> Result<Mapping, u8> {
        let [first, second, third, values @ ..] = record else {
            return Err(1);
        };
        let header = u32::from_be_bytes([0, *first, *second, *third]);
        let field = |low: u32, bits: u32| header >> low & ((1 << bits) - 1);
        let inputs = field(18, 2) as u8;
        let lengths = [15, 12, 9].map(|low| field(low, 3) as usize + 1);
        let terms = lengths[0] * lengths[1] * lengths[2];
        let (low, high) = COUNTS[field(6, 3) as usize];
        let shift = field(2, 4);
        if field(20, 4) != 1 {
            return Err(2);
        }
        if inputs == 0 {
            return Err(3);
        }
        if lengths[usize::from(inputs)..].iter().any(|&l| l != 1) {
            return Err(4);
        }
        if field(0, 2) != 0 {
            return Err(5);
        }
        if terms > MOST_TERMS {
            return Err(6);
        }
        if values.len() != 4 * terms {
            return Err(7);
        }
        let mut coefficients = [0; MOST_TERMS];
        for (place, value) in coefficients.iter_mut().zip(values.chunks_exact(4)) {
            *place = i32::from_be_bytes([value[0], value[1], value[2], value[3]]);
        }
        Ok(Mapping {
            inputs,
            lengths,
            terms,
            register: (low << shift, high << shift),
            coefficients,
        })
    }

    /// Whether no number from `low` to `high` is outside the register.
    fn holds(&self, low: i64, high: i64) -> bool {
        self.register.0 <= low && high <= self.register.1
    }

    /// Whether every number from `low` to `high` is outside the register, all on one side.
    fn excludes(&self, low: i64, high: i64) -> bool {
        self.register.1 < low || high < self.register.0
    }
}

/// Depth and place of each input.
#[derive(Clone, Copy)]
pub struct Cell {
    pub depths: [u8; 3],
    pub places: [u16; 3],
}

impl Cell {
    const WHOLE: Cell = Cell {
        depths: [0; 3],
        places: [0; 3],
    };

    /// The cell in nine bytes; none where it is outside the limits.
    fn read(bytes: &[u8; CELL]) -> Option<Cell> {
        let depths = [bytes[0], bytes[1], bytes[2]];
        let places = [3, 5, 7].map(|at| u16::from_be_bytes([bytes[at], bytes[at + 1]]));
        let within = |v: usize| depths[v] <= DEEPEST && places[v] >> depths[v] == 0;
        (0..3).all(within).then_some(Cell { depths, places })
    }

    /// The lower or the upper half along input `v`, counted from 0.
    fn half(mut self, v: usize, upper: bool) -> Cell {
        self.depths[v] += 1;
        self.places[v] = 2 * self.places[v] + u16::from(upper);
        self
    }
}

/// An enclosure and its slack.
#[derive(Clone, Copy)]
pub struct Answer {
    pub low: i64,
    pub high: i64,
    pub slack: i64,
}

/// Which enclosure is asked for.
#[derive(Clone, Copy)]
pub enum Form {
    Nested,
    Bernstein,
    Pair,
}

impl Form {
    /// The form with this number.
    fn from_number(number: u8) -> Option<Form> {
        [Form::Nested, Form::Bernstein, Form::Pair]
            .get(usize::from(number))
            .copied()
    }

    /// The enclosure of the mapping's values over the cell.
    pub fn ask(self, m: &Mapping, c: &Cell) -> Answer {
        let sizes = Sizes::new(m);
        match self {
            Form::Nested => nested(m, c, &sizes),
            Form::Bernstein => bernstein(m, c, &sizes),
            Form::Pair => {
                let first = bernstein(m, c, &sizes);
                let second = nested(m, c, &sizes);
                Answer {
                    low: first.low.max(second.low),
                    high: first.high.min(second.high),
                    slack: first.slack.min(second.slack),
                }
            }
        }
    }
}

/// For each input and each exponent of it, the sum of the sizes of the coefficients that have this exponent.
struct Sizes([[i64; MOST_LENGTH]; 3]);

impl Sizes {
    /// One pass over the coefficients.
    fn new(m: &Mapping) -> Sizes {
        let [planes, rows, length] = m.lengths;
        let mut sums = [[0; MOST_LENGTH]; 3];
        let mut sizes = m.coefficients[..m.terms].iter().map(|a| a.unsigned_abs());
        for plane in 0..planes {
            for row in 0..rows {
                let mut sum = 0;
                for (of_last, size) in sums[2][..length].iter_mut().zip(&mut sizes) {
                    *of_last += i64::from(size);
                    sum += i64::from(size);
                }
                sums[1][row] += sum;
                sums[0][plane] += sum;
            }
        }
        Sizes(sums)
    }

    /// The sum of size × weight of the exponent over a row of an input.
    fn weighted(&self, v: usize, length: usize, weight: impl Fn(i64) -> i64) -> i64 {
        let sums = self.0[v][..length].iter().zip(0..);
        sums.map(|(sum, i)| sum * weight(i)).sum()
    }
}

/// `z / 2^depth`, rounded up.
fn up_by_power(z: i64, depth: u8) -> i64 {
    (z + ((1 << depth) - 1)) >> depth
}

/// Calls a function that is compiled for each row length; a row of one number needs no work.
macro_rules! by_length {
    ($length:expr, $work:ident($($argument:expr),*)) => {
        match $length {
            2 => $work::<2>($($argument),*),
            3 => $work::<3>($($argument),*),
            4 => $work::<4>($($argument),*),
            5 => $work::<5>($($argument),*),
            6 => $work::<6>($($argument),*),
            7 => $work::<7>($($argument),*),
            8 => $work::<8>($($argument),*),
            _ => {}
        }
    };
}

/// A factor from `low / 2^depth` to `high / 2^depth`.
#[derive(Clone, Copy)]
struct Factor {
    low: i64,
    high: i64,
    depth: u8,
}

/// Works off the last input of the first `rows` rows by Horner's rule, in place, with every product rounded down.
fn work_off<const LENGTH: usize>(table: &mut Table<Ends>, rows: usize, by: Factor) {
    for row in 0..rows {
        let numbers = &table[row * LENGTH..][..LENGTH];
        let mut ends = numbers[LENGTH - 1];
        for a in numbers[..LENGTH - 1].iter().rev() {
            for (end, a) in ends.iter_mut().zip(a) {
                let factor = if *end < 0 { by.high } else { by.low };
                *end = (*end * factor >> by.depth) + a;
            }
        }
        table[row] = ends;
    }
}

/// Both ends of the nested form where input v runs from `from[v]` to `to[v]` past the cell's place.
fn nested_between(m: &Mapping, c: &Cell, from: [u8; 3], to: [u8; 3]) -> (i64, i64) {
    let mut table = [[0; 2]; MOST_TERMS];
    for (ends, a) in table.iter_mut().zip(&m.coefficients[..m.terms]) {
        *ends = [i64::from(*a), -i64::from(*a)];
    }
    let mut rows = m.terms;
    for v in [2, 1, 0] {
        let by = Factor {
            low: i64::from(c.places[v]) + i64::from(from[v]),
            high: i64::from(c.places[v]) + i64::from(to[v]),
            depth: c.depths[v],
        };
        rows /= m.lengths[v];
        by_length!(m.lengths[v], work_off(&mut table, rows, by));
    }
    (table[0][0], -table[0][1])
}

/// The nested form.
fn nested(m: &Mapping, c: &Cell, sizes: &Sizes) -> Answer {
    let (low, high) = nested_between(m, c, [0; 3], [1; 3]);
    let share = |v: usize| up_by_power(sizes.weighted(v, m.lengths[v], |i| i), c.depths[v]);
    Answer {
        low,
        high,
        slack: 2 * (m.terms as i64 - 1) + (0..3).map(share).sum::<i64>(),
    }
}

/// Turns the numbers c of each row into the sums of C(j, i) × c over i, by additions of neighbours in place.
fn sum_rows<const LENGTH: usize>(table: &mut Table<i64>, terms: usize, stride: usize) {
    for_rows::<LENGTH, i64>(table, terms, stride, |row| {
        for round in 1..LENGTH {
            for k in (round..LENGTH).rev() {
                row[k] += row[k - 1];
            }
        }
    });
}

/// Halves each row by de Casteljau's rule, once for each digit of the place, every mean rounded down.
fn halve_rows<const LENGTH: usize>(
    table: &mut Table<Ends>,
    terms: usize,
    stride: usize,
    depth: u8,
    place: u16,
) {
    let mean = |x: Ends, y: Ends| [(x[0] + y[0]) >> 1, (x[1] + y[1]) >> 1];
    for_rows::<LENGTH, Ends>(table, terms, stride, |row| {
        for digit in (0..depth).rev() {
            if place >> digit & 1 == 0 {
                for round in 1..LENGTH {
                    for k in (round..LENGTH).rev() {
                        row[k] = mean(row[k - 1], row[k]);
                    }
                }
            } else {
                for round in 1..LENGTH {
                    for k in 0..LENGTH - round {
                        row[k] = mean(row[k], row[k + 1]);
                    }
                }
            }
        }
    });
}

/// Changes each row of the table; the numbers of a row stand `stride` apart.
fn for_rows<const LENGTH: usize, T: Copy + Default>(
    table: &mut Table<T>,
    terms: usize,
    stride: usize,
    change: impl Fn(&mut [T; LENGTH]),
) {
    for block in table[..terms].chunks_exact_mut(LENGTH * stride) {
        for start in 0..stride {
            let mut row = [T::default(); LENGTH];
            for k in 0..LENGTH {
                row[k] = block[start + k * stride];
            }
            change(&mut row);
            for k in 0..LENGTH {
                block[start + k * stride] = row[k];
            }
        }
    }
}

/// How far the numbers along each input stand apart in a table.
fn strides(m: &Mapping) -> [usize; 3] {
    let [_, rows, length] = m.lengths;
    [rows * length, length, 1]
}

/// The Bernstein coefficients on the whole box, each enclosed by its two roundings.
fn whole_box(m: &Mapping) -> Table<Ends> {
    // A coefficient counts C(j, i) / C(n, i); the least common multiples make whole numbers of 1 / C(n, i).
    let weights = m.lengths.map(|length| {
        let mut weights = [0; MOST_LENGTH];
        for i in 0..length {
            weights[i] = MULTIPLES[length - 1] / BINOMIALS[length - 1][i];
        }
        weights
    });
    let [planes, rows, length] = m.lengths;
    let mut sums = [0; MOST_TERMS];
    let mut terms = sums.iter_mut().zip(&m.coefficients[..m.terms]);
    for first in &weights[0][..planes] {
        for second in &weights[1][..rows] {
            for (third, (sum, a)) in weights[2][..length].iter().zip(&mut terms) {
                *sum = i64::from(*a) * (first * second * third);
            }
        }
    }
    for (length, stride) in m.lengths.into_iter().zip(strides(m)) {
        by_length!(length, sum_rows(&mut sums, m.terms, stride));
    }
    let divisor: i64 = m
        .lengths
        .iter()
        .map(|length| MULTIPLES[length - 1])
        .product();
    let mut table = [[0; 2]; MOST_TERMS];
    for (ends, sum) in table.iter_mut().zip(&sums[..m.terms]) {
        let down = sum.div_euclid(divisor);
        let exact = down * divisor == *sum;
        *ends = [down, -down - i64::from(!exact)];
    }
    table
}

/// The Bernstein form.
fn bernstein(m: &Mapping, c: &Cell, sizes: &Sizes) -> Answer {
    let mut table = whole_box(m);
    for (v, stride) in strides(m).into_iter().enumerate() {
        by_length!(
            m.lengths[v],
            halve_rows(&mut table, m.terms, stride, c.depths[v], c.places[v])
        );
    }
    let least = |x: Ends, y: &Ends| [x[0].min(y[0]), x[1].min(y[1])];
    let [low, minus_high] = table[1..m.terms].iter().fold(table[0], least);
    let loss = |v: usize| {
        let n = m.lengths[v] as i64 - 1;
        if n == 0 {
            return 0;
        }
        let bends = sizes.weighted(v, m.lengths[v], |i| i * (i - 1));
        let divisor = 2 * n << (2 * c.depths[v]);
        (n * i64::from(c.depths[v]) + 1) / 2 + (bends + divisor - 1) / divisor
    };
    Answer {
        low,
        high: -minus_high,
        slack: 1 + (0..3).map(loss).sum::<i64>(),
    }
}

/// Asks a form over a list of cells. Answers 0, or the number of the first refusal.
pub fn enclose(form: u8, record: &[u8], cells: &[u8], ends: &mut [i64]) -> u32 {
    let mapping = match Mapping::read(record) {
        Ok(mapping) => mapping,
        Err(number) => return u32::from(number),
    };
    let Some(form) = Form::from_number(form) else {
        return 71;
    };
    let (cells, rest) = cells.as_chunks::<CELL>();
    if !rest.is_empty() || cells.iter().any(|bytes| Cell::read(bytes).is_none()) {
        return 72;
    }
    if ends.len() < 3 * cells.len() {
        return 73;
    }
    let cells = cells.iter().filter_map(Cell::read);
    for (place, cell) in ends.chunks_exact_mut(3).zip(cells) {
        let answer = form.ask(&mapping, &cell);
        place.copy_from_slice(&[answer.low, answer.high, answer.slack]);
    }
    0
}

/// An open region.
#[derive(Clone, Copy)]
pub struct Region {
    pub cell: Cell,
    pub answer: Answer,
}

/// A point whose value is outside the register.
#[derive(Clone, Copy)]
struct Witness {
    numerators: [u16; 3],
    depths: [u8; 3],
}

/// A mapping under enquiry.
pub struct Enquiry {
    mapping: Mapping,
    regions: [Region; MOST_REGIONS],
    count: usize,
    cleared: Option<Answer>,
    witness: Option<Witness>,
}

impl Answer {
    /// The hull of two enclosures, with the larger slack.
    fn join(self, other: Answer) -> Answer {
        Answer {
            low: self.low.min(other.low),
            high: self.high.max(other.high),
            slack: self.slack.max(other.slack),
        }
    }
}

impl Enquiry {
    /// One region is open, the whole box.
    pub fn open(mapping: Mapping) -> Enquiry {
        let cell = Cell::WHOLE;
        let answer = Form::Pair.ask(&mapping, &cell);
        Enquiry {
            mapping,
            regions: [Region { cell, answer }; MOST_REGIONS],
            count: 1,
            cleared: None,
            witness: None,
        }
    }

    /// The open regions.
    pub fn regions(&self) -> &[Region] {
        &self.regions[..self.count]
    }

    fn find(&self, region: u8) -> Result<Region, u8> {
        self.regions().get(usize::from(region)).copied().ok_or(21)
    }

    /// Halves a region along an input, counted from 1.
    pub fn halve(&mut self, region: u8, input: u8) -> Result<usize, u8> {
        let parent = self.find(region)?;
        if input < 1 || input > self.mapping.inputs {
            return Err(22);
        }
        let v = usize::from(input) - 1;
        if parent.cell.depths[v] >= DEEPEST {
            return Err(23);
        }
        if self.count >= MOST_REGIONS {
            return Err(24);
        }
        let part = |upper: bool| {
            let cell = parent.cell.half(v, upper);
            let mut answer = Form::Pair.ask(&self.mapping, &cell);
            answer.low = answer.low.max(parent.answer.low);
            answer.high = answer.high.min(parent.answer.high);
            Region { cell, answer }
        };
        let (lower, upper) = (part(false), part(true));
        self.regions[usize::from(region)] = lower;
        self.regions[self.count] = upper;
        self.count += 1;
        Ok(self.count)
    }

    /// Clears a region that is wholly in the register.
    pub fn clear(&mut self, region: u8) -> Result<usize, u8> {
        let answer = self.find(region)?.answer;
        if !self.mapping.holds(answer.low, answer.high) {
            return Err(25);
        }
        self.cleared = Some(self.cleared.map_or(answer, |hull| hull.join(answer)));
        self.count -= 1;
        self.regions[usize::from(region)] = self.regions[self.count];
        Ok(self.count)
    }

    /// Probes a corner of a region.
    pub fn probe(&mut self, region: u8, corner: u8) -> Result<(i64, i64), u8> {
        let cell = self.find(region)?.cell;
        if corner >> self.mapping.inputs != 0 {
            return Err(26);
        }
        let bits = [0, 1, 2].map(|v| corner >> v & 1);
        let (low, high) = nested_between(&self.mapping, &cell, bits, bits);
        if self.witness.is_none() && self.mapping.excludes(low, high) {
            self.witness = Some(Witness {
                numerators: [0, 1, 2].map(|v| cell.places[v] + u16::from(bits[v])),
                depths: cell.depths,
            });
        }
        Ok((low, high))
    }

    /// The range over all regions, open and cleared.
    pub fn range(&self) -> Answer {
        let first = self.cleared.unwrap_or(self.regions[0].answer);
        self.regions()
            .iter()
            .fold(first, |hull, region| hull.join(region.answer))
    }

    /// The word of the verdict on a range.
    pub fn verdict(&self, range: Answer) -> &'static str {
        if self.witness.is_some() {
            "leaves"
        } else if self.mapping.holds(range.low, range.high) {
            "fits"
        } else {
            "open"
        }
    }
}

/// The lines of an answer, in a buffer that the caller uses again and again.
struct Lines<'a>(&'a mut Vec<u8>);

impl Lines<'_> {
    /// Starts a line.
    fn word(&mut self, word: &str) -> &mut Self {
        self.0.extend_from_slice(word.as_bytes());
        self
    }

    fn end(&mut self) {
        self.0.push(b'\n');
    }

    fn digits(&mut self, mut number: u64) {
        let mut text = [0; 20];
        let mut at = text.len();
        loop {
            at -= 1;
            text[at] = b'0' + (number % 10) as u8;
            number /= 10;
            if number == 0 {
                break;
            }
        }
        self.0.extend_from_slice(&text[at..]);
    }

    /// A number behind a space.
    fn number(&mut self, number: i64) -> &mut Self {
        self.0.push(b' ');
        if number < 0 {
            self.0.push(b'-');
        }
        self.digits(number.unsigned_abs());
        self
    }

    /// A line with a count, or with the number of a refusal.
    fn counted(&mut self, word: &str, outcome: Result<usize, u8>) {
        match outcome {
            Ok(count) => self.word(word).number(count as i64).end(),
            Err(number) => self.refused(number),
        }
    }

    fn refused(&mut self, number: u8) {
        self.word("no").number(i64::from(number)).end();
    }

    fn report(&mut self, enquiry: &Enquiry) {
        let range = enquiry.range();
        self.word("range");
        self.number(range.low)
            .number(range.high)
            .number(range.slack);
        self.word(" ").word(enquiry.verdict(range)).end();
    }

    fn close(&mut self, enquiry: &Enquiry) {
        let verdict = enquiry.verdict(enquiry.range());
        self.word("verdict ").word(verdict);
        if let Some(witness) = enquiry.witness {
            for v in 0..usize::from(enquiry.mapping.inputs) {
                self.number(i64::from(witness.numerators[v])).word("/");
                self.digits(1 << witness.depths[v]);
            }
        }
        self.end();
    }
}

/// The mapping of a job and the bytes of its calls, or the number of the refusal.
fn load(input: &[u8]) -> Result<(Mapping, &[u8]), u8> {
    if input.len() > MOST_INPUT {
        return Err(41);
    }
    let [high, low, rest @ ..] = input else {
        return Err(42);
    };
    let length = usize::from(u16::from_be_bytes([*high, *low]));
    let (record, calls) = rest.split_at_checked(length).ok_or(42)?;
    Ok((Mapping::read(record)?, calls))
}

/// Runs a whole job and leaves its lines in `output`.
pub fn job(input: &[u8], output: &mut Vec<u8>) {
    output.clear();
    let mut lines = Lines(output);
    let (mapping, calls) = match load(input) {
        Ok(loaded) => loaded,
        Err(number) => return lines.refused(number),
    };
    let mut enquiry = Enquiry::open(mapping);
    lines.report(&enquiry);
    let (calls, rest) = calls.as_chunks::<3>();
    for [code, region, argument] in calls {
        match code {
            b'H' => lines.counted("halved", enquiry.halve(*region, *argument)),
            b'C' => lines.counted("cleared", enquiry.clear(*region)),
            b'P' => match enquiry.probe(*region, *argument) {
                Ok((low, high)) => lines.word("point").number(low).number(high).end(),
                Err(number) => lines.refused(number),
            },
            b'R' => lines.report(&enquiry),
            _ => lines.refused(43),
        }
    }
    if !rest.is_empty() {
        lines.refused(43);
    }
    lines.close(&enquiry);
}
