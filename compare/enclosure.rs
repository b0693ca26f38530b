//! Enclosures, answers of a form, and cells.

/// Two whole ends, low at most high.
#[derive(Clone, Copy, PartialEq, Eq, Debug)]
pub struct Enclosure {
    pub low: i128,
    pub high: i128,
}

impl Enclosure {
    pub fn single(number: i128) -> Enclosure {
        Enclosure {
            low: number,
            high: number,
        }
    }

    pub fn plus(self, other: Enclosure) -> Enclosure {
        Enclosure {
            low: self.low + other.low,
            high: self.high + other.high,
        }
    }

    /// The tighter end on each side.
    pub fn tighter(self, other: Enclosure) -> Enclosure {
        Enclosure {
            low: self.low.max(other.low),
            high: self.high.min(other.high),
        }
    }

    pub fn hull(self, other: Enclosure) -> Enclosure {
        Enclosure {
            low: self.low.min(other.low),
            high: self.high.max(other.high),
        }
    }

    pub fn within(self, outer: Enclosure) -> bool {
        outer.low <= self.low && self.high <= outer.high
    }

    /// Whether no number is in both.
    pub fn apart(self, other: Enclosure) -> bool {
        self.low > other.high || self.high < other.low
    }
}

/// What a form says of a cell.
#[derive(Clone, Copy, PartialEq, Eq, Debug)]
pub struct Answer {
    pub range: Enclosure,
    pub slack: i128,
}

impl Answer {
    /// What is known of a cell where two forms were asked.
    pub fn pair(self, other: Answer) -> Answer {
        Answer {
            range: self.range.tighter(other.range),
            slack: self.slack.min(other.slack),
        }
    }

    /// What is known of two cells together.
    pub fn join(self, other: Answer) -> Answer {
        Answer {
            range: self.range.hull(other.range),
            slack: self.slack.max(other.slack),
        }
    }
}

/// The part of one input from place/2^depth to (place + 1)/2^depth.
#[derive(Clone, Copy)]
pub struct Span {
    pub depth: u32,
    pub place: u32,
}

impl Span {
    const WHOLE: Span = Span { depth: 0, place: 0 };

    /// The denominator of both ends.
    pub fn parts(self) -> u32 {
        1 << self.depth
    }

    fn half(self, upper: bool) -> Span {
        Span {
            depth: self.depth + 1,
            place: 2 * self.place + u32::from(upper),
        }
    }
}

/// One span for each input.
#[derive(Clone, Copy)]
pub struct Cell(pub [Span; 3]);

impl Cell {
    pub const WHOLE_BOX: Cell = Cell([Span::WHOLE; 3]);

    /// A half along an input, counted from 0.
    pub fn half(self, input: usize, upper: bool) -> Cell {
        let mut spans = self.0;
        spans[input] = spans[input].half(upper);
        Cell(spans)
    }

    /// The corner that takes input v to its upper end where bit v − 1 of the number is set.
    pub fn corner(self, number: u32) -> Point {
        let mut point = Point([(0, 1); 3]);
        for (input, span) in self.0.iter().enumerate() {
            point.0[input] = (span.place + (number >> input & 1), span.parts());
        }
        point
    }
}

/// A rational point: numerator and denominator for each input.
#[derive(Clone, Copy, PartialEq, Eq, Debug)]
pub struct Point(pub [(u32, u32); 3]);
