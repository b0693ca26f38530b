//! The forms of one mapping.

use crate::bernstein;
use crate::enclosure::{Answer, Cell, Enclosure, Point};
use crate::fraction::Fraction;
use crate::grid::Grid;
use crate::nested;
use crate::record::Mapping;

/// A mapping with what every cell of it needs.
pub struct Forms {
    pub mapping: Mapping,
    /// The Bernstein coefficients of the whole box.
    pub exact: Grid<Fraction>,
    table: Grid<Enclosure>,
}

impl Forms {
    pub fn new(mapping: Mapping) -> Forms {
        let exact = bernstein::coefficients(&mapping);
        let table = bernstein::whole_box(&exact, mapping.degrees);
        Forms {
            mapping,
            exact,
            table,
        }
    }

    pub fn nested(&self, cell: Cell) -> Answer {
        nested::enclose(&self.mapping, cell)
    }

    pub fn bernstein(&self, cell: Cell) -> Answer {
        bernstein::enclose(&self.mapping, &self.table, cell)
    }

    pub fn pair(&self, cell: Cell) -> Answer {
        self.bernstein(cell).pair(self.nested(cell))
    }

    pub fn at_point(&self, point: Point) -> Enclosure {
        nested::at_point(&self.mapping, point)
    }
}
