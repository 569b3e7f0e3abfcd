//! Columns, cells, their curve numbers, and rectangles.

use buffers::{CELLS, SIDE, WIDTH};
use float_index::Rectangle;

const fn number(side: usize, x: usize, y: usize) -> usize {
    if side == 1 {
        return 0;
    }
    let s = side / 2;
    let (u, v) = (x % s, y % s);
    match (x / s, y / s) {
        (0, 0) => number(s, v, u),
        (0, _) => s * s + number(s, u, v),
        (_, 1) => 2 * s * s + number(s, u, v),
        _ => 3 * s * s + number(s, s - 1 - v, s - 1 - u),
    }
}

/// Curve numbers, row by row.
static CURVE: [u16; CELLS] = {
    let mut table = [0; CELLS];
    let mut cell = 0;
    while cell < CELLS {
        table[cell] = number(SIDE, cell % SIDE, cell / SIDE) as u16;
        cell += 1;
    }
    table
};

/// The curve number of the cell at a place: places are counted row by row.
pub fn number_at(place: usize) -> usize {
    usize::from(CURVE[place])
}

/// The curve number of a cell.
pub fn curve_number(column: usize, row: usize) -> usize {
    number_at(row * SIDE + column)
}

/// The column of an x, or the row of a y; the edge cells reach outward.
pub fn column(x: i64) -> usize {
    x.div_euclid(WIDTH.into()).clamp(0, SIDE as i64 - 1) as usize
}

/// From low to high along one axis, both included.
#[derive(Clone, Copy)]
pub struct Range {
    pub low: i64,
    pub high: i64,
}

impl Range {
    fn holds(&self, x: i64) -> bool {
        (self.low <= x) & (x <= self.high)
    }

    /// The smallest range around both.
    pub fn around(&self, other: &Range) -> Range {
        Range { low: self.low.min(other.low), high: self.high.max(other.high) }
    }
}

/// A rectangle by its axes.
pub struct Rect(pub [Range; 2]);

impl Rect {
    pub fn new(q: Rectangle) -> Rect {
        let range = |low: i32, high: i32| Range { low: low.into(), high: high.into() };
        Rect([range(q.low_x, q.high_x), range(q.low_y, q.high_y)])
    }

    /// No test waits for another, so that a pass over records has no branch on it.
    pub fn holds(&self, [x, y]: [i64; 2]) -> bool {
        self.0[0].holds(x) & self.0[1].holds(y)
    }
}
