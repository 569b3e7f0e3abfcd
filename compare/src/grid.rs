//! The grid: columns and rows, cells, blocks of cells and the curve.
//!
//! A cell is numbered row by row here, for no answer shows a cell's number. The
//! document's curve numbers stand in buffers and in the chart alone.

use crate::limits::{CELLS, SIDE, WIDTH};

/// The column of an x, or the row of a y; the edge cells reach outward.
pub fn column(x: i64) -> usize {
    x.div_euclid(WIDTH).clamp(0, SIDE as i64 - 1) as usize
}

/// The cell of a position.
pub fn cell(at: [i64; 2]) -> usize {
    column(at[1]) * SIDE + column(at[0])
}

/// The column and the row of a cell.
pub fn places(cell: usize) -> [usize; 2] {
    [cell % SIDE, cell / SIDE]
}

/// A rectangle of the sea, edges included.
#[derive(Clone, Copy, Debug, PartialEq, Eq)]
pub struct Rectangle {
    pub low: [i64; 2],
    pub high: [i64; 2],
}

impl Rectangle {
    pub fn holds(&self, at: [i64; 2]) -> bool {
        (0..2).all(|axis| self.low[axis] <= at[axis] && at[axis] <= self.high[axis])
    }
}

/// Every cell from one column and row to another.
#[derive(Clone, Copy, Debug, PartialEq, Eq)]
pub struct Block {
    pub low: [usize; 2],
    pub high: [usize; 2],
}

impl Block {
    /// The numbers of its cells, in runs, row by row.
    pub fn runs(self) -> impl Iterator<Item = std::ops::RangeInclusive<usize>> {
        let [first, last] = [self.low[0], self.high[0]];
        let rows = self.low[1]..=self.high[1];
        rows.map(move |row| row * SIDE + first..=row * SIDE + last).filter(|run| !run.is_empty())
    }
}

/// The number of (x, y) on the Hilbert curve through a square of the given side.
const fn curve(side: usize, x: usize, y: usize) -> usize {
    if side == 1 {
        return 0;
    }
    let s = side / 2;
    let (u, v) = (x % s, y % s);
    match (x / s, y / s) {
        (0, 0) => curve(s, v, u),
        (0, _) => s * s + curve(s, u, v),
        (_, 1) => 2 * s * s + curve(s, u, v),
        _ => 3 * s * s + curve(s, s - 1 - v, s - 1 - u),
    }
}

static CURVE: [usize; CELLS] = {
    let mut numbers = [0; CELLS];
    let mut cell = 0;
    while cell < CELLS {
        numbers[cell] = curve(SIDE, cell % SIDE, cell / SIDE);
        cell += 1;
    }
    numbers
};

/// The curve number of a cell.
pub fn curve_number(cell: usize) -> usize {
    CURVE[cell]
}

#[cfg(test)]
mod tests {
    use super::*;

    #[test]
    fn p1_to_p6_curve_numbers() {
        let cases = [(0, 0, 0), (0, 1, 1), (1, 0, 3), (0, 31, 341), (31, 31, 682), (16, 0, 938)];
        for (x, y, number) in cases {
            assert_eq!(curve_number(y * SIDE + x), number);
        }
    }

    #[test]
    fn the_curve_visits_each_cell_once_and_goes_to_neighbours() {
        let mut visited = vec![None; CELLS];
        for cell in 0..CELLS {
            let old = visited[curve_number(cell)].replace(places(cell));
            assert_eq!(old, None);
        }
        for pair in visited.windows(2) {
            let (a, b) = (pair[0].unwrap(), pair[1].unwrap());
            assert_eq!(a[0].abs_diff(b[0]) + a[1].abs_diff(b[1]), 1);
        }
    }

    #[test]
    fn p7_to_p10_columns() {
        assert_eq!(column(262_143), 0);
        assert_eq!(column(262_144), 1);
        assert_eq!(column(-1), 0);
        assert_eq!(column(8_388_608), 31);
    }
}
