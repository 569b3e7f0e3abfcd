//! The four ways to choose cells.

use super::grid::{column, curve_number, number_at, Range, Rect};
use super::rows::{bounds_of, join};
use buffers::{Row, CELLS, EMPTY, SIDE, WIDTH};
use float_index::method;

/// Every cell from one column and row to another.
#[derive(Clone, Copy)]
struct Block {
    first: [usize; 2],
    last: [usize; 2],
}

impl Block {
    /// The curve numbers of its cells.
    fn cells(self) -> impl Iterator<Item = usize> {
        (self.first[1]..=self.last[1]).flat_map(move |row| {
            let columns = self.first[0]..=self.last[0];
            columns.map(move |column| curve_number(column, row))
        })
    }

    fn bounds(self, rows: &[Row]) -> Row {
        self.cells().fold(EMPTY, |all, number| join(all, rows[number]))
    }
}

/// Those of some places that pass a test, over the front of `kept`. Every place is
/// written there, and only one that passes moves the end on: which pass has no
/// pattern, and a branch on it would be guessed wrong.
fn keep(
    places: impl IntoIterator<Item = u16>,
    kept: &mut [u16; CELLS],
    passes: impl Fn(usize) -> bool,
) -> &[u16] {
    let mut n = 0;
    for place in places {
        kept[n] = place;
        n += usize::from(passes(place.into()));
    }
    &kept[..n]
}

/// One ask put to one live phase: the rows of its slot by curve number, the
/// rectangle, and the first and last asked time less the reference time.
pub struct Choice<'a> {
    pub rows: &'a [Row],
    pub q: &'a Rect,
    pub d: [i64; 2],
}

impl Choice<'_> {
    /// Marks the chosen cells, and gives the rounds.
    // Part of each kind of ask's own code, as it is where there is one kind.
    #[inline(always)]
    pub fn choose(&self, method: i32, marks: &mut [bool; CELLS]) -> usize {
        if method == method::OPTIMAL {
            self.mark_reached(marks);
            return 0;
        }
        let (block, rounds) = self.block(method);
        block.into_iter().flat_map(Block::cells).for_each(|number| marks[number] = true);
        rounds
    }

    /// The block that a method other than the optimal one reads, if any, and the rounds.
    fn block(&self, method: i32) -> (Option<Block>, usize) {
        let all = bounds_of(self.rows);
        if all == EMPTY {
            return (None, 0);
        }
        let naive = self.expand(&all);
        match method {
            method::NAIVE => (Some(naive), 0),
            method::SEMI_NAIVE => (self.narrow(naive), 0),
            _ => self.iterate(naive),
        }
    }

    /// Marks the cells that are reached. They lie in the naive block, so neither bounds
    /// nor block are found. A small rectangle leaves few of the columns.
    // Inlined with `choose`, so that asks at one time look at one alone.
    #[inline(always)]
    fn mark_reached(&self, marks: &mut [bool; CELLS]) {
        let [mut full, mut kept] = [[0; CELLS]; 2];
        let full = keep(0..CELLS as u16, &mut full, |place| *self.row_at(place) != EMPTY);
        let kept = keep(full.iter().copied(), &mut kept, |place| self.meets_on(0, place));
        for place in kept.iter().copied().map(usize::from) {
            marks[number_at(place)] |= self.meets_on(0, place) & self.meets_on(1, place);
        }
    }

    fn narrow(&self, naive: Block) -> Option<Block> {
        let bounds = naive.bounds(self.rows);
        (bounds != EMPTY).then(|| self.expand(&bounds))
    }

    fn iterate(&self, naive: Block) -> (Option<Block>, usize) {
        let (mut block, mut before) = (naive, EMPTY);
        for rounds in 0.. {
            let bounds = block.bounds(self.rows);
            if bounds == EMPTY {
                return (None, rounds + 1);
            }
            if bounds == before {
                return (Some(block), rounds);
            }
            block = self.expand(&bounds);
            before = bounds;
        }
        unreachable!("bounds come to repeat themselves")
    }

    /// What reaches the rectangle's span of an axis at speeds of a row, for both
    /// times. Where they are one, so is what reaches it.
    fn reach(&self, axis: usize, row: &Row) -> Range {
        let [first, last] = self.d;
        let at_first = self.reach_over(first, axis, row);
        if first == last {
            return at_first;
        }
        at_first.around(&self.reach_over(last, axis, row))
    }

    fn reach_over(&self, d: i64, axis: usize, row: &Row) -> Range {
        let [least, greatest] = row[axis].map(i64::from);
        let (fast, slow) = if d >= 0 { (greatest, least) } else { (least, greatest) };
        Range { low: self.q.0[axis].low - fast * d, high: self.q.0[axis].high - slow * d }
    }

    fn expand(&self, bounds: &Row) -> Block {
        let reach = [self.reach(0, bounds), self.reach(1, bounds)];
        Block {
            first: reach.map(|range| column(range.low)),
            last: reach.map(|range| column(range.high)),
        }
    }

    fn row_at(&self, place: usize) -> &Row {
        &self.rows[number_at(place)]
    }

    /// Whether the column, or the row, of the cell at a place meets the rectangle's span
    /// of the axis, moved by the speeds of the cell. No test waits for another.
    fn meets_on(&self, axis: usize, place: usize) -> bool {
        let reach = self.reach(axis, self.row_at(place));
        let i = [place % SIDE, place / SIDE][axis];
        let width = i64::from(WIDTH);
        let low = width * i as i64;
        ((i == 0) | (low <= reach.high)) & ((i == SIDE - 1) | (reach.low < low + width))
    }
}
