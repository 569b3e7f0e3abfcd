//! Speed rows, and the four ways to choose the cells of a phase.

use crate::grid::{column, places, Block, Rectangle};
use crate::limits::{SIDE, TOP_SPEED, WIDTH};

crate::listed! {
    /// A wrong rule, to see whether a comparison finds it.
    pub enum Wrong {
        /// The formulas for d below 0 take d itself and not its size.
        SignedBack,
        /// The edge cells end at the edge of the sea.
        EndedEdges,
        /// A row narrows when a float placed in it is dropped.
        NarrowedDrop,
        /// An ask leaves out the oldest of three live phases.
        SkippedPhase,
        /// A window looks at whole seconds alone.
        WholeSeconds,
        /// In a window each axis has a moment of its own.
        OwnMoments,
        /// A float that is in the rectangle for one moment of a longer window is
        /// not listed.
        TouchLeftOut,
        /// A window takes the low edge for the first also where a float goes
        /// down.
        SameEnds,
        /// A window expands and moves by its first time alone.
        FirstTwice,
        /// A window reads the naive blocks of both times and not what lies
        /// between them.
        UnitedBlocks,
        /// A window's cell is read where it meets the rectangle at the first time
        /// or at the last.
        EitherMoved,
        /// A window may be a second longer.
        LongWindow,
        /// A window's length is looked at after its other numbers.
        LateWindow,
        /// The moment of a report does not count, only those after it.
        ReportLeftOut,
        /// A float that reported by a window's last time is looked for from the
        /// first time on.
        FromFirst,
        /// A window lists only floats that reported by its first time.
        ReportByFirst,
        /// A report counts for every time, as long as it is not after now.
        JudgedByNow,
        /// A cell is useful also by a float that is in the rectangle before its
        /// report alone.
        UsefulBefore,
        /// The reference time of a phase is a second too early.
        ReferenceEarly,
        /// The reference time of a phase is a second too late.
        ReferenceLate,
        /// d is counted from the phase's start, and floats are placed by its
        /// reference time.
        FromStart,
        /// The reference time of a phase is its start.
        OldReference,
        /// No float retires.
        NoneRetires,
        /// A float retires when it has sent nothing for a second less.
        RetiredEarly,
        /// A float retires when it has sent nothing for a second more.
        RetiredLate,
        /// Floats retire only where the phase changes.
        RetiredByPhase,
        /// An add looks whether its id is held before silent floats retire.
        FreeBefore,
        /// A report or drop looks whether its id is held before silent floats
        /// retire.
        HeldBefore,
        /// An add looks whether there is room before silent floats retire.
        FullBefore,
        /// The value of a change counts the floats that retired in it too.
        CountBefore,
        /// A silent float is placed anew before it retires.
        RetiredPlaced,
        /// A row narrows when a float placed in it retires.
        NarrowedRetirement,
        /// A change that is refused, but not for its time, retires silent floats.
        RefusedRetires,
        /// An ask does not list a float that is silent by its last time.
        SilentUnlisted,
    }
}

/// Least and greatest speed on either axis.
#[derive(Clone, Copy, Debug, PartialEq, Eq)]
pub struct Row {
    pub least: [i16; 2],
    pub greatest: [i16; 2],
}

impl Row {
    pub const EMPTY: Row =
        Row { least: [TOP_SPEED as i16 + 1; 2], greatest: [-TOP_SPEED as i16 - 1; 2] };

    pub fn one(speed: [i64; 2]) -> Row {
        let speed = speed.map(|v| v as i16);
        Row { least: speed, greatest: speed }
    }

    pub fn is_empty(&self) -> bool {
        *self == Row::EMPTY
    }

    /// The smallest row that holds both.
    pub fn join(self, other: Row) -> Row {
        let (a, b) = (self, other);
        Row {
            least: [a.least[0].min(b.least[0]), a.least[1].min(b.least[1])],
            greatest: [a.greatest[0].max(b.greatest[0]), a.greatest[1].max(b.greatest[1])],
        }
    }

    fn span(&self, axis: usize) -> (i64, i64) {
        (self.least[axis] as i64, self.greatest[axis] as i64)
    }
}

/// The bounds of some rows; the empty row stands for no bounds.
pub fn bounds(rows: &[Row]) -> Row {
    rows.iter().fold(Row::EMPTY, |all, row| all.join(*row))
}

/// The cells that a method chose in a phase, and its rounds.
#[derive(Debug, Default, PartialEq, Eq)]
pub struct Chosen {
    pub cells: Vec<usize>,
    pub rounds: usize,
}

/// One ask put to one live phase: its rows, the rectangle, and d, the first and
/// the last asked time less the phase's reference time; a timeslice has one time
/// for both.
#[derive(Clone, Copy)]
pub struct Choice<'a> {
    pub rows: &'a [Row],
    pub rectangle: Rectangle,
    pub d: [i64; 2],
    pub wrong: Option<Wrong>,
}

impl Choice<'_> {
    /// The choice of a method, 0 to 3.
    pub fn choose(&self, method: i64) -> Chosen {
        let all = bounds(self.rows);
        if all.is_empty() {
            return Chosen::default();
        }
        let naive = self.expand(all);
        let (block, rounds) = match method {
            0 | 3 => (Some(naive), 0),
            1 => (self.narrow(naive), 0),
            _ => self.iterate(naive),
        };
        let mut cells = Vec::new();
        for run in block.into_iter().flat_map(Block::runs) {
            cells.extend(run);
        }
        if self.wrong == Some(Wrong::UnitedBlocks) {
            let runs = self.d.map(|d| self.at(d).expand(all).runs().collect::<Vec<_>>()).concat();
            cells.retain(|cell| runs.iter().any(|run| run.contains(cell)));
        }
        if method == 3 {
            cells.retain(|cell| self.reads(*cell));
        }
        Chosen { cells, rounds }
    }

    /// The same ask at one of its times, by the right rules.
    fn at(&self, d: i64) -> Choice<'_> {
        Choice { d: [d; 2], wrong: None, ..*self }
    }

    fn block_bounds(&self, block: Block) -> Row {
        let runs = block.runs().map(|run| bounds(&self.rows[run]));
        runs.fold(Row::EMPTY, Row::join)
    }

    fn narrow(&self, naive: Block) -> Option<Block> {
        let found = self.block_bounds(naive);
        (!found.is_empty()).then(|| self.expand(found))
    }

    fn iterate(&self, naive: Block) -> (Option<Block>, usize) {
        let mut block = naive;
        let mut before = None;
        let mut rounds = 0;
        loop {
            let found = self.block_bounds(block);
            // By the right rule rounds end by themselves, at 63 at the latest.
            if before == Some(found) || rounds == 2 * SIDE {
                return (Some(block), rounds);
            }
            rounds += 1;
            if found.is_empty() {
                return (None, rounds);
            }
            block = self.expand(found);
            before = Some(found);
        }
    }

    /// The size of d, for the formulas with d below 0.
    fn size(&self, d: i64) -> i64 {
        match self.wrong {
            Some(Wrong::SignedBack) => d,
            _ => d.abs(),
        }
    }

    /// The smallest span from low to high that holds the one found for the first
    /// time and the one for the last.
    fn around(&self, of: impl Fn(i64) -> (i64, i64)) -> (i64, i64) {
        let [first, last] = match self.wrong {
            Some(Wrong::FirstTwice) => [self.d[0]; 2],
            _ => self.d,
        };
        let (first, last) = (of(first), of(last));
        (first.0.min(last.0), first.1.max(last.1))
    }

    /// The block of the rectangle expanded by bounds, for both times.
    fn expand(&self, by: Row) -> Block {
        let mut block = Block { low: [0; 2], high: [0; 2] };
        for axis in 0..2 {
            let (low, high) = self.around(|d| self.expanded(axis, &by, d));
            block.low[axis] = column(low);
            block.high[axis] = column(high);
        }
        block
    }

    /// The rectangle expanded by bounds over d, on one axis.
    fn expanded(&self, axis: usize, by: &Row, d: i64) -> (i64, i64) {
        let (least, greatest) = by.span(axis);
        let (low, high) = (self.rectangle.low[axis], self.rectangle.high[axis]);
        if d >= 0 {
            (low - greatest * d, high - least * d)
        } else {
            (low + least * self.size(d), high + greatest * self.size(d))
        }
    }

    /// Whether the optimal method reads a cell of the naive block.
    fn reads(&self, cell: usize) -> bool {
        match self.wrong {
            Some(Wrong::EitherMoved) => self.d.iter().any(|d| self.at(*d).meets(cell)),
            _ => self.meets(cell),
        }
    }

    /// Whether the cell's row is nonempty and the smallest rectangle around the
    /// cell, moved by its row's speeds over either d, meets the rectangle.
    fn meets(&self, cell: usize) -> bool {
        let row = &self.rows[cell];
        let places = places(cell);
        !row.is_empty() && (0..2).all(|axis| self.meets_on(axis, places[axis], row))
    }

    fn meets_on(&self, axis: usize, place: usize, row: &Row) -> bool {
        let (low, high) = self.around(|d| self.moved(axis, place, row, d));
        let ended = self.wrong == Some(Wrong::EndedEdges);
        let endless_low = place == 0 && !ended;
        let endless_high = place == SIDE - 1 && !ended;
        (endless_low || low <= self.rectangle.high[axis])
            && (endless_high || self.rectangle.low[axis] <= high)
    }

    /// A cell's column, or row, moved by its row's speeds over d.
    fn moved(&self, axis: usize, place: usize, row: &Row, d: i64) -> (i64, i64) {
        let (least, greatest) = row.span(axis);
        let low = WIDTH * place as i64;
        let high = low + WIDTH - 1;
        if d >= 0 {
            (low + least * d, high + greatest * d)
        } else {
            (low - greatest * self.size(d), high - least * self.size(d))
        }
    }
}
