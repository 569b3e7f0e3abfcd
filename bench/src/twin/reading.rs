//! Reading the records of chosen cells, and a linear scan of all.

use super::motion::{Query, When};
use buffers::{key, report, Record, Words, CELLS, ID, KEY};

/// What reading gives back: floats listed, cells read, useful cells.
pub struct Reading {
    pub listed: usize,
    pub cells: usize,
    pub useful: usize,
}

/// Counts on the way: floats listed, useful cells, and the key of the last float
/// listed.
struct Tally {
    listed: usize,
    useful: usize,
    last: i32,
}

impl Tally {
    fn count(&mut self, r: &Record, is_listed: bool) {
        self.listed += usize::from(is_listed);
        self.useful += usize::from(is_listed & (r[KEY] != self.last));
        self.last = if is_listed { r[KEY] } else { self.last };
    }

    /// Reads a run of records. Every id is written behind those listed so far, and only
    /// a listed one moves the place on: there is no branch on which are listed.
    fn read<W: When>(&mut self, run: &[Record], query: &Query<W>, ids: &mut [u16]) {
        for r in run {
            ids[self.listed] = r[ID] as u16;
            self.count(r, query.lists(&report(r)));
        }
    }
}

/// The records of a slot, which are one run of those held.
fn records_of(held: &[Record], slot: usize) -> &[Record] {
    let [start, stop] = [slot, slot + 1].map(|slot| {
        let low = key(slot, 0) as i32;
        held.partition_point(|r| r[KEY] < low)
    });
    &held[start..stop]
}

/// How many cells are marked, in 16 bits: so more of them are counted at once.
fn cells_in(marks: &[bool; CELLS]) -> usize {
    marks.iter().map(|mark| u16::from(*mark)).sum::<u16>().into()
}

/// Reads the marked cells of a slot in one walk over its records, each run of them
/// whose cells are marked at once, and writes the ids listed to the front of `ids`,
/// which has a place more than there are records.
pub fn read_cells<W: When>(
    words: &Words,
    slot: usize,
    marks: &[bool; CELLS],
    query: &Query<W>,
    ids: &mut [u16],
) -> Reading {
    let is_marked = |r: &Record| marks[r[KEY] as usize % CELLS];
    let mut tally = Tally { listed: 0, useful: 0, last: -1 };
    let mut left = records_of(words.held(), slot);
    while let Some(first) = left.iter().position(is_marked) {
        let marked = &left[first..];
        let stop = marked.iter().position(|r| !is_marked(r)).unwrap_or(marked.len());
        let (run, behind) = marked.split_at(stop);
        tally.read(run, query, ids);
        left = behind;
    }
    Reading { listed: tally.listed, cells: cells_in(marks), useful: tally.useful }
}

/// The ids of the floats that a query lists, in order, with no test of anything
/// and every record read.
pub fn scan<W: When>(words: &Words, query: &Query<W>, list: &mut [u16]) -> usize {
    let mut n = 0;
    for r in words.held() {
        if query.lists(&report(r)) {
            list[n] = r[ID] as u16;
            n += 1;
        }
    }
    list[..n].sort_unstable();
    n
}
