//! The two lent buffers as document 01 lays them out: which word of the store
//! and which number of the table is what, once for the boundary tests and the
//! benchmark. A layout that changes, changes here.
//!
//! What the words must fulfil is not said here: boundary/ and the benchmark's
//! twin each have the rules in their own words.

use float_index::{Report, LAST_POSITION, MOST_HELD, STORE_WORDS, TABLE_NUMBERS, TOP_SPEED};

/// The grid's columns, and its rows.
pub const SIDE: usize = 32;
pub const CELLS: usize = SIDE * SIDE;
/// Width and height of a cell.
pub const WIDTH: i32 = (LAST_POSITION + 1) / SIDE as i32;
/// The seconds of a phase.
pub const PHASE: i32 = 3_600;
/// How long after its start the reference time of a phase lies, in seconds.
pub const MID_PHASE: i32 = 1_800;
/// Live phases, and so the parts of the table.
pub const SLOTS: usize = 3;
/// Keys are 0 to below this; a record's key is also the number of its row.
pub const KEYS: usize = SLOTS * CELLS;
pub const RECORD_WORDS: usize = 7;
pub const ROW_NUMBERS: usize = 4;

// The lengths that hosts are told are those of this layout.
const _: () = assert!(STORE_WORDS == RECORD_WORDS * (MOST_HELD + 1));
const _: () = assert!(TABLE_NUMBERS == ROW_NUMBERS * KEYS);

/// In record 0: the time, and how many floats are held. Its other words are 0.
pub const NOW: usize = 0;
pub const HELD: usize = 1;

/// A held float: its key, then its report.
pub type Record = [i32; RECORD_WORDS];

pub const KEY: usize = 0;
pub const ID: usize = 1;
pub const TIME: usize = 2;

/// For each axis the least and the greatest speed.
pub type Row = [[i16; 2]; ROW_NUMBERS / 2];

const NO_SPEED: [i16; 2] = [TOP_SPEED as i16 + 1, -TOP_SPEED as i16 - 1];
pub const EMPTY: Row = [NO_SPEED; 2];

/// The two buffers of an index.
#[derive(Clone, Debug, PartialEq, Eq)]
pub struct Words {
    pub store: Vec<i32>,
    pub table: Vec<i16>,
}

impl Words {
    /// Buffers of the right lengths before they are opened.
    pub fn unopened() -> Words {
        Words { store: vec![0; STORE_WORDS], table: vec![0; TABLE_NUMBERS] }
    }

    /// The buffers with these floats held, in whatever order they come, and
    /// these rows by key.
    pub fn new(now: i32, mut floats: Vec<Record>, rows: &[Row]) -> Words {
        let mut words = Words::unopened();
        words.store[NOW] = now;
        words.store[HELD] = floats.len() as i32;
        floats.sort_by_key(order);
        records_mut(&mut words.store)[..floats.len()].copy_from_slice(&floats);
        rows_mut(&mut words.table).copy_from_slice(rows);
        words
    }

    pub fn have_lengths(&self) -> bool {
        self.store.len() == STORE_WORDS && self.table.len() == TABLE_NUMBERS
    }

    /// The records in use, of words whose count is in range.
    #[inline]
    pub fn held(&self) -> &[Record] {
        &records(&self.store)[..self.store[HELD] as usize]
    }
}

#[inline]
pub fn key(slot: usize, curve_number: usize) -> usize {
    CELLS * slot + curve_number
}

/// What records are sorted by.
#[inline]
pub fn order(record: &Record) -> (i32, i32) {
    (record[KEY], record[ID])
}

#[inline]
pub fn record(key: i32, r: Report) -> Record {
    [key, r.id, r.t, r.x, r.y, r.vx, r.vy]
}

#[inline]
pub fn report(record: &Record) -> Report {
    let [_, id, t, x, y, vx, vy] = *record;
    Report { id, t, x, y, vx, vy }
}

/// The records after record 0, used and unused.
#[inline]
pub fn records(store: &[i32]) -> &[Record] {
    store[RECORD_WORDS..].as_chunks().0
}

#[inline]
pub fn records_mut(store: &mut [i32]) -> &mut [Record] {
    store[RECORD_WORDS..].as_chunks_mut().0
}

/// The rows by key.
#[inline]
pub fn rows(table: &[i16]) -> &[Row] {
    table.as_chunks().0.as_chunks().0
}

#[inline]
pub fn rows_mut(table: &mut [i16]) -> &mut [Row] {
    table.as_chunks_mut().0.as_chunks_mut().0
}
