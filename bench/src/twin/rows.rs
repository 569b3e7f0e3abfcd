//! Speed rows, phases and slots.

use buffers::{rows, rows_mut, Row, CELLS, EMPTY, MID_PHASE, PHASE, ROW_NUMBERS, SLOTS};
use float_index::{Report, TOP_SPEED};

pub fn phase_of(t: i32) -> i64 {
    i64::from(t / PHASE)
}

pub fn reference_time(phase: i64) -> i64 {
    i64::from(PHASE) * phase + i64::from(MID_PHASE)
}

pub fn slot_of(phase: i64) -> usize {
    (phase % SLOTS as i64) as usize
}

/// The first live phase, c being the current one; below 0 there is none.
pub fn first_live(c: i64) -> i64 {
    c - SLOTS as i64 + 1
}

pub fn join(a: Row, b: Row) -> Row {
    [0, 1].map(|axis| [a[axis][0].min(b[axis][0]), a[axis][1].max(b[axis][1])])
}

/// Rows are folded 16 at a time, each of their numbers in a lane of its own.
const LANES: usize = 16 * ROW_NUMBERS;

// No row of a slot is left over.
const _: () = assert!((CELLS * ROW_NUMBERS).is_multiple_of(LANES));

/// The bounds of all rows of a slot. Each lane of their numbers is folded into a least
/// and a greatest, though a row needs but one of the two: the loop is then compiled to
/// vectors.
pub fn bounds_of(slot: &[Row]) -> Row {
    let [none_least, none_greatest] = EMPTY[0];
    let mut least = [none_least; LANES];
    let mut greatest = [none_greatest; LANES];
    for block in slot.as_flattened().as_flattened().as_chunks::<LANES>().0 {
        for ((v, low), high) in block.iter().zip(&mut least).zip(&mut greatest) {
            *low = (*low).min(*v);
            *high = (*high).max(*v);
        }
    }
    let lanes = rows(&least).iter().zip(rows(&greatest));
    let lane_rows = lanes.map(|(low, high)| [0, 1].map(|axis| [low[axis][0], high[axis][1]]));
    lane_rows.fold(EMPTY, join)
}

/// The row of one float's speeds.
pub fn row_of(r: &Report) -> Row {
    [r.vx, r.vy].map(|v| [v as i16; 2])
}

/// Whether a row may have these numbers, with no test that waits for another.
fn is_valid(numbers: [i16; ROW_NUMBERS]) -> bool {
    let top = TOP_SPEED as i16;
    let [a, b, c, d] = numbers;
    let valid = |low: i16, high: i16| (-top <= low) & (low <= high) & (high <= top);
    let empty = |low: i16, high: i16| (low == EMPTY[0][0]) & (high == EMPTY[0][1]);
    (empty(a, b) & empty(c, d)) | (valid(a, b) & valid(c, d))
}

/// The rows of a table are judged 8 at a time.
const BLOCK: usize = 8 * ROW_NUMBERS;

/// The numbers that the places of a block take in: a row that starts at the last one
/// ends three numbers on.
const PLACES: usize = BLOCK + ROW_NUMBERS - 1;

/// Whether the rows of a block are valid: it is an empty one, or each of its places is
/// judged as if a row started there, and every fourth counts.
fn is_valid_block(places: &[i16; PLACES], empty: &[i16; BLOCK]) -> bool {
    if places.iter().zip(empty).fold(true, |same, (v, none)| same & (v == none)) {
        return true;
    }
    let mut valid = [true; BLOCK];
    for (j, lane) in valid.iter_mut().enumerate() {
        *lane = is_valid([places[j], places[j + 1], places[j + 2], places[j + 3]]);
    }
    valid.iter().step_by(ROW_NUMBERS).fold(true, |all, lane| all & lane)
}

/// Whether every row is valid, block by block; behind the last block are no numbers more,
/// so its rows are judged one by one.
pub fn all_valid(table: &[i16]) -> bool {
    let mut empty = [0; BLOCK];
    rows_mut(&mut empty).fill(EMPTY);
    let last = table.len() - BLOCK;
    let mut blocks = (0..last).step_by(BLOCK).filter_map(|start| table[start..].first_chunk());
    let last_rows = table[last..].as_chunks().0;
    blocks.all(|block| is_valid_block(block, &empty)) && last_rows.iter().all(|row| is_valid(*row))
}

pub fn holds(row: &Row, r: &Report) -> bool {
    let axis = |span: [i16; 2], v: i32| i32::from(span[0]) <= v && v <= i32::from(span[1]);
    axis(row[0], r.vx) && axis(row[1], r.vy)
}

/// Empties the rows of every newly live phase.
pub fn empty_newly_live(table: &mut [i16], before: i64, c: i64) {
    for phase in first_live(c).max(before + 1)..=c {
        let start = CELLS * slot_of(phase);
        rows_mut(table)[start..start + CELLS].fill(EMPTY);
    }
}
