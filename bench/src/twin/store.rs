//! The records: soundness, changes, retirement, the phase change.

use super::grid::{column, curve_number};
use super::motion::position;
use super::rows::{all_valid, first_live, holds, join, phase_of, reference_time, row_of, slot_of};
use buffers::{key, order, records, records_mut, report, rows, rows_mut};
use buffers::{Record, Words, CELLS, HELD, ID, KEY, KEYS, NOW, RECORD_WORDS, SLOTS, TIME};
use float_index::{Report, LAST_ID, LAST_POSITION, LAST_TIME, MOST_HELD, SILENCE, TOP_SPEED};

/// Ids are below this.
const IDS: usize = LAST_ID as usize + 1;

/// The key of a report in a phase.
pub fn key_in(phase: i64, r: &Report) -> i32 {
    let [x, y] = position(r, reference_time(phase));
    key(slot_of(phase), curve_number(column(x), column(y))) as i32
}

// ---- soundness

pub fn is_id(id: i32) -> bool {
    (1..=LAST_ID).contains(&id)
}

pub fn in_range(r: &Report) -> bool {
    is_id(r.id)
        && [r.x, r.y].iter().all(|p| (0..=LAST_POSITION).contains(p))
        && [r.vx, r.vy].iter().all(|v| (-TOP_SPEED..=TOP_SPEED).contains(v))
}

/// The live phase with a key's slot, where there is one.
fn phase_of_key(c: i64, key: i32) -> Option<i64> {
    let slots = SLOTS as i64;
    let back = (c % slots + slots - i64::from(key / CELLS as i32)) % slots;
    ((0..KEYS as i32).contains(&key) && back <= c).then(|| c - back)
}

fn is_sound_record(now: i32, record: &Record) -> bool {
    let r = report(record);
    let phase = phase_of_key(phase_of(now), record[KEY]);
    let is_right = |p: i64| p >= phase_of(r.t) && record[KEY] == key_in(p, &r);
    in_range(&r) && (0..=now).contains(&r.t) && phase.is_some_and(is_right)
}

/// A mark for each id seen, eight to a byte.
fn are_distinct(records: &[Record]) -> bool {
    let mut marks = [0u8; IDS / 8];
    records.iter().all(|r| {
        let byte = &mut marks[r[ID] as usize / 8];
        let bit = 1 << (r[ID] % 8);
        let is_new = *byte & bit == 0;
        *byte |= bit;
        is_new
    })
}

/// In one pass without a branch, as the index does it.
fn all_zero(words: &[i32]) -> bool {
    words.iter().fold(true, |zero, w| zero & (*w == 0))
}

/// Whether one record comes before another, with no test that waits for another.
fn precedes(a: &Record, b: &Record) -> bool {
    (a[KEY] < b[KEY]) | ((a[KEY] == b[KEY]) & (a[ID] < b[ID]))
}

/// In one pass without a branch too.
fn are_sorted(records: &[Record]) -> bool {
    records.array_windows().fold(true, |sorted, [a, b]| sorted & precedes(a, b))
}

fn is_sound_store(store: &[i32]) -> bool {
    let good_head = (0..=LAST_TIME).contains(&store[NOW])
        && (0..=MOST_HELD as i32).contains(&store[HELD])
        && all_zero(&store[HELD + 1..RECORD_WORDS]);
    if !good_head {
        return false;
    }
    let (used, unused) = records(store).split_at(store[HELD] as usize);
    used.iter().all(|r| is_sound_record(store[NOW], r))
        && are_sorted(used)
        && are_distinct(used)
        && all_zero(unused.as_flattened())
}

#[inline(never)]
pub fn is_sound(words: &Words) -> bool {
    let rows = rows(&words.table);
    words.have_lengths()
        && is_sound_store(&words.store)
        && all_valid(&words.table)
        && words.held().iter().all(|r| holds(&rows[r[KEY] as usize], &report(r)))
}

// ---- changes

/// Whether a clock step to t leaves a float held.
fn stays(r: &Record, t: i32) -> bool {
    t - SILENCE < r[TIME]
}

/// Whether a clock step to t leaves a float with this id.
pub fn leaves_id(words: &Words, id: i32, t: i32) -> bool {
    words.held().iter().find(|r| r[ID] == id).is_some_and(|r| stays(r, t))
}

/// How many floats a clock step to t leaves, in one pass without a branch.
fn left(records: &[Record], t: i32) -> usize {
    records.iter().fold(0, |left, r| left + u32::from(stays(r, t))) as usize
}

/// Whether a clock step to t leaves room for one more.
pub fn leaves_room(words: &Words, t: i32) -> bool {
    let held = words.held();
    held.len() < MOST_HELD || left(held, t) < MOST_HELD
}

/// Takes out the floats that a clock step to t does not leave. Where it leaves all
/// of them, no record is moved.
pub fn retire(store: &mut [i32], t: i32) {
    let n = store[HELD] as usize;
    let left = left(&records(store)[..n], t);
    if left == n {
        return;
    }
    let records = records_mut(store);
    let mut kept = 0;
    for i in 0..n {
        let r = records[i];
        records[kept] = r;
        kept += usize::from(stays(&r, t));
    }
    records[left..n].fill([0; RECORD_WORDS]);
    store[HELD] = left as i32;
}

pub fn insert(store: &mut [i32], new: Record) {
    let n = store[HELD] as usize;
    store[HELD] += 1;
    let records = records_mut(store);
    let place = records[..n].iter().position(|r| order(&new) < order(r));
    let place = place.unwrap_or(n);
    records.copy_within(place..n, place + 1);
    records[place] = new;
}

pub fn remove(store: &mut [i32], id: i32) {
    let n = store[HELD] as usize;
    let records = records_mut(store);
    if let Some(place) = records[..n].iter().position(|r| r[ID] == id) {
        records.copy_within(place + 1..n, place);
        records[n - 1] = [0; RECORD_WORDS];
        store[HELD] -= 1;
    }
}

/// Widens the row of a record by its speeds.
pub fn widen(table: &mut [i16], r: &Record) {
    let row = &mut rows_mut(table)[r[KEY] as usize];
    *row = join(*row, row_of(&report(r)));
}

/// The current phase goes from c to later: floats of dead phases are placed in
/// it. They have its slot to themselves, so once in order they go in as one run.
pub fn step_records(words: &mut Words, c: i64, later: i64) {
    let n = words.store[HELD] as usize;
    let records = records_mut(&mut words.store);
    let mut dead = [[0; RECORD_WORDS]; MOST_HELD];
    let (mut kept, mut gone) = (0, 0);
    for i in 0..n {
        let r = records[i];
        if phase_of_key(c, r[KEY]).is_some_and(|p| p >= first_live(later)) {
            records[kept] = r;
            kept += 1;
        } else {
            dead[gone] = r;
            dead[gone][KEY] = key_in(later, &report(&r));
            gone += 1;
        }
    }
    let dead = &mut dead[..gone];
    dead.sort_unstable_by_key(order);
    if let Some(first) = dead.first() {
        let place = records[..kept].partition_point(|r| order(r) < order(first));
        records.copy_within(place..kept, place + gone);
        records[place..place + gone].copy_from_slice(dead);
    }
    dead.iter().for_each(|r| widen(&mut words.table, r));
}
