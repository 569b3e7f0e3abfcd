//! The index once more in plain Rust, with the same checks and the same ways of
//! doing things, over the same buffers.

mod grid;
mod ids;
mod methods;
mod motion;
mod reading;
mod rows;
mod store;

use buffers::{record, Words, CELLS, EMPTY, HELD, NOW};
use float_index::{method, refusal, Rectangle, Reply, Report};
use float_index::{ASK_AFTER, ASK_BEFORE, LAST_POSITION, LAST_TIME, LONGEST_WINDOW, MOST_HELD};
use grid::Rect;
use methods::Choice;
use motion::Query;
use rows::{first_live, phase_of, reference_time, slot_of};

pub use motion::{At, During, When};
pub use store::is_sound;

type Checked = Result<(), usize>;

fn check(holds: bool, number: usize) -> Checked {
    if holds {
        Ok(())
    } else {
        Err(number)
    }
}

fn plain(number: usize, value: usize) -> Reply {
    Reply { number, value, ..Reply::default() }
}

fn reply(checked: Checked, words: &Words) -> Reply {
    match checked {
        Ok(()) => plain(refusal::ACCEPTED, words.store[HELD] as usize),
        Err(number) => plain(number, 0),
    }
}

fn check_lengths(words: &Words) -> Checked {
    check(words.have_lengths(), refusal::WRONG_LENGTH)
}

fn check_buffers(words: &Words) -> Checked {
    check_lengths(words)?;
    check(is_sound(words), refusal::UNSOUND)
}

/// The buffers, and that t is a time not below now.
fn check_step(words: &Words, t: i32) -> Checked {
    check_buffers(words)?;
    check((words.store[NOW]..=LAST_TIME).contains(&t), refusal::BAD_TIME)
}

/// The clock step to t, which is not below now.
fn step(words: &mut Words, t: i32) {
    store::retire(&mut words.store, t);
    let (before, c) = (phase_of(words.store[NOW]), phase_of(t));
    if c > before {
        rows::empty_newly_live(&mut words.table, before, c);
        store::step_records(words, before, c);
    }
    words.store[NOW] = t;
}

fn place(words: &mut Words, r: Report) {
    let new = record(store::key_in(phase_of(r.t), &r), r);
    store::insert(&mut words.store, new);
    store::widen(&mut words.table, &new);
}

#[inline(never)]
pub fn open(words: &mut Words, t: i32) -> Reply {
    let is_time = check((0..=LAST_TIME).contains(&t), refusal::BAD_TIME);
    let checked = check_lengths(words).and(is_time);
    if checked.is_ok() {
        words.store.fill(0);
        words.store[NOW] = t;
        buffers::rows_mut(&mut words.table).fill(EMPTY);
    }
    reply(checked, words)
}

#[inline(never)]
pub fn clock(words: &mut Words, t: i32) -> Reply {
    let checked = check_step(words, t);
    if checked.is_ok() {
        step(words, t);
    }
    reply(checked, words)
}

fn check_report(words: &Words, r: &Report) -> Checked {
    check_step(words, r.t)?;
    check(store::in_range(r), refusal::BAD_NUMBER)
}

fn check_add(words: &Words, r: &Report) -> Checked {
    check_report(words, r)?;
    check(!store::leaves_id(words, r.id, r.t), refusal::ALREADY_HELD)?;
    check(store::leaves_room(words, r.t), refusal::FULL)
}

#[inline(never)]
pub fn add(words: &mut Words, r: Report) -> Reply {
    let checked = check_add(words, &r);
    if checked.is_ok() {
        step(words, r.t);
        place(words, r);
    }
    reply(checked, words)
}

fn check_held(words: &Words, id: i32, t: i32) -> Checked {
    check(store::leaves_id(words, id, t), refusal::NOT_HELD)
}

#[inline(never)]
pub fn report(words: &mut Words, r: Report) -> Reply {
    let checked = check_report(words, &r).and_then(|()| check_held(words, r.id, r.t));
    if checked.is_ok() {
        step(words, r.t);
        store::remove(&mut words.store, r.id);
        place(words, r);
    }
    reply(checked, words)
}

fn check_drop(words: &Words, id: i32, t: i32) -> Checked {
    check_step(words, t)?;
    check(store::is_id(id), refusal::BAD_NUMBER)?;
    check_held(words, id, t)
}

#[inline(never)]
pub fn drop(words: &mut Words, id: i32, t: i32) -> Reply {
    let checked = check_drop(words, id, t);
    if checked.is_ok() {
        step(words, t);
        store::remove(&mut words.store, id);
    }
    reply(checked, words)
}

/// Whether an ask's time lies near enough to that of the store.
fn is_near(words: &Words, asked: i64) -> bool {
    let now = words.store[NOW];
    let near = i64::from(now - ASK_BEFORE)..=i64::from(now + ASK_AFTER);
    near.contains(&asked) && (0..=LAST_TIME.into()).contains(&asked)
}

fn check_ask(words: &Words, method: i32, when: impl When, q: &Rectangle) -> Checked {
    check_buffers(words)?;
    let [first, last] = when.ends();
    check(is_near(words, first) && is_near(words, last), refusal::BAD_TIME)?;
    check((0..=LONGEST_WINDOW.into()).contains(&(last - first)), refusal::BAD_WINDOW)?;
    let corners = [q.low_x, q.low_y, q.high_x, q.high_y];
    let in_sea = corners.iter().all(|x| (0..=LAST_POSITION).contains(x));
    let in_order = q.low_x <= q.high_x && q.low_y <= q.high_y;
    let is_method = (method::NAIVE..=method::OPTIMAL).contains(&method);
    check(is_method && in_sea && in_order, refusal::BAD_NUMBER)
}

/// An ask at a time, or a window ask.
#[inline(never)]
pub fn ask(words: &Words, list: &mut [u16], method: i32, when: impl When, q: Rectangle) -> Reply {
    match check_ask(words, method, when, &q) {
        Ok(()) => ask_sound(words, list, method, &Query { rect: Rect::new(q), when }),
        Err(number) => plain(number, 0),
    }
}

fn ask_sound<W: When>(words: &Words, list: &mut [u16], method: i32, query: &Query<W>) -> Reply {
    // No float is in two phases; reading wants a place more.
    let mut ids = [0; MOST_HELD + 1];
    let mut sum = Reply::default();
    let c = phase_of(words.store[NOW]);
    // Newest first, as the index does it.
    for phase in (first_live(c).max(0)..=c).rev() {
        let slot = slot_of(phase);
        let rows = &buffers::rows(&words.table)[CELLS * slot..CELLS * (slot + 1)];
        let d = query.when.ends().map(|time| time - reference_time(phase));
        let choice = Choice { rows, q: &query.rect, d };
        let mut marks = [false; CELLS];
        sum.rounds += choice.choose(method, &mut marks);
        let reading = reading::read_cells(words, slot, &marks, query, &mut ids[sum.value..]);
        sum.value += reading.listed;
        sum.cells += reading.cells;
        sum.useful += reading.useful;
    }
    if list.len() < sum.value {
        return plain(refusal::LIST_TOO_SHORT, sum.value);
    }
    ids::write_rising(&ids[..sum.value], list);
    sum
}

/// A linear scan without checks.
#[inline(never)]
pub fn scan(words: &Words, list: &mut [u16], when: impl When, q: Rectangle) -> usize {
    reading::scan(words, &Query { rect: Rect::new(q), when }, list)
}
