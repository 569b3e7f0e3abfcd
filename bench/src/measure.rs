//! Times of calls on several stores in turn: the index's, the twin's and the others'
//! one after the other, so that a busy machine disturbs all of them alike.

use crate::row::{Call, InTurn, Row};
use buffers::Words;
use float_index::{Reply, MOST_HELD};
use std::array::from_fn;
use std::hint::black_box;
use std::time::Instant;

/// How many rounds there are, and the runs of a round. A run goes through all rows and
/// takes the stores of each in turn once. Taken several times before the next row, even
/// eight stores are learned.
pub const ROUNDS: usize = 5;
pub const RUNS: usize = 13;
/// How often a run repeats a call on one store. Half of them are enough to learn it.
pub const REPEATS: usize = 25;

/// Times of a row, in microseconds: means over the stores in turn, and of the index
/// besides on the first store alone.
pub struct Times<'a> {
    pub row: &'a Row,
    pub index: f64,
    pub one_store: f64,
    /// An ask without its soundness test, where it can be measured.
    pub inner: Option<f64>,
    pub twin: f64,
    /// One pass over the lent memory: the fastest, and the exact sum.
    pub pass: f64,
    pub exact_pass: f64,
    /// A linear scan without checks, beside an ask.
    pub scan: Option<f64>,
}

/// The numbers of `Times` in their order.
type Sample = [f64; 7];

impl<'a> Times<'a> {
    fn new(row: &'a Row, sample: Sample) -> Times<'a> {
        let [index, one_store, inner, twin, pass, exact_pass, scan] = sample;
        let first = &row.calls[0];
        let inner = row.in_turn.as_ref().map(|_| inner);
        let scan = first.scan.as_ref().map(|_| scan);
        Times { row, index, one_store, inner, twin, pass, exact_pass, scan }
    }
}

/// The sum of all numbers as far as their own width holds it: the fastest way to
/// look at each of them once.
#[inline(never)]
fn pass(words: &Words) -> i32 {
    let store = words.store.iter();
    let table = words.table.iter();
    let store = store.fold(0, |sum: i32, w| sum.wrapping_add(*w));
    let table = table.fold(0, |sum: i16, n| sum.wrapping_add(*n));
    store ^ i32::from(table)
}

/// The exact sum of all numbers.
#[inline(never)]
fn exact_pass(words: &Words) -> i64 {
    let store: i64 = words.store.iter().map(|w| i64::from(*w)).sum();
    let table: i64 = words.table.iter().map(|n| i64::from(*n)).sum();
    store + table
}

fn microseconds<R>(work: impl FnOnce() -> R) -> f64 {
    let start = Instant::now();
    let _ = black_box(work());
    start.elapsed().as_secs_f64() * 1e6
}

fn median(mut times: Vec<f64>) -> f64 {
    times.sort_unstable_by(f64::total_cmp);
    times[times.len() / 2]
}

fn least(times: Vec<f64>) -> f64 {
    times.into_iter().fold(f64::INFINITY, f64::min)
}

/// The buffers that measured calls work on.
struct Desk {
    words: Words,
    list: Vec<u16>,
}

impl Desk {
    fn new() -> Desk {
        Desk { words: Words::unopened(), list: vec![0; MOST_HELD] }
    }

    /// The time of some work on a fresh copy of a call's store.
    fn time<R>(&mut self, call: &Call, work: impl Fn(&Call, &mut Desk) -> R) -> f64 {
        self.words.clone_from(&call.base);
        microseconds(|| work(call, self))
    }

    /// The mean over the calls' stores in turn. The last one goes first, untimed: the
    /// work's code was not run for a while.
    fn in_turn<R>(&mut self, calls: &[Call], work: impl Fn(&Call, &mut Desk) -> R) -> f64 {
        if let Some(last) = calls.last() {
            self.time(last, &work);
        }
        let times = calls.iter().map(|call| self.time(call, &work));
        times.sum::<f64>() / calls.len() as f64
    }

    /// What an ask takes of stores that are tested already: the mean over the stores in
    /// turn. The first time is untimed, as above.
    fn inner(&mut self, row: &Row) -> f64 {
        let Some(InTurn { asks, .. }) = &row.in_turn else { return 0.0 };
        let [_, none, once] = [1, 0, 1].map(|turns| microseconds(|| asks(&mut self.list, turns)));
        (once - none) / row.calls.len() as f64
    }

    /// A row's stores in turn once, then the first of them alone.
    fn run(&mut self, row: &Row) -> Sample {
        let (calls, first) = (&row.calls, &row.calls[0]);
        let index = self.in_turn(calls, index);
        let twin = self.in_turn(calls, twin);
        let pass = self.in_turn(calls, |_, desk| pass(&desk.words));
        let exact_pass = self.in_turn(calls, |_, desk| exact_pass(&desk.words));
        let scan = self.in_turn(calls, scan);
        let one_store = median((0..REPEATS).map(|_| self.time(first, self::index)).collect());
        let inner = self.inner(row);
        [index, one_store, inner, twin, pass, exact_pass, scan]
    }
}

fn index(call: &Call, desk: &mut Desk) -> Reply {
    (call.index)(&mut desk.words, &mut desk.list)
}

fn twin(call: &Call, desk: &mut Desk) -> Reply {
    (call.twin)(&mut desk.words, &mut desk.list)
}

fn scan(call: &Call, desk: &mut Desk) -> Option<usize> {
    call.scan.as_ref().map(|scan| scan(&desk.words, &mut desk.list))
}

/// Of several samples of each row one.
fn of_each_row(all: &[Vec<Sample>], one: fn(Vec<f64>) -> f64) -> Vec<Sample> {
    let rows = 0..all.first().map_or(0, Vec::len);
    let sample = |row: usize| from_fn(|k| one(all.iter().map(|s| s[row][k]).collect()));
    rows.map(sample).collect()
}

/// The times of the rows: the least of each one's medians over several rounds. One in
/// which the machine was slow, as it may be at first, does not count.
pub fn measured(rows: &[Row], rounds: usize, runs: usize) -> Vec<Times<'_>> {
    let mut desk = Desk::new();
    let mut run = || rows.iter().map(|row| desk.run(row)).collect();
    let mut round = || of_each_row(&(0..runs).map(|_| run()).collect::<Vec<_>>(), median);
    let rounds: Vec<_> = (0..rounds).map(|_| round()).collect();
    let samples = of_each_row(&rounds, least);
    rows.iter().zip(samples).map(|(row, sample)| Times::new(row, sample)).collect()
}
