//! How many cells asks read, and how many of these are useful: means over several
//! times of the index, which are spread over its third phase.

use crate::asks::{middle, HOUR, METHODS, SIDES};
use crate::fleet::{Fleet, FLEETS};
use buffers::{Words, HELD, NOW, PHASE};
use float_index::{Reply, MOST_HELD};

/// How long after the start of the third phase the index's time is, in seconds.
const TIMES: [i32; 5] = [0, PHASE / 4, PHASE / 2, 3 * PHASE / 4, PHASE - 1];

/// An ask's first and last time, in seconds from now on, and what they are called.
/// An ask at one time has it for both.
type Asked = (i32, i32, &'static str);

const ASKED: [Asked; 5] = [
    (-HOUR, -HOUR, "an hour before now"),
    (0, 0, "now"),
    (HOUR, HOUR, "an hour after now"),
    (2 * HOUR, 2 * HOUR, "two hours after now"),
    (0, HOUR, "window, the hour from now on"),
];

/// The cells of an ask, as means.
pub struct Cells {
    pub floats: usize,
    pub side: i32,
    pub asked: &'static str,
    /// Cells read, by method.
    pub read: [f64; METHODS.len()],
    /// By every method the same.
    pub useful: f64,
}

/// Every ask, in the order of the table.
pub fn all() -> Vec<Cells> {
    let mut all = Vec::new();
    let first = Fleet::first();
    for fleet in FLEETS.map(|floats| at_times(&first.words(floats, 3))) {
        for side in SIDES {
            all.extend(ASKED.map(|asked| means(&fleet, side, asked)));
        }
    }
    all
}

/// The index, which stands at the start of its third phase, at each of its times.
fn at_times(start: &Words) -> [Words; TIMES.len()] {
    TIMES.map(|after| {
        let mut words = start.clone();
        let t = start.store[NOW] + after;
        let reply = float_index::clock(&mut words.store, &mut words.table, t);
        assert!(reply.is_accepted());
        words
    })
}

fn means(fleet: &[Words], side: i32, asked: Asked) -> Cells {
    let (mut read, mut useful) = ([0; METHODS.len()], 0);
    for words in fleet {
        let replies: [Reply; METHODS.len()] =
            std::array::from_fn(|method| ask(words, method, side, asked));
        read.iter_mut().zip(&replies).for_each(|(sum, reply)| *sum += reply.cells);
        assert!(replies.iter().all(|reply| reply.useful == replies[0].useful));
        useful += replies[0].useful;
    }
    let mean = |sum: usize| sum as f64 / fleet.len() as f64;
    Cells {
        floats: fleet[0].store[HELD] as usize,
        side,
        asked: asked.2,
        read: read.map(mean),
        useful: mean(useful),
    }
}

/// An ask for the middle of the sea.
fn ask(words: &Words, method: usize, side: i32, (first, last, _): Asked) -> Reply {
    let mut list = [0; MOST_HELD];
    let (store, table, number, q) = (&words.store, &words.table, method as i32, middle(side));
    let [first, last] = [first, last].map(|time| words.store[NOW] + time);
    let reply = match first == last {
        true => float_index::ask(store, table, &mut list, number, first, q),
        false => float_index::ask_window(store, table, &mut list, number, first, last, q),
    };
    assert!(reply.is_accepted());
    reply
}
