//! Fleets to measure with, from fixed seeds: eight of a kind, one for each of the
//! stores that calls take in turn.

use buffers::{Words, PHASE};
use dice::{scattered, Dice};
use float_index::{Report, LAST_ID, LAST_POSITION, MOST_HELD, SILENCE, TOP_SPEED};

/// How many floats the fleets have.
pub const FLEETS: [usize; 3] = [10, 100, MOST_HELD];
/// How many stores calls take in turn.
pub const STORES: usize = 8;
/// The first phase of a fleet, far from the first of all.
const FIRST: i32 = 10;
/// Where few floats are fast, the speeds of the others are up to this.
const SLOW: i32 = 30;
/// Floats are numbered below this.
const NUMBERS: usize = 10_000;

/// How fast the floats of a fleet are.
#[derive(Clone, Copy, PartialEq, Eq)]
pub enum Speeds {
    /// Slow but for one float in fifty.
    FewFast,
    /// Each speed as likely as any other.
    Uniform,
}

impl Speeds {
    pub const ALL: [Speeds; 2] = [Speeds::FewFast, Speeds::Uniform];

    pub fn name(self) -> &'static str {
        match self {
            Speeds::FewFast => "few fast",
            Speeds::Uniform => "uniform",
        }
    }

    pub fn title(self) -> &'static str {
        match self {
            Speeds::FewFast => "Fleets with few fast floats",
            Speeds::Uniform => "Fleets of uniform speeds",
        }
    }

    /// The greatest speed that a float may have.
    fn top(self, number: usize) -> i32 {
        match self {
            Speeds::FewFast if number % 50 != 49 => SLOW,
            _ => TOP_SPEED,
        }
    }
}

/// Floats by number, others for each seed.
pub struct Fleet {
    speeds: Speeds,
    seed: usize,
    ids: Vec<i32>,
}

impl Fleet {
    /// The fleet of the cells read, and of the first store where few floats are fast.
    pub fn first() -> Fleet {
        Fleet::new(Speeds::FewFast, 0)
    }

    /// The fleet of one of the stores that calls take in turn, by its number from 0 on.
    pub fn of_store(speeds: Speeds, store: usize) -> Fleet {
        match speeds {
            Speeds::FewFast => Fleet::new(speeds, store),
            Speeds::Uniform => Fleet::new(speeds, STORES + store),
        }
    }

    fn new(speeds: Speeds, seed: usize) -> Fleet {
        Fleet { speeds, seed, ids: ids(seed) }
    }

    /// A float anywhere in the sea.
    pub fn float(&self, number: usize, t: i32) -> Report {
        let top = self.speeds.top(number);
        let mut dice = Dice::after(10 * (NUMBERS * self.seed + number) as u64);
        let mut range = |low: i32, high: i32| dice.range(low.into(), high.into()) as i32;
        Report {
            id: self.ids[number],
            t,
            x: range(0, LAST_POSITION),
            y: range(0, LAST_POSITION),
            vx: range(-top, top),
            vy: range(-top, top),
        }
    }

    /// An index with so many floats, evenly reported at the starts of so many phases
    /// from the first on.
    pub fn words(&self, floats: usize, phases: usize) -> Words {
        let mut words = Words::unopened();
        let mut accepted = float_index::open(&mut words.store, &mut words.table, PHASE * FIRST);
        for i in 0..floats {
            let phase = (i * phases / floats) as i32;
            let report = self.float(i, PHASE * (FIRST + phase));
            accepted = float_index::add(&mut words.store, &mut words.table, report);
            assert!(accepted.is_accepted());
        }
        assert_eq!(accepted.value, floats);
        words
    }

    /// An index with so many floats, in which every second one falls silent in the next
    /// second, which is of the same phase. The others reported a minute later.
    pub fn silent(&self, floats: usize) -> Words {
        let first = time_in(0);
        let mut words = Words::unopened();
        let mut accepted = float_index::open(&mut words.store, &mut words.table, first);
        for (odd, t) in [(0, first), (1, first + 60)] {
            for i in (odd..floats).step_by(2) {
                accepted = float_index::add(&mut words.store, &mut words.table, self.float(i, t));
                assert!(accepted.is_accepted());
            }
        }
        let before = first + SILENCE - 1;
        let clock = float_index::clock(&mut words.store, &mut words.table, before);
        assert_eq!([accepted.value, clock.value], [floats; 2]);
        words
    }
}

/// The ids of a fleet's floats by number. Those of the first fleet lie evenly. Others are
/// drawn: ids that are the same in each store, or lie evenly, are learned with the first.
fn ids(seed: usize) -> Vec<i32> {
    let mut ids: Vec<i32> =
        (0..LAST_ID as usize).map(|n| scattered(n, LAST_ID as usize) as i32 + 1).collect();
    if seed > 0 {
        let mut dice = Dice::new(seed as u64);
        for last in (1..ids.len()).rev() {
            ids.swap(last, dice.below(last + 1));
        }
    }
    ids.truncate(NUMBERS);
    ids
}

/// Half an hour into the phase that comes so many after the first.
pub fn time_in(phase: i32) -> i32 {
    PHASE * (FIRST + phase) + PHASE / 2
}
