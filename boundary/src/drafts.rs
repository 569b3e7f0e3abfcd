//! Stores and tables put together float by float: sound ones that no list of
//! calls need lead to, and ones with one flaw.

use crate::calls::{any_report, Setting};
use crate::ledgers::{key_in, record, small, Keyed};
use buffers::{Row, Words, EMPTY, HELD, KEYS, NOW, RECORD_WORDS};
use dice::{scattered, Dice};
use float_index::STORE_WORDS;
use plain_ledger::calls::start;
use plain_ledger::ledger::{live, Report};
use plain_ledger::limits::{CELLS, LAST_ID, LAST_TIME, PHASE, SEA, SILENCE, TOP_SPEED};

/// An index on paper: floats with their keys, and the rows by key.
#[derive(Clone)]
pub struct Draft {
    now: i64,
    /// No float has reported before this time.
    oldest: i64,
    floats: Vec<Keyed>,
    rows: Vec<Row>,
}

impl Draft {
    /// A sound index with so many floats, some rows wider than need be.
    pub fn any(dice: &mut Dice, floats: usize) -> Draft {
        let now = start(dice, 0);
        Draft::of(dice, now, floats, Draft::add_any)
    }

    /// The same with floats of which many are silent, or nearly so.
    pub fn silent(dice: &mut Dice, floats: usize) -> Draft {
        let now = (SILENCE + start(dice, 0)).min(LAST_TIME);
        Draft::of(dice, now, floats, Draft::add_silent)
    }

    /// An index with this time and so many floats, each added in this way.
    /// In half of them nobody is silent before the next second.
    fn of(dice: &mut Dice, now: i64, floats: usize, add: fn(&mut Draft, &mut Dice, i64)) -> Draft {
        let oldest = dice.pick(&[0, (now - SILENCE + 1).max(0)]);
        let mut draft = Draft { now, oldest, floats: Vec::new(), rows: vec![EMPTY; KEYS] };
        let first = dice.below(LAST_ID as usize);
        for number in first..first + floats {
            add(&mut draft, dice, scattered(number, LAST_ID as usize) as i64 + 1);
        }
        for _ in 0..dice.range(0, 60) {
            let key = dice.below(KEYS) as i64;
            draft.widen(key, any_report(dice, 1, 0).speed);
        }
        draft
    }

    /// A float in any live phase, reported in it or before it.
    fn add_any(&mut self, dice: &mut Dice, id: i64) {
        let phase = self.live_phase(dice);
        let last = self.now.min(PHASE * phase + PHASE - 1);
        let ago = dice.pick(&[0, 1, 60, PHASE, 3 * PHASE, 1_000_000, LAST_TIME]);
        let t = (last - dice.range(0, ago)).max(self.oldest);
        self.hold(phase, any_report(dice, id, t));
    }

    /// Mostly a float that falls silent about now, and so slow that it may be in the
    /// sea still.
    fn add_silent(&mut self, dice: &mut Dice, id: i64) {
        if dice.chance(250) {
            return self.add_any(dice, id);
        }
        let (near, far) = (dice.range(-60, 60), dice.range(-3 * PHASE, 3 * PHASE));
        let late = dice.pick(&[-1, -1, 0, 0, 1, 1, near, far]);
        let t = (self.now - SILENCE + late).max(self.oldest);
        let mut report = any_report(dice, id, t);
        if dice.chance(700) {
            report.speed = report.speed.map(i64::signum);
        }
        let phase = self.live_phase(dice);
        self.hold(phase, report);
    }

    fn live_phase(&self, dice: &mut Dice) -> i64 {
        let live: Vec<i64> = live(self.now / PHASE).collect();
        dice.pick(&live)
    }

    /// Holds a report in a phase, its row widened.
    fn hold(&mut self, phase: i64, report: Report) {
        self.hold_by(key_in(phase, &report), report);
    }

    fn hold_by(&mut self, key: i64, report: Report) {
        self.floats.push((key, report));
        self.widen(key, report.speed);
    }

    fn widen(&mut self, key: i64, speed: [i64; 2]) {
        for ([least, greatest], v) in self.rows[key as usize].iter_mut().zip(speed) {
            *least = v.min((*least).into()) as i16;
            *greatest = v.max((*greatest).into()) as i16;
        }
    }

    pub fn setting(&self) -> Setting {
        Setting::any(self.now, self.floats.iter().map(|(_, report)| *report).collect())
    }

    pub fn words(&self) -> Words {
        Words::new(small(self.now), self.floats.iter().map(record).collect(), &self.rows)
    }

    /// Words that are unsound by one clause alone, where the flaw takes.
    pub fn flawed(&self, dice: &mut Dice) -> Words {
        let mut draft = self.clone();
        if draft.floats.is_empty() || dice.chance(300) {
            draft.spoil_rows(dice);
            return draft.words();
        }
        if dice.chance(300) {
            let mut words = draft.words();
            spoil_store(dice, &mut words.store, draft.floats.len());
            return words;
        }
        let float = dice.below(draft.floats.len());
        let (key, report) = draft.floats.swap_remove(float);
        draft.put_back(dice, key, report);
        draft.words()
    }

    /// Holds a float again with one flaw, and all else as it should be.
    fn put_back(&mut self, dice: &mut Dice, key: i64, mut report: Report) {
        let c = self.now / PHASE;
        let axis = dice.below(2);
        let top = TOP_SPEED;
        let mut phase = dice.pick(&[c, (c - 1).max(0), (c - 2).max(0)]);
        match dice.range(0, 8) {
            0 => report.id = dice.pick(&[0, -1, LAST_ID, LAST_ID + 1]),
            1 => report.at[axis] = dice.pick(&[-1, 0, SEA, SEA + 1, -5_000]),
            2 => report.speed[axis] = dice.pick(&[-top - 1, -top, top, top + 1]),
            3 => report.t = dice.pick(&[-1, self.now + 1, self.now, LAST_TIME]),
            4 => phase = dice.pick(&[(c - 3).max(0), (c - 4).max(0), c + 1]),
            5 => phase = (report.t / PHASE - 1).max(0),
            6 => report.id = self.floats.first().map_or(report.id, |other| other.1.id),
            7 => {
                let slot = CELLS as i64;
                let near = key + dice.pick(&[-1, 1, slot, -slot]);
                return self.hold_by(near.clamp(0, KEYS as i64 - 1), report);
            }
            _ => {}
        }
        self.hold(phase, report);
    }

    fn spoil_rows(&mut self, dice: &mut Dice) {
        let any = dice.below(KEYS);
        let key = match self.floats.len() {
            0 => any,
            n if dice.chance(600) => self.floats[dice.below(n)].0 as usize,
            _ => any,
        };
        let row = &mut self.rows[key];
        let axis = dice.below(2);
        let top = TOP_SPEED as i16;
        match dice.range(0, 5) {
            0 => *row = EMPTY,
            // Empty on one axis, also where it was on both: where no float is held, no
            // speed is a second flaw.
            1 => (row[axis], row[1 - axis]) = (EMPTY[axis], [-3, 3]),
            2 => row[axis] = [3, -3],
            3 => row[axis][0] = dice.pick(&[-top - 1, -top, i16::MIN]),
            4 => row[axis][1] = dice.pick(&[top + 1, top, i16::MAX]),
            _ => row[axis][1] = row[axis][0],
        }
    }
}

/// Two neighbouring records exchanged, their ids exchanged, a count that is one
/// off, a word that should be zero, or a time past the last, which is the one
/// flaw of an index in its last phases.
fn spoil_store(dice: &mut Dice, store: &mut [i32], held: usize) {
    let last = STORE_WORDS - RECORD_WORDS;
    let record = RECORD_WORDS * (1 + dice.below(held));
    let next = (record + RECORD_WORDS).min(last);
    match dice.range(0, 5) {
        0 => (0..RECORD_WORDS).for_each(|i| store.swap(record + i, next + i)),
        1 => store.swap(record + buffers::ID, next + buffers::ID),
        2 => store[HELD] += dice.pick(&[-1, 1]),
        3 => store[NOW] = small(LAST_TIME + 1),
        4 => store[HELD + 1 + dice.below(RECORD_WORDS - 2)] = dice.pick(&[-1, 1, i32::MIN]),
        _ => {
            let unused = RECORD_WORDS * (held + 1);
            store[(unused + dice.below(RECORD_WORDS)).min(STORE_WORDS - 1)] = 1;
        }
    }
}
