//! Whether a store and a table are sound: document 01's sentence "Sound means",
//! one clause at a time, with no code of the index in it. A clause can be left
//! out, or one more put in, to see whether the buffers tried would show it.

use crate::ledgers::{key_in, keyed, Keyed};
use buffers::{records, rows, Row, Words, EMPTY, HELD, NOW, RECORD_WORDS};
use plain_ledger::ledger::{is_silent, live, slot, Report};
use plain_ledger::limits::{CELLS, LAST_ID, LAST_TIME, MOST_HELD, PHASE, SEA, TOP_SPEED};

plain_ledger::listed! {
    /// What a sound store and table fulfil.
    pub enum Clause {
        Now,
        Held,
        HeadZeros,
        Ids,
        Positions,
        Speeds,
        TimesFromZero,
        TimesToNow,
        IdsDistinct,
        KeysRising,
        IdsRisingInKey,
        KeyOfLivePhase,
        KeyNotBeforeReport,
        KeyOfCell,
        UnusedZeros,
        RowsOrdered,
        RowsLimited,
        RowsEmptyOnBothAxes,
        SpeedsInRow,
    }
}

/// The test, with one clause left out or none, and whether silent floats are a flaw.
/// They are none: a store may be lent late.
#[derive(Clone, Copy, Debug)]
pub struct Sound {
    pub without: Option<Clause>,
    pub refuses_silence: bool,
}

impl Sound {
    fn check(&self, clause: Clause, holds: bool) -> bool {
        holds || self.without == Some(clause)
    }

    /// Of buffers that have their lengths.
    pub fn holds(&self, words: &Words) -> bool {
        let (store, rows) = (&words.store, rows(&words.table));
        if !self.head(store) {
            return false;
        }
        let Ok(held) = usize::try_from(store[HELD]) else {
            return false;
        };
        // A count that is out of range is out of the store too.
        let Some((used, unused)) = records(store).split_at_checked(held) else {
            return true;
        };
        let used: Vec<Keyed> = used.iter().map(keyed).collect();
        let now = i64::from(store[NOW]);
        self.check(Clause::UnusedZeros, unused.as_flattened().iter().all(|w| *w == 0))
            && used.iter().all(|r| self.record(now, r))
            && self.check(Clause::IdsDistinct, are_distinct(&used))
            && used.windows(2).all(|pair| self.order(&pair[0], &pair[1]))
            && rows.iter().all(|row| self.row(row))
            && used.iter().all(|r| self.in_row(rows, r))
    }

    fn head(&self, store: &[i32]) -> bool {
        let [now, held] = [NOW, HELD].map(|word| i64::from(store[word]));
        self.check(Clause::Now, (0..=LAST_TIME).contains(&now))
            && self.check(Clause::Held, (0..=MOST_HELD as i64).contains(&held))
            && self.check(Clause::HeadZeros, store[HELD + 1..RECORD_WORDS].iter().all(|w| *w == 0))
    }

    fn record(&self, now: i64, (key, report): &Keyed) -> bool {
        let Report { id, t, at, speed } = report;
        self.check(Clause::Ids, (1..=LAST_ID).contains(id))
            && self.check(Clause::Positions, at.iter().all(|x| (0..=SEA).contains(x)))
            && self.check(Clause::Speeds, speed.iter().all(|v| v.abs() <= TOP_SPEED))
            && self.check(Clause::TimesFromZero, *t >= 0)
            && self.check(Clause::TimesToNow, *t <= now)
            && !(self.refuses_silence && is_silent(*t, now))
            && self.key(now, *key, report)
    }

    /// The key is right for a live phase that is not before that of t.
    fn key(&self, now: i64, key: i64, report: &Report) -> bool {
        let is_live = |p: &i64| {
            let not_before = *p >= report.t.div_euclid(PHASE);
            self.check(Clause::KeyNotBeforeReport, not_before)
        };
        let is_right = |p: i64| {
            let right = key_in(p, report);
            let same_slot = key.div_euclid(CELLS as i64) == slot(p) as i64;
            key == right || same_slot && self.without == Some(Clause::KeyOfCell)
        };
        let c = now / PHASE;
        let first = match self.without {
            Some(Clause::KeyOfLivePhase) => (c - 5).max(0),
            _ => *live(c).start(),
        };
        (first..=c).filter(is_live).any(is_right)
    }

    fn order(&self, a: &Keyed, b: &Keyed) -> bool {
        self.check(Clause::KeysRising, a.0 <= b.0)
            && self.check(Clause::IdsRisingInKey, a.0 != b.0 || a.1.id <= b.1.id)
    }

    fn row(&self, row: &Row) -> bool {
        let empty = [0, 1].map(|axis| row[axis] == EMPTY[axis]);
        let full = row.map(|span| self.span(span));
        if self.without == Some(Clause::RowsEmptyOnBothAxes) {
            return (0..2).all(|axis| empty[axis] || full[axis]);
        }
        empty == [true; 2] || full == [true; 2]
    }

    /// Least and greatest of an axis of a row that is not empty.
    fn span(&self, span: [i16; 2]) -> bool {
        let limited = span.iter().all(|v| i64::from(*v).abs() <= TOP_SPEED);
        self.check(Clause::RowsLimited, limited)
            && self.check(Clause::RowsOrdered, span[0] <= span[1])
    }

    fn in_row(&self, rows: &[Row], (key, report): &Keyed) -> bool {
        let row = usize::try_from(*key).ok().and_then(|key| rows.get(key));
        let holds = |row: &Row| {
            let spans = row.map(|[least, greatest]| least.into()..=greatest.into());
            spans.iter().zip(report.speed).all(|(span, v)| span.contains(&v))
        };
        self.check(Clause::SpeedsInRow, row.is_none_or(holds))
    }
}

fn are_distinct(records: &[Keyed]) -> bool {
    let mut ids: Vec<i64> = records.iter().map(|r| r.1.id).collect();
    ids.sort_unstable();
    ids.windows(2).all(|pair| pair[0] != pair[1])
}
