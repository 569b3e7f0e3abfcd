//! The plain ledger: the time, the held reports, and per live phase and cell
//! the bounds of the placements made there.
//!
//! The document keeps a list of placements and takes a row to be the bounds of
//! those of its phase and cell. Here each row is widened when a placement is
//! made and emptied when its phase comes to life, which is the same; the tests
//! keep the list too and compare.

use crate::grid::{cell, Rectangle};
use crate::limits::{ASK_AFTER, ASK_BEFORE, CELLS, LAST_ID, LAST_METHOD, LAST_TIME};
use crate::limits::{LONGEST_WINDOW, MID_PHASE, MOST_HELD, PHASE, SEA, SILENCE, SLOTS, TOP_SPEED};
use crate::methods::{bounds, Choice, Row, Wrong};
use std::collections::BTreeMap;

pub use crate::motion::Report;

/// When an ask wants floats in its rectangle: at one time, or at some moment from
/// a first time to a last one.
#[derive(Clone, Copy, Debug, PartialEq, Eq)]
pub enum When {
    At(i64),
    During { first: i64, last: i64 },
}

impl When {
    /// The first and the last time.
    pub fn ends(self) -> [i64; 2] {
        match self {
            When::At(time) => [time; 2],
            When::During { first, last } => [first, last],
        }
    }
}

#[derive(Clone, Copy, Debug, PartialEq, Eq)]
pub struct Ask {
    pub method: i64,
    pub when: When,
    pub rectangle: Rectangle,
}

#[derive(Clone, Copy, Debug, PartialEq, Eq)]
pub enum Call {
    Open { t: i64 },
    Clock { t: i64 },
    Add(Report),
    Report(Report),
    Drop { id: i64, t: i64 },
    Ask(Ask),
}

impl Call {
    /// The time that a call's clock step goes to, where it makes one.
    pub fn step_time(&self) -> Option<i64> {
        match self {
            Call::Clock { t } | Call::Drop { t, .. } => Some(*t),
            Call::Add(report) | Call::Report(report) => Some(report.t),
            Call::Open { .. } | Call::Ask(_) => None,
        }
    }
}

#[derive(Clone, Debug, PartialEq, Eq)]
pub enum Answer {
    /// An accepted open or change and its value.
    Accepted(i64),
    /// A refusal's number and its value.
    Refused(i64, i64),
    /// An accepted ask.
    Listed { ids: Vec<i64>, cells: usize, useful: usize, rounds: usize },
}

/// A held report with the phase and cell in which it is placed.
#[derive(Clone, Copy, Debug, PartialEq, Eq)]
pub struct Held {
    pub report: Report,
    pub phase: i64,
    pub cell: usize,
}

impl Held {
    /// The report placed in a phase.
    pub fn placed(report: Report, phase: i64, wrong: Option<Wrong>) -> Held {
        let cell = cell(report.position(reference_time(phase, wrong)));
        Held { report, phase, cell }
    }
}

pub struct Ledger {
    now: i64,
    held: BTreeMap<i64, Held>,
    /// The rows of a phase stand at its slot.
    rows: [Vec<Row>; SLOTS],
    /// No held float reported before this time.
    oldest: i64,
    /// How many floats have retired since the open.
    retired: usize,
    wrong: Option<Wrong>,
    #[cfg(test)]
    placements: Vec<(i64, usize, [i64; 2])>,
}

/// The time at whose positions floats are placed in a phase, and from which d is
/// counted.
pub fn reference_time(phase: i64, wrong: Option<Wrong>) -> i64 {
    let after_start = match wrong {
        Some(Wrong::ReferenceEarly) => MID_PHASE - 1,
        Some(Wrong::ReferenceLate) => MID_PHASE + 1,
        Some(Wrong::OldReference) => 0,
        _ => MID_PHASE,
    };
    PHASE * phase + after_start
}

/// Where the rows of a phase are kept: the remainder by the number of slots.
pub fn slot(phase: i64) -> usize {
    (phase % SLOTS as i64) as usize
}

/// The live phases when c is the current one, oldest first.
pub fn live(c: i64) -> std::ops::RangeInclusive<i64> {
    (c - SLOTS as i64 + 1).max(0)..=c
}

fn check(holds: bool, number: i64) -> Result<(), i64> {
    if holds {
        Ok(())
    } else {
        Err(number)
    }
}

fn id_in_range(id: i64) -> bool {
    (1..=LAST_ID).contains(&id)
}

fn report_in_range(s: &Report) -> bool {
    id_in_range(s.id)
        && s.at.iter().all(|x| (0..=SEA).contains(x))
        && s.speed.iter().all(|v| v.abs() <= TOP_SPEED)
}

fn ask_in_range(ask: &Ask) -> bool {
    let Rectangle { low, high } = ask.rectangle;
    (0..=LAST_METHOD).contains(&ask.method)
        && low.iter().chain(&high).all(|x| (0..=SEA).contains(x))
        && (0..2).all(|axis| low[axis] <= high[axis])
}

/// Whether a float that reported last at this time is lost at time t.
pub fn is_silent(reported: i64, t: i64) -> bool {
    reported + SILENCE <= t
}

/// Whether an ask lists the float of a held report. A silent one is held, and
/// listed, till a clock step retires it.
fn lists(ask: &Ask, report: &Report, wrong: Option<Wrong>) -> bool {
    if wrong == Some(Wrong::SilentUnlisted) && is_silent(report.t, ask.when.ends()[1]) {
        return false;
    }
    match ask.when {
        When::At(time) => report.is_in_at(&ask.rectangle, time, wrong),
        When::During { .. } => report.is_in_during(&ask.rectangle, ask.when.ends(), wrong),
    }
}

impl Ledger {
    /// The ledger opened at 0.
    pub fn new(wrong: Option<Wrong>) -> Ledger {
        Ledger {
            now: 0,
            held: BTreeMap::new(),
            rows: [0; SLOTS].map(|_| vec![Row::EMPTY; CELLS]),
            oldest: 0,
            retired: 0,
            wrong,
            #[cfg(test)]
            placements: Vec::new(),
        }
    }

    /// A ledger taken up in the middle of a list: its time, held reports and the
    /// rows of each slot's cells.
    pub fn kept(
        now: i64,
        held: Vec<Held>,
        rows: [Vec<Row>; SLOTS],
        wrong: Option<Wrong>,
    ) -> Ledger {
        Ledger {
            now,
            held: held.into_iter().map(|h| (h.report.id, h)).collect(),
            rows,
            ..Ledger::new(wrong)
        }
    }

    pub fn now(&self) -> i64 {
        self.now
    }

    /// The held reports with their places, ids rising.
    pub fn held(&self) -> impl ExactSizeIterator<Item = &Held> {
        self.held.values()
    }

    /// The rows of each slot's cells.
    pub fn rows(&self) -> &[Vec<Row>; SLOTS] {
        &self.rows
    }

    /// How many floats have retired since the open.
    pub fn retired(&self) -> usize {
        self.retired
    }

    /// The held reports, ids rising.
    pub fn reports(&self) -> impl ExactSizeIterator<Item = &Report> {
        self.held.values().map(|held| &held.report)
    }

    /// One call; for an ask, `list` is the length of its answer list.
    pub fn call(&mut self, call: &Call, list: usize) -> Answer {
        let retired = self.retired;
        let done = match call {
            Call::Open { t } => self.open(*t),
            Call::Clock { t } => self.clock(*t),
            Call::Add(report) => self.add(report),
            Call::Report(report) => self.report(report),
            Call::Drop { id, t } => self.drop(*id, *t),
            Call::Ask(ask) => match self.ask(ask) {
                Ok(Answer::Listed { ids, .. }) if ids.len() > list => {
                    return Answer::Refused(8, ids.len() as i64);
                }
                Ok(answer) => return answer,
                Err(number) => Err(number),
            },
        };
        match done {
            Ok(()) => self.accepted(retired),
            Err(number) => self.refused(call, number),
        }
    }

    /// The answer to an open or change, before which so many had retired.
    fn accepted(&self, retired: usize) -> Answer {
        let more = match self.wrong {
            Some(Wrong::CountBefore) => self.retired.saturating_sub(retired),
            _ => 0,
        };
        Answer::Accepted((self.held.len() + more) as i64)
    }

    /// The answer to a call that is refused with this number; it changes nothing.
    fn refused(&mut self, call: &Call, number: i64) -> Answer {
        let retires = self.wrong == Some(Wrong::RefusedRetires) && number > 3;
        if let (true, Some(t)) = (retires, call.step_time()) {
            self.retire(t);
        }
        Answer::Refused(number, 0)
    }

    fn open(&mut self, t: i64) -> Result<(), i64> {
        check((0..=LAST_TIME).contains(&t), 3)?;
        *self = Ledger { now: t, ..Ledger::new(self.wrong) };
        Ok(())
    }

    fn clock(&mut self, t: i64) -> Result<(), i64> {
        self.check_time(t)?;
        self.step(t);
        Ok(())
    }

    fn add(&mut self, report: &Report) -> Result<(), i64> {
        self.check_time(report.t)?;
        check(report_in_range(report), 4)?;
        check(!self.is_left(report.id, report.t, Wrong::FreeBefore), 5)?;
        check(self.has_room(report.t), 7)?;
        self.step(report.t);
        self.place(report);
        Ok(())
    }

    fn report(&mut self, report: &Report) -> Result<(), i64> {
        self.check_time(report.t)?;
        check(report_in_range(report), 4)?;
        check(self.is_left(report.id, report.t, Wrong::HeldBefore), 6)?;
        self.step(report.t);
        self.place(report);
        Ok(())
    }

    fn drop(&mut self, id: i64, t: i64) -> Result<(), i64> {
        self.check_time(t)?;
        check(id_in_range(id), 4)?;
        check(self.is_left(id, t, Wrong::HeldBefore), 6)?;
        self.step(t);
        self.remove(id, Wrong::NarrowedDrop);
        Ok(())
    }

    /// Takes out a float. Its row stays, but by this wrong rule.
    fn remove(&mut self, id: i64, narrowing: Wrong) {
        let gone = self.held.remove(&id);
        if let (true, Some(gone)) = (self.wrong == Some(narrowing), gone) {
            let left = self.held.values();
            let left = left.filter(|held| held.phase == gone.phase && held.cell == gone.cell);
            let left: Vec<Row> = left.map(|held| Row::one(held.report.speed)).collect();
            self.rows[slot(gone.phase)][gone.cell] = bounds(&left);
        }
    }

    /// One time is never before itself, so 10 is for windows alone.
    fn check_ask(&self, ask: &Ask) -> Result<(), i64> {
        let near = self.now - ASK_BEFORE..=self.now + ASK_AFTER;
        let [first, last] = ask.when.ends();
        let good = |t| near.contains(t) && (0..=LAST_TIME).contains(t);
        check([first, last].iter().all(good), 3)?;
        let more = i64::from(self.wrong == Some(Wrong::LongWindow));
        let window = check((0..=LONGEST_WINDOW + more).contains(&(last - first)), 10);
        let numbers = check(ask_in_range(ask), 4);
        match self.wrong {
            Some(Wrong::LateWindow) => numbers.and(window),
            _ => window.and(numbers),
        }
    }

    /// The ids that an ask lists, and how many cells their floats are placed in.
    fn list(&self, ask: &Ask) -> (Vec<i64>, usize) {
        let mut ids = Vec::new();
        let mut seen = [[false; CELLS]; SLOTS];
        let mut useful = 0;
        for held in self.held.values() {
            let listed = lists(ask, &held.report, self.wrong);
            let counts = match self.wrong {
                Some(Wrong::UsefulBefore) => lists(ask, &held.report, Some(Wrong::JudgedByNow)),
                _ => listed,
            };
            ids.extend(listed.then_some(held.report.id));
            if counts {
                let seen = &mut seen[slot(held.phase)][held.cell];
                useful += usize::from(!*seen);
                *seen = true;
            }
        }
        (ids, useful)
    }

    fn ask(&self, ask: &Ask) -> Result<Answer, i64> {
        self.check_ask(ask)?;
        let (ids, useful) = self.list(ask);
        let (mut cells, mut rounds) = (0, 0);
        let three = live(self.now / PHASE).count() == SLOTS;
        let skipped = three && self.wrong == Some(Wrong::SkippedPhase);
        for phase in live(self.now / PHASE).skip(skipped.into()) {
            let chosen = self.choice(ask, phase).choose(ask.method);
            cells += chosen.cells.len();
            rounds += chosen.rounds;
        }
        Ok(Answer::Listed { ids, cells, useful, rounds })
    }

    fn choice(&self, ask: &Ask, phase: i64) -> Choice<'_> {
        let reference = match self.wrong {
            Some(Wrong::FromStart) => reference_time(phase, Some(Wrong::OldReference)),
            wrong => reference_time(phase, wrong),
        };
        Choice {
            rows: &self.rows[slot(phase)],
            rectangle: ask.rectangle,
            d: ask.when.ends().map(|time| time - reference),
            wrong: self.wrong,
        }
    }

    fn check_time(&self, t: i64) -> Result<(), i64> {
        check((self.now..=LAST_TIME).contains(&t), 3)
    }

    /// Whether a clock step to t leaves a float held that reported at this time.
    fn stays(&self, reported: i64, t: i64) -> bool {
        match self.wrong {
            Some(Wrong::NoneRetires) => true,
            Some(Wrong::RetiredByPhase) if t / PHASE == self.now / PHASE => true,
            Some(Wrong::RetiredEarly) => !is_silent(reported, t + 1),
            Some(Wrong::RetiredLate) => !is_silent(reported, t - 1),
            _ => !is_silent(reported, t),
        }
    }

    /// Whether a clock step to t leaves a float with this id, or, by this wrong
    /// rule, whether there is one before it.
    fn is_left(&self, id: i64, t: i64, before: Wrong) -> bool {
        let held = self.held.get(&id);
        held.is_some_and(|held| self.wrong == Some(before) || self.stays(held.report.t, t))
    }

    /// Whether a clock step to t leaves room for one more.
    fn has_room(&self, t: i64) -> bool {
        let before = self.wrong == Some(Wrong::FullBefore);
        let left = self.reports().filter(|report| before || self.stays(report.t, t));
        left.count() < MOST_HELD
    }

    /// The clock step to t, which is not below now: silent floats retire, then
    /// those of dead phases are placed anew.
    fn step(&mut self, t: i64) {
        if self.wrong == Some(Wrong::RetiredPlaced) {
            self.go_on(t);
            self.retire(t);
        } else {
            self.retire(t);
            self.go_on(t);
        }
    }

    /// Takes out the floats that a clock step to t does not leave.
    fn retire(&mut self, t: i64) {
        // In most steps nobody goes, which is known without a look at each float.
        if self.stays(self.oldest, t) {
            return;
        }
        let silent = self.reports().filter(|report| !self.stays(report.t, t));
        let silent: Vec<i64> = silent.map(|report| report.id).collect();
        for id in &silent {
            self.remove(*id, Wrong::NarrowedRetirement);
        }
        self.retired += silent.len();
        self.oldest = self.reports().map(|report| report.t).min().unwrap_or(self.now);
    }

    /// The time goes to t, which is not below now, with the floats that are held.
    fn go_on(&mut self, t: i64) {
        let (before, c) = (self.now / PHASE, t / PHASE);
        self.now = t;
        if c == before {
            return;
        }
        for phase in live(c).filter(|phase| *phase > before) {
            self.rows[slot(phase)].fill(Row::EMPTY);
        }
        #[cfg(test)]
        self.placements.retain(|(phase, ..)| live(c).contains(phase));
        let old = self.held.values();
        let old = old.filter(|held| !live(c).contains(&held.phase));
        let old: Vec<Report> = old.map(|held| held.report).collect();
        for report in &old {
            self.place(report);
        }
    }

    /// Holds the report and places it in the current phase.
    fn place(&mut self, report: &Report) {
        let phase = self.now / PHASE;
        let held = Held::placed(*report, phase, self.wrong);
        self.held.insert(report.id, held);
        let row = &mut self.rows[slot(phase)][held.cell];
        *row = row.join(Row::one(report.speed));
        #[cfg(test)]
        self.placements.push((phase, held.cell, report.speed));
    }
}

#[cfg(test)]
mod tests;
