//! Calls with good numbers and bad ones, for an index whose time and floats are
//! known.

use dice::Dice;
use plain_ledger::calls::{ask, falls_silent, later, next_silent, report, spoiled, Fleet, Pace};
use plain_ledger::generate::STEPS;
use plain_ledger::ledger::{Call, Ledger, Report};
use plain_ledger::limits::{LAST_ID, LAST_METHOD, LAST_TIME, MOST_HELD};
use plain_ledger::lines::{call, report_numbers};

/// How time passes from buffers of any kind on.
const FAR: &[Pace] = {
    use Pace::*;
    &[Still, Still, Still, Seconds, Minutes, Border, Jump, Silence]
};
/// How time passes in a list of calls, whose floats would else be silent all at
/// once.
const NEAR: &[Pace] = {
    use Pace::*;
    &[Still, Still, Still, Seconds, Minutes, Border, Jump]
};
/// How time passes while a list's floats become many.
const GROWING: &[Pace] = {
    use Pace::*;
    &[Still, Still, Still, Seconds, Minutes, Border]
};
/// How floats lie and move in these calls.
const FLEETS: [Fleet; 5] = {
    use Fleet::*;
    [Any, Edges, Limits, Corner, Borders]
};
/// The letter of each call.
pub const LETTERS: &[u8] = b"OCAUDQW";

/// What is known of the index that is called.
pub struct Setting {
    pub now: i64,
    pub floats: Vec<Report>,
    paces: &'static [Pace],
}

impl Setting {
    /// That of buffers of any kind.
    pub fn any(now: i64, floats: Vec<Report>) -> Setting {
        Setting { now, floats, paces: FAR }
    }

    /// That of a list of calls.
    pub fn of(ledger: &Ledger) -> Setting {
        Setting { now: ledger.now(), floats: ledger.reports().copied().collect(), paces: NEAR }
    }

    /// Any call; a sixth of them has a number that is spoiled, or two of them.
    pub fn call(&self, dice: &mut Dice) -> Call {
        let letter = dice.pick(b"OCCAAUUDDQQQQWWWW");
        let mut numbers = self.numbers(dice, letter);
        let spoiled = if dice.chance(160) { dice.range(1, 2) } else { 0 };
        for _ in 0..spoiled {
            let place = dice.below(numbers.len());
            numbers[place] = self.spoiled(dice, letter, &numbers, place);
        }
        made(letter, &numbers)
    }

    /// A call that changes the index and is most likely accepted.
    pub fn change(&self, dice: &mut Dice) -> Call {
        let letter = dice.pick(b"CAAAUUD");
        let (id, t) = (self.id(dice, letter == b'A'), self.later(dice, GROWING));
        made(letter, &step_numbers(dice, letter, id, t))
    }

    /// A change about the second in which a float falls silent. It names that float,
    /// another one or none.
    pub fn retirement(&self, dice: &mut Dice) -> Call {
        let Some(float) = next_silent(dice, self.now, self.floats.iter()) else {
            return self.change(dice);
        };
        let t = falls_silent(dice, &float).clamp(self.now, LAST_TIME);
        let letter = dice.pick(STEPS);
        let others = [self.id(dice, true), self.id(dice, false)];
        let id = dice.pick(&[float.id, float.id, others[0], others[1]]);
        made(letter, &step_numbers(dice, letter, id, t))
    }

    /// An ask or a window ask, all its numbers in range.
    pub fn ask(&self, dice: &mut Dice) -> Call {
        let letter = dice.pick(b"QW");
        self.good_call(dice, letter)
    }

    /// The call of a letter, all its numbers in range.
    pub fn good_call(&self, dice: &mut Dice, letter: u8) -> Call {
        made(letter, &self.numbers(dice, letter))
    }

    /// A length for an ask's list: often room for all, else near any length.
    pub fn list(&self, dice: &mut Dice) -> usize {
        let held = self.floats.len();
        let some = dice.below(held + 2);
        let most = MOST_HELD;
        dice.pick(&[0, 1, some, some, held, most - 1, most, most, most, 3 * most / 2])
    }

    /// Numbers in their ranges.
    fn numbers(&self, dice: &mut Dice, letter: u8) -> Vec<i64> {
        match letter {
            b'O' => vec![dice.range(0, LAST_TIME)],
            b'Q' | b'W' => {
                let method = dice.range(0, LAST_METHOD);
                [&[method], &ask(dice, self.now, letter, |dice| self.float(dice))[..]].concat()
            }
            _ => {
                let (id, t) = (self.id(dice, letter == b'A'), self.later(dice, self.paces));
                step_numbers(dice, letter, id, t)
            }
        }
    }

    /// A time not below now.
    fn later(&self, dice: &mut Dice, paces: &[Pace]) -> i64 {
        let pace = dice.pick(paces);
        later(dice, self.now, pace).max(self.now).min(LAST_TIME)
    }

    fn float(&self, dice: &mut Dice) -> Option<Report> {
        self.floats.get(dice.below(self.floats.len().max(1))).copied()
    }

    /// Mostly an id that is not held, or one that is.
    fn id(&self, dice: &mut Dice, new: bool) -> i64 {
        match self.float(dice) {
            Some(float) if !new || dice.chance(100) => float.id,
            _ => dice.range(1, LAST_ID),
        }
    }

    /// A number at an end of its range, past it, or as far out as 32 bits go.
    fn spoiled(&self, dice: &mut Dice, letter: u8, numbers: &[i64], place: usize) -> i64 {
        let (old, ends) = (numbers[place], [i32::MIN, i32::MAX].map(i64::from));
        let new = match dice.chance(600) {
            true => spoiled(dice, self.now, letter, numbers, place),
            false => dice.pick(&[ends[0], ends[1], -1, 0, old - 1, old + 1]),
        };
        new.clamp(ends[0], ends[1])
    }
}

/// The call of a letter and as many numbers as it wants.
fn made(letter: u8, numbers: &[i64]) -> Call {
    call(letter, numbers).expect("a letter and its numbers")
}

/// The numbers of a call that makes a clock step.
fn step_numbers(dice: &mut Dice, letter: u8, id: i64, t: i64) -> Vec<i64> {
    match letter {
        b'C' => vec![t],
        b'D' => vec![id, t],
        _ => report_numbers(&any_report(dice, id, t)).to_vec(),
    }
}

/// A report of a float of any fleet.
pub fn any_report(dice: &mut Dice, id: i64, t: i64) -> Report {
    let fleet = dice.pick(&FLEETS);
    report(dice, fleet, id, t)
}
