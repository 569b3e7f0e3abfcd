//! What is tried, in parts, each in some runs of its own seed.

use crate::calls::{Setting, LETTERS};
use crate::drafts::Draft;
use crate::ledgers::{is_misplaced, write};
use crate::trial::{Difference, Rules, Trial};
use buffers::{Words, HELD, KEYS, NOW, RECORD_WORDS};
use dice::Dice;
use float_index::{STORE_WORDS, TABLE_NUMBERS};
use plain_ledger::calls::start;
use plain_ledger::ledger::{Call, Ledger};
use plain_ledger::limits::{LAST_TIME, MOST_HELD, PHASE, SEA, TOP_SPEED};
use plain_ledger::methods::Wrong;

type Tried = Result<(), Difference>;

/// One way to try buffers, in so many runs; their seeds are from the first on.
pub struct Part {
    pub name: &'static str,
    pub runs: u64,
    first_seed: u64,
    act: fn(&mut Run) -> Tried,
}

const fn part(first_seed: u64, runs: u64, act: fn(&mut Run) -> Tried, name: &'static str) -> Part {
    Part { name, runs, first_seed, act }
}

pub const LISTS: Part = part(8_000, 16, Run::list, "lists of calls");
pub const RETIREMENTS: Part =
    part(12_000, 8, Run::retirements, "lists of calls in which floats retire");

/// The parts, those that find most first.
pub const PARTS: [Part; 13] = [
    part(5_000, 8, Run::flaws, "one clause broken, all else consistent"),
    part(7_000, 8, Run::sound_words, "sound words that no list need lead to"),
    part(11_000, 8, Run::silent_words, "sound words with silent floats"),
    LISTS,
    RETIREMENTS,
    part(10_000, 4, Run::old_words, "words of the old rule, placed by the start of a phase"),
    part(3_000, 8, Run::store_words, "every word of a sound store changed"),
    part(4_000, 3, Run::table_numbers, "every number of a sound table changed"),
    part(0, LENGTH_RUNS, Run::store_lengths, "every length of the store, up to 120 past its own"),
    part(
        1_000,
        LENGTH_RUNS,
        Run::table_lengths,
        "every length of the table, up to 120 past its own",
    ),
    part(2_000, 2, Run::both_lengths, "both lengths wrong, or nearly"),
    part(
        9_000,
        LENGTH_RUNS,
        Run::list_lengths,
        "every length of an ask's list, up to 120 past the most ids",
    ),
    part(6_000, 4, Run::random_words, "random words"),
];

/// The runs that share the lengths of a buffer.
const LENGTH_RUNS: u64 = 4;
/// How far past their own the lengths go that are all tried.
const PAST: usize = 120;
/// Any length is up to this.
const LONG: usize = 20_000;

/// One run of a part, seen from a seed.
pub struct Run {
    dice: Dice,
    seed: u64,
    trial: Trial,
}

impl Run {
    /// Tries a part's buffers with this seed.
    pub fn go(part: &Part, seed: u64, rules: Rules) -> (Trial, Tried) {
        let dice = Dice::new(part.first_seed + seed);
        let mut run = Run { dice, seed, trial: Trial::new(rules) };
        let tried = (part.act)(&mut run);
        (run.trial, tried)
    }

    /// A sound index of a size that goes by the seed.
    fn base(&mut self) -> (Words, Setting) {
        let sizes = [20, MOST_HELD, 1, 200, MOST_HELD - 1, 0, 5, 600];
        let draft = Draft::any(&mut self.dice, sizes[self.seed as usize % sizes.len()]);
        (draft.words(), draft.setting())
    }

    fn try_any(&mut self, words: &Words, setting: &Setting) -> Tried {
        let call = setting.call(&mut self.dice);
        let list = setting.list(&mut self.dice);
        self.trial.call(words, &call, list)
    }

    /// A run's lengths from the longest down; all runs together take each once.
    fn lengths(&self, longest: usize) -> impl Iterator<Item = usize> {
        (self.seed as usize..longest + 1).step_by(LENGTH_RUNS as usize).rev()
    }

    fn store_lengths(&mut self) -> Tried {
        let (mut words, setting) = self.base();
        words.store.resize(STORE_WORDS + PAST, 0);
        for length in self.lengths(words.store.len()) {
            words.store.truncate(length);
            self.try_any(&words, &setting)?;
        }
        Ok(())
    }

    fn table_lengths(&mut self) -> Tried {
        let (mut words, setting) = self.base();
        words.table.resize(TABLE_NUMBERS + PAST, TOP_SPEED as i16 + 1);
        for length in self.lengths(words.table.len()) {
            words.table.truncate(length);
            self.try_any(&words, &setting)?;
        }
        Ok(())
    }

    fn both_lengths(&mut self) -> Tried {
        let (mut words, setting) = self.base();
        words.store.resize(LONG, 0);
        words.table.resize(LONG, TOP_SPEED as i16 + 1);
        let (s, t) = (STORE_WORDS, TABLE_NUMBERS);
        for _ in 0..1_500 {
            let any = [0; 2].map(|_| self.dice.below(LONG + 1));
            let store = self.dice.pick(&[0, 1, RECORD_WORDS, s - 1, s, s + 1, t, any[0]]);
            let table = self.dice.pick(&[0, 1, 4, t - 1, t, t + 1, s, any[1]]);
            let (store, table) = (words.store[..store].to_vec(), words.table[..table].to_vec());
            self.try_any(&Words { store, table }, &setting)?;
        }
        Ok(())
    }

    fn list_lengths(&mut self) -> Tried {
        let (words, setting) = self.base();
        for length in self.lengths(MOST_HELD + PAST) {
            let ask = setting.ask(&mut self.dice);
            self.trial.call(&words, &ask, length)?;
        }
        Ok(())
    }

    /// Another word in place of a word.
    fn other(&mut self, word: i64, bits: u32) -> i64 {
        let sign = 1 << (bits - 1);
        let any = self.dice.range(-sign, sign - 1);
        let near = word + self.dice.range(-9, 9);
        let new = self.dice.pick(&[word + 1, word - 1, word ^ -sign, 0, any, near, -word]);
        new.clamp(-sign, sign - 1)
    }

    fn store_words(&mut self) -> Tried {
        let (mut words, setting) = self.base();
        for place in 0..STORE_WORDS {
            let old = words.store[place];
            words.store[place] = self.other(old.into(), 32) as i32;
            self.try_any(&words, &setting)?;
            words.store[place] = old;
        }
        Ok(())
    }

    fn table_numbers(&mut self) -> Tried {
        let (mut words, setting) = self.base();
        for place in 0..TABLE_NUMBERS {
            let old = words.table[place];
            words.table[place] = self.other(old.into(), 16) as i16;
            self.try_any(&words, &setting)?;
            words.table[place] = old;
        }
        Ok(())
    }

    fn flaws(&mut self) -> Tried {
        for _ in 0..150 {
            let floats = self.dice.pick(&[1, 2, 3, 10, 40, MOST_HELD]);
            let draft = Draft::any(&mut self.dice, floats);
            let setting = draft.setting();
            for _ in 0..12 {
                let words = draft.flawed(&mut self.dice);
                self.try_any(&words, &setting)?;
            }
        }
        Ok(())
    }

    fn sound_words(&mut self) -> Tried {
        for _ in 0..150 {
            let floats = self.dice.pick(&[0, 1, 3, 30, 30, 300, MOST_HELD]);
            let draft = Draft::any(&mut self.dice, floats);
            let (words, setting) = (draft.words(), draft.setting());
            for _ in 0..12 {
                self.try_any(&words, &setting)?;
            }
        }
        Ok(())
    }

    /// Words with floats that are silent, or will be when the next call is made. Every
    /// call is tried on them, and more of those that retire floats or list them.
    fn silent_words(&mut self) -> Tried {
        for _ in 0..100 {
            let floats = self.dice.pick(&[1, 2, 3, 10, 30, 300, MOST_HELD, MOST_HELD]);
            let draft = Draft::silent(&mut self.dice, floats);
            let (words, setting) = (draft.words(), draft.setting());
            for letter in LETTERS {
                let call = setting.good_call(&mut self.dice, *letter);
                let list = setting.list(&mut self.dice);
                self.trial.call(&words, &call, list)?;
            }
            for _ in 0..8 {
                let step = setting.retirement(&mut self.dice);
                self.trial.call(&words, &step, 0)?;
                let ask = setting.ask(&mut self.dice);
                self.trial.call(&words, &ask, MOST_HELD)?;
                self.try_any(&words, &setting)?;
            }
        }
        Ok(())
    }

    /// Words that an index of the old rule left. They are unsound where the rule
    /// shows: a float is in another cell at the start of its phase than at its
    /// reference time.
    fn old_words(&mut self) -> Tried {
        let mut counts = [0; 2];
        for number in 0..100 {
            let ledger = self.old_ledger(number % 2 == 0);
            let (words, setting) = (write(&ledger), Setting::of(&ledger));
            for letter in LETTERS {
                let call = setting.good_call(&mut self.dice, *letter);
                let list = setting.list(&mut self.dice);
                self.trial.call(&words, &call, list)?;
            }
            let shows = is_misplaced(&ledger);
            if shows == self.trial.rules().sound.holds(&words) {
                return Err(Difference(format!("words of the old rule, which shows: {shows}")));
            }
            counts[usize::from(shows)] += 1;
        }
        match counts.contains(&0) {
            true => Err(Difference("the old rule shows always or never".into())),
            false => Ok(()),
        }
    }

    /// A ledger of the old rule after some changes. Floats at rest do not show it.
    fn old_ledger(&mut self, at_rest: bool) -> Ledger {
        let mut ledger = Ledger::new(Some(Wrong::OldReference));
        let t = start(&mut self.dice, 0);
        ledger.call(&Call::Open { t }, 0);
        for _ in 0..self.dice.pick(&[1, 2, 3, 10, 100]) {
            let mut call = Setting::of(&ledger).change(&mut self.dice);
            if let (true, Call::Add(report) | Call::Report(report)) = (at_rest, &mut call) {
                report.speed = [0; 2];
            }
            ledger.call(&call, 0);
        }
        ledger
    }

    /// Words of any kind: all random, in narrow ranges, or with a sound head.
    fn random_words(&mut self) -> Tried {
        for number in 0..1_000 {
            let narrow = [i64::MAX, SEA, KEYS as i64, 1][number % 4];
            let dice = &mut self.dice;
            let mut word = || dice.bits() as i64 % narrow;
            let mut store: Vec<i32> = (0..STORE_WORDS).map(|_| word() as i32).collect();
            let table: Vec<i16> = (0..TABLE_NUMBERS).map(|_| word() as i16).collect();
            if number % 3 == 0 {
                store[..RECORD_WORDS].fill(0);
                store[HELD] = self.dice.range(0, MOST_HELD as i64) as i32;
                store[NOW] = self.dice.range(0, LAST_TIME) as i32;
            }
            let now = i64::from(store[NOW]).clamp(0, LAST_TIME);
            self.try_any(&Words { store, table }, &Setting::any(now, Vec::new()))?;
        }
        Ok(())
    }

    /// A list of calls after an open, the words of each handed to the next.
    fn list(&mut self) -> Tried {
        self.list_with(0)
    }

    /// Such a list, in which time goes on from one retirement to the next.
    fn retirements(&mut self) -> Tried {
        self.list_with(150)
    }

    /// Such a list, with retirements so often in a thousand calls.
    fn list_with(&mut self, retirements: i64) -> Tried {
        let mut ledger = Ledger::new(self.trial.rules().wrong);
        let most = [30, 3, 100, MOST_HELD][self.seed as usize % 4];
        let t = PHASE * self.dice.range(0, 4) + self.dice.range(0, PHASE - 1);
        let words = write(&ledger);
        let mut words = self.trial.next(&mut ledger, words, &Call::Open { t }, 0)?;
        words = self.fill(&mut ledger, words, most)?;
        for _ in 0..1_000 {
            words = if ledger.held().len() < most && self.dice.chance(300) {
                self.next_call(&mut ledger, words, Setting::change)?
            } else if self.dice.chance(retirements) {
                let words = self.fill(&mut ledger, words, most)?;
                self.next_call(&mut ledger, words, Setting::retirement)?
            } else {
                self.next_call(&mut ledger, words, Setting::call)?
            };
        }
        Ok(())
    }

    /// Changes of a list until so many are held, where these are many.
    fn fill(
        &mut self,
        ledger: &mut Ledger,
        mut words: Words,
        most: usize,
    ) -> Result<Words, Difference> {
        while ledger.held().len() < most && most > 100 {
            words = self.next_call(ledger, words, Setting::change)?;
        }
        Ok(words)
    }

    fn next_call(
        &mut self,
        ledger: &mut Ledger,
        words: Words,
        call: fn(&Setting, &mut Dice) -> Call,
    ) -> Result<Words, Difference> {
        let setting = Setting::of(ledger);
        let dice = &mut self.dice;
        let mut call = call(&setting, dice);
        let list = setting.list(dice);
        // An open would empty the index, and a list has few of them.
        if matches!(call, Call::Open { .. }) && !dice.chance(30) {
            call = Call::Clock { t: ledger.now() };
        }
        self.trial.next(ledger, words, &call, list)
    }
}
