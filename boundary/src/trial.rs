//! One buffer tried: lent to a call, and the reply and all three buffers
//! afterwards compared with what documents 01 and 02 say.

use crate::ledgers::{read, small, told, write};
use crate::sound::Sound;
use buffers::Words;
use float_index::{refusal, Rectangle, Reply};
use plain_ledger::ledger::{is_silent, Answer, Call, Ledger, When};
use plain_ledger::methods::Wrong;

/// The rules that the index is compared with: the documents', or wrong ones.
#[derive(Clone, Copy)]
pub struct Rules {
    pub sound: Sound,
    pub wrong: Option<Wrong>,
}

/// What differed.
#[derive(Debug)]
pub struct Difference(pub String);

/// Numbers lent with a margin on either side that no call may touch.
struct Lent<T> {
    all: Vec<T>,
    margin: T,
}

const MARGIN: usize = 8;

impl<T: Copy + PartialEq> Lent<T> {
    fn new(margin: T) -> Lent<T> {
        Lent { all: Vec::new(), margin }
    }

    fn fill(&mut self, numbers: &[T]) {
        self.all.clear();
        self.all.extend([self.margin; MARGIN]);
        self.all.extend_from_slice(numbers);
        self.all.extend([self.margin; MARGIN]);
    }

    fn lend(&mut self) -> &mut [T] {
        let end = self.all.len() - MARGIN;
        &mut self.all[MARGIN..end]
    }

    /// Whether it holds these numbers and its margins are as they were.
    fn holds(&self, numbers: &[T]) -> bool {
        let (front, rest) = self.all.split_at(MARGIN);
        let (inside, back) = rest.split_at(rest.len() - MARGIN);
        inside == numbers && front.iter().chain(back).all(|n| *n == self.margin)
    }
}

/// What a call should give back and leave.
struct Expected {
    reply: Reply,
    /// The store and the table, where they change.
    words: Option<Words>,
    /// The ids in front of the list, where it changes.
    ids: Vec<u16>,
}

/// A count for each number that a call gives, up to the greatest.
pub type Given = [usize; refusal::BAD_WINDOW + 1];
/// The number below the greatest that no call gives: a line's that is no call.
pub const NO_CALL: usize = 9;

/// How often silent floats came up on sound buffers.
#[derive(Clone, Copy, Default)]
pub struct Silent {
    /// Floats that retired.
    pub floats: usize,
    /// Calls in which floats retired.
    pub steps: usize,
    /// Asks that listed a silent float.
    pub asks: usize,
    /// Refused changes at whose time a float was silent.
    pub refused: usize,
}

impl Silent {
    /// Counts what came of a call, before which so many had retired.
    fn count(&mut self, ledger: &Ledger, retired: usize, call: &Call, answer: &Answer) {
        let gone = ledger.retired().saturating_sub(retired);
        self.floats += gone;
        self.steps += usize::from(gone > 0);
        let t = call.step_time().unwrap_or(ledger.now());
        let mut silent = ledger.reports().filter(|report| is_silent(report.t, t));
        match answer {
            Answer::Listed { ids, .. } => {
                self.asks += usize::from(silent.any(|report| ids.contains(&report.id)));
            }
            Answer::Refused(..) if call.step_time().is_some() => {
                self.refused += usize::from(silent.next().is_some());
            }
            _ => {}
        }
    }

    pub fn all(&self) -> [usize; 4] {
        [self.floats, self.steps, self.asks, self.refused]
    }
}

impl std::ops::AddAssign for Silent {
    fn add_assign(&mut self, other: Silent) {
        self.floats += other.floats;
        self.steps += other.steps;
        self.asks += other.asks;
        self.refused += other.refused;
    }
}

pub struct Trial {
    rules: Rules,
    store: Lent<i32>,
    table: Lent<i16>,
    list: Lent<u16>,
    /// Buffers tried so far, by the number that the call on them gave.
    pub given: Given,
    pub silent: Silent,
}

impl Trial {
    pub fn new(rules: Rules) -> Trial {
        Trial {
            rules,
            store: Lent::new(-77),
            table: Lent::new(-77),
            list: Lent::new(777),
            given: Given::default(),
            silent: Silent::default(),
        }
    }

    pub fn tried(&self) -> usize {
        self.given.iter().sum()
    }

    pub fn rules(&self) -> Rules {
        self.rules
    }

    /// Buffers of any length and content, with a list of so many ids.
    pub fn call(&mut self, words: &Words, call: &Call, list: usize) -> Result<(), Difference> {
        let long = words.have_lengths();
        let sound = long && self.rules.sound.holds(words);
        if float_index::is_sound(&words.store, &words.table) != sound {
            return Err(Difference(format!("soundness, expected {sound}")));
        }
        let open = matches!(call, Call::Open { .. });
        let expected = if !long {
            refused(refusal::WRONG_LENGTH, 0)
        } else if !sound && !open {
            refused(refusal::UNSOUND, 0)
        } else {
            let wrong = self.rules.wrong;
            let mut ledger = match open {
                true => Ledger::new(wrong),
                false => read(words, wrong),
            };
            self.expected(&mut ledger, call, list)
        };
        self.compare(words, call, list, &expected)
    }

    /// The next call of a list, whose ledger runs along. Gives the words after.
    pub fn next(
        &mut self,
        ledger: &mut Ledger,
        before: Words,
        call: &Call,
        list: usize,
    ) -> Result<Words, Difference> {
        if !self.rules.sound.holds(&before) {
            return Err(Difference("a list of calls led to unsound words".into()));
        }
        let expected = self.expected(ledger, call, list);
        self.compare(&before, call, list, &expected)?;
        Ok(expected.words.unwrap_or(before))
    }

    /// What the ledger says of a call on sound buffers.
    fn expected(&mut self, ledger: &mut Ledger, call: &Call, list: usize) -> Expected {
        let retired = ledger.retired();
        let answer = ledger.call(call, list);
        self.silent.count(ledger, retired, call, &answer);
        match answer {
            Answer::Refused(number, value) => Expected {
                // By the right rules nobody has retired, and no word changes.
                words: (ledger.retired() > retired).then(|| write(ledger)),
                ..refused(number as usize, value as usize)
            },
            Answer::Accepted(held) => {
                Expected { words: Some(write(ledger)), ..refused(0, held as usize) }
            }
            Answer::Listed { ids, cells, useful, rounds } => Expected {
                reply: Reply { number: 0, value: ids.len(), cells, useful, rounds },
                words: None,
                ids: ids.iter().map(|id| *id as u16).collect(),
            },
        }
    }

    fn compare(
        &mut self,
        before: &Words,
        call: &Call,
        list: usize,
        expected: &Expected,
    ) -> Result<(), Difference> {
        let mut ids: Vec<u16> = (0..list).map(|i| (31 * i + 5) as u16).collect();
        self.store.fill(&before.store);
        self.table.fill(&before.table);
        self.list.fill(&ids);
        let reply = run(call, self.store.lend(), self.table.lend(), self.list.lend());
        ids[..expected.ids.len()].copy_from_slice(&expected.ids);
        let after = expected.words.as_ref().unwrap_or(before);
        self.given[reply.number.min(refusal::BAD_WINDOW)] += 1;
        let what = if reply != expected.reply {
            format!("reply {reply:?}, expected {:?}", expected.reply)
        } else if !self.store.holds(&after.store) {
            "the store after the call".into()
        } else if !self.table.holds(&after.table) {
            "the table after the call".into()
        } else if !self.list.holds(&ids) {
            "the list after the call".into()
        } else {
            return Ok(());
        };
        Err(Difference(format!("{what}; {call:?} with a list of {list}")))
    }
}

fn refused(number: usize, value: usize) -> Expected {
    let reply = Reply { number, value, ..Reply::default() };
    Expected { reply, words: None, ids: Vec::new() }
}

/// Makes the call of the index.
fn run(call: &Call, store: &mut [i32], table: &mut [i16], list: &mut [u16]) -> Reply {
    match call {
        Call::Open { t } => float_index::open(store, table, small(*t)),
        Call::Clock { t } => float_index::clock(store, table, small(*t)),
        Call::Add(s) => float_index::add(store, table, told(s)),
        Call::Report(s) => float_index::report(store, table, told(s)),
        Call::Drop { id, t } => float_index::drop(store, table, small(*id), small(*t)),
        Call::Ask(ask) => {
            let [low_x, low_y] = ask.rectangle.low.map(small);
            let [high_x, high_y] = ask.rectangle.high.map(small);
            let rectangle = Rectangle { low_x, low_y, high_x, high_y };
            let method = small(ask.method);
            let [first, last] = ask.when.ends().map(small);
            match ask.when {
                When::At(_) => float_index::ask(store, table, list, method, first, rectangle),
                When::During { .. } => {
                    float_index::ask_window(store, table, list, method, first, last, rectangle)
                }
            }
        }
    }
}
