//! Lists of call lines from fixed seeds.
//!
//! Each list has a style: how its floats lie and move, how time passes, how
//! many are held, how often it asks, damages a line, breaks a rule, reopens or
//! goes to the second in which a float falls silent.
//! A ledger runs along, so that most calls are accepted and asks can aim at
//! floats. The same number always gives the same lists.

use crate::calls::{ask, falls_silent, later, next_silent, report, spoiled, start};
use crate::calls::{Fleet, Pace};
use crate::ledger::{Ledger, Report};
use crate::limits::{LAST_ID, LAST_METHOD, LAST_TIME, MOST_HELD, SEA, TOP_SPEED};
use crate::lines::{report_numbers, write_line, COLUMNS, LONGEST};
use crate::stream::{answers, Stream};
use dice::Dice;

/// A list of lines, as the bytes of a file, the ledger's answers to it, and what
/// retires in it.
pub struct List {
    pub style: &'static str,
    pub input: Vec<u8>,
    pub answers: Vec<u8>,
    pub retired: Retired,
}

/// The letters of the calls that make a clock step.
pub const STEPS: &[u8; 4] = b"CAUD";

/// The floats that retire, and the calls in which some do, by letter.
#[derive(Clone, Copy, Default)]
pub struct Retired {
    pub floats: usize,
    pub calls: [usize; STEPS.len()],
}

impl Retired {
    /// So many more floats, in a call of this letter.
    fn count(&mut self, letter: u8, floats: usize) {
        let steps = STEPS.iter().zip(&mut self.calls);
        let own = steps.filter(|(step, _)| **step == letter && floats > 0);
        own.for_each(|(_, calls)| *calls += 1);
        self.floats += floats;
    }
}

impl std::ops::AddAssign for Retired {
    fn add_assign(&mut self, other: Retired) {
        self.floats += other.floats;
        self.calls.iter_mut().zip(other.calls).for_each(|(sum, calls)| *sum += calls);
    }
}

#[derive(Clone, Copy)]
struct Style {
    name: &'static str,
    fleet: Fleet,
    held: usize,
    paces: &'static [Pace],
    /// Each so often in a thousand lines; windows in a thousand asks.
    asks: i64,
    windows: i64,
    damage: i64,
    refusals: i64,
    reopen: i64,
    retirements: i64,
}

#[rustfmt::skip]
const STYLES: [Style; 21] = {
    use Fleet::*;
    use Pace::*;
    const fn style(name: &'static str, fleet: Fleet, held: usize, paces: &'static [Pace]) -> Style {
        Style { name, fleet, held, paces, asks: 500, windows: 300, damage: 10, refusals: 20, reopen: 1, retirements: 0 }
    }
    [
        style("mixed", Any, 60, &[Still, Seconds, Seconds, Seconds, Minutes, Border, Jump]),
        Style { retirements: 100, ..style("retirements", FewFast, 30, &[Still, Still, Seconds, Minutes, Border]) },
        Style { retirements: 300, ..style("retirements, limits", Limits, 5, &[Still, Seconds, Border, Jump]) },
        style("phase borders", Any, 25, &[Still, Still, Still, Border]),
        style("jumps", Any, 40, &[Still, Still, Still, Still, Seconds, Jump]),
        style("silences", Any, 30, &[Still, Still, Still, Still, Still, Minutes, Border, Silence]),
        Style { refusals: 100, reopen: 10, ..style("end of time", Limits, 20, &[Still, Seconds, Minutes, Minutes, End]) },
        style("edges", Edges, 30, &[Still, Still, Seconds, Minutes, Border]),
        style("edges, jumps", Edges, 15, &[Still, Still, Still, Jump, Minutes]),
        style("few fast", FewFast, 150, &[Still, Seconds, Seconds, Seconds, Minutes]),
        style("graded", Graded, 300, &[Still, Still, Seconds]),
        style("limits", Limits, 12, &[Still, Still, Seconds, Border, Jump]),
        style("sparse", Corner, 5, &[Still, Still, Minutes, Border]),
        Style { asks: 250, reopen: 0, ..style("full store", Any, MOST_HELD, &[Still, Still, Still, Seconds, Seconds, Minutes, Border]) },
        Style { windows: 1_000, ..style("windows", Any, 40, &[Still, Still, Seconds, Minutes, Border, Jump]) },
        Style { windows: 1_000, ..style("windows, edges", Edges, 30, &[Still, Still, Minutes, Border]) },
        Style { windows: 1_000, refusals: 300, ..style("windows, limits", Limits, 12, &[Still, Still, Seconds, Border, Jump, End]) },
        Style { damage: 500, ..style("damaged lines", Any, 30, &[Seconds, Minutes]) },
        Style { refusals: 600, reopen: 20, ..style("refusals, reopenings", Limits, 8, &[Still, Minutes, Border]) },
        style("cell borders", Borders, 8, &[Still, Still, Minutes, Border]),
        Style { asks: 250, reopen: 0, retirements: 250, ..style("retirements, full", FewFast, MOST_HELD, &[Still, Still, Still, Seconds]) },
    ]
};

/// Texts for a number that are no number, and the two numbers at the limits.
const BAD_NUMBERS: &str = "+5|-0|007|00|-||-05|--5|- 5|1 2|5-|0x5|5.0|1e3|1,000|\t5|\
    2147483648|4294967301|9999999999|0000000000|-000000001|5         |2147483647|-999999999";

/// Lines in a list of a style.
const LINES: usize = 2_500;

/// The lists of a run: every style under this many seeds, and the short ones.
pub fn lists(seeds: u64) -> impl Iterator<Item = List> {
    let styled = (0..seeds).flat_map(|seed| {
        let styles = STYLES.iter().zip(1..);
        styles.map(move |(style, number)| Maker::new(seed * 1_000 + number).list(style))
    });
    short_lists().into_iter().chain(styled)
}

/// Inputs about beginnings and ends, newlines and lengths.
fn short_lists() -> Vec<List> {
    let listing = crate::LISTING.0.as_bytes();
    let unended = &listing[..listing.len() - 1];
    let line = b"O         0";
    let mut inputs = vec![
        Vec::new(),
        b"\n".to_vec(),
        b"\n\n".to_vec(),
        b"\r\n".to_vec(),
        b" ".to_vec(),
        b"?".to_vec(),
        line.to_vec(),
        listing.to_vec(),
        unended.to_vec(),
        String::from_utf8_lossy(listing).replace('\n', "\r\n").into_bytes(),
        [listing, b"\n", listing, b"\n\n", unended].concat(),
        (0..=255).collect(),
    ];
    let about_longest = LONGEST - 1..LONGEST + 4;
    for length in [10, 61, 4_096, 65_536, 1_000_000].into_iter().chain(about_longest) {
        for fill in [b' ', b'0', b'Q', 0] {
            let long = vec![fill; length];
            inputs.push([listing, &long, b"\n", line].concat());
            inputs.push([listing, line, &long, b"\n", listing, &long].concat());
        }
    }
    let style = "short";
    let retired = Retired::default();
    let list = |input: Vec<u8>| List { style, answers: answers(&input, None), input, retired };
    inputs.into_iter().map(list).collect()
}

/// A file of 200,000 report lines over a full fleet.
pub fn many_reports() -> Vec<u8> {
    let mut maker = Maker::new(1_000_001);
    maker.settle(MOST_HELD, Fleet::Any, Pace::Still);
    for t in 0..200_000 {
        let id = maker.held_id();
        maker.sight(b'U', Fleet::Any, id, t);
    }
    maker.input
}

/// A file of 20,000 optimal asks, timeslices (`Q`) or windows (`W`), of a full
/// fleet in three phases.
pub fn many_asks(letter: u8) -> Vec<u8> {
    let mut maker = Maker::new(1_000_002);
    maker.settle(MOST_HELD, Fleet::Any, Pace::Still);
    for number in 0..MOST_HELD as i64 {
        let id = maker.held_id();
        maker.sight(b'U', Fleet::Any, id, 10 * number);
    }
    for _ in 0..20_000 {
        let numbers = maker.ask_numbers(letter);
        maker.put_ask(letter, LAST_METHOD, &numbers);
    }
    maker.input
}

struct Maker {
    dice: Dice,
    input: Vec<u8>,
    lines: usize,
    mirror: Stream,
    answers: Vec<u8>,
    retired: Retired,
    /// The float that fell silent last, or will next, for asks to aim at.
    silent: Option<Report>,
}

impl Maker {
    fn new(seed: u64) -> Maker {
        Maker {
            dice: Dice::new(seed),
            input: Vec::new(),
            lines: 0,
            mirror: Stream::new(None),
            answers: Vec::new(),
            retired: Retired::default(),
            silent: None,
        }
    }

    fn raw(&mut self, line: &[u8]) {
        let before = self.mirror.ledger().retired();
        self.input.extend_from_slice(line);
        self.mirror.feed(line, &mut self.answers);
        self.lines += 1;
        // An open counts from 0 again.
        let after = self.mirror.ledger().retired();
        self.retired.count(line[0], after.saturating_sub(before));
    }

    fn put(&mut self, letter: u8, numbers: &[i64]) {
        let mut line = Vec::new();
        write_line(letter, numbers, &mut line);
        self.raw(&line);
    }

    /// A report, or an add, of a float that lies and moves so.
    fn sight(&mut self, letter: u8, fleet: Fleet, id: i64, t: i64) {
        let report = report(&mut self.dice, fleet, id, t);
        self.put(letter, &report_numbers(&report));
    }

    /// An ask or a window ask, by its numbers after the method.
    fn put_ask(&mut self, letter: u8, method: i64, numbers: &[i64]) {
        self.put(letter, &[&[method], numbers].concat());
    }

    fn now(&self) -> i64 {
        self.mirror.ledger().now()
    }

    fn held(&self) -> usize {
        self.mirror.ledger().reports().len()
    }

    fn list(mut self, style: &Style) -> List {
        if style.held == MOST_HELD {
            let pace = if style.retirements > 0 { Pace::Minutes } else { Pace::Still };
            self.fill_up(style.fleet, pace);
        } else if self.dice.chance(700) {
            self.reopen();
        }
        // Adds come between asks, so a large fleet has a longer list.
        let lines = LINES + 2 * style.held;
        while self.lines < lines {
            self.turn(style);
        }
        if self.dice.chance(500) {
            self.input.pop();
        }
        let Maker { input, answers, retired, .. } = self;
        List { style: style.name, input, answers, retired }
    }

    /// One or a few lines in a style.
    fn turn(&mut self, style: &Style) {
        if self.dice.chance(style.reopen) {
            self.reopen();
        } else if self.dice.chance(style.damage) {
            self.damage(style.fleet);
        } else if self.dice.chance(style.refusals) {
            self.refusal(style.fleet);
        } else if self.dice.chance(style.retirements) {
            self.retirement(style);
        } else if self.dice.chance(style.asks) {
            self.ask(style);
        } else {
            self.change(style);
        }
    }

    fn reopen(&mut self) {
        let t = start(&mut self.dice, self.mirror.ledger().now());
        self.put(b'O', &[t]);
    }

    fn later(&mut self, paces: &[Pace]) -> i64 {
        let now = self.now();
        let pace = self.dice.pick(paces);
        let t = later(&mut self.dice, now, pace);
        if t > LAST_TIME && self.dice.chance(100) {
            self.reopen();
            return self.now();
        }
        t.min(LAST_TIME).max(now)
    }

    fn change(&mut self, style: &Style) {
        let t = self.later(style.paces);
        let kind = self.dice.range(0, 19);
        match kind {
            0..=11 | 18 if kind == 18 || self.held() < style.held => {
                let id = self.new_id();
                self.sight(b'A', style.fleet, id, t);
            }
            0..=15 => {
                let id = self.held_id();
                self.sight(b'U', style.fleet, id, t);
            }
            16..=17 => {
                let id = self.held_id();
                self.put(b'D', &[id, t]);
            }
            _ => self.put(b'C', &[t]),
        }
    }

    /// A change about the second in which a float falls silent, or two of them, a
    /// second apart. It names that float, another one or none. A full store is full
    /// again before that.
    fn retirement(&mut self, style: &Style) {
        if style.held == MOST_HELD {
            self.settle(MOST_HELD, style.fleet, Pace::Still);
        }
        let ledger = self.mirror.ledger();
        let next = next_silent(&mut self.dice, ledger.now(), ledger.reports());
        let Some(float) = next else {
            return self.change(style);
        };
        let t = falls_silent(&mut self.dice, &float).max(self.now());
        if t >= LAST_TIME {
            return self.reopen();
        }
        self.silent = Some(float);
        let letter = self.dice.pick(STEPS);
        let others = [self.held_id(), self.new_id()];
        let id = self.dice.pick(&[float.id, float.id, others[0], others[1]]);
        for t in t..=t + self.dice.range(0, 1) {
            let mut numbers = self.step_numbers(letter, style.fleet, id, t);
            if self.dice.chance(50) {
                let place = self.dice.below(numbers.len());
                numbers[place] = spoiled(&mut self.dice, t, letter, &numbers, place);
            }
            self.put(letter, &numbers);
        }
    }

    /// The numbers of a call that makes a clock step.
    fn step_numbers(&mut self, letter: u8, fleet: Fleet, id: i64, t: i64) -> Vec<i64> {
        match letter {
            b'C' => vec![t],
            b'D' => vec![id, t],
            _ => report_numbers(&report(&mut self.dice, fleet, id, t)).to_vec(),
        }
    }

    /// An id that is most likely not held.
    fn new_id(&mut self) -> i64 {
        match self.dice.range(0, 3) {
            0 => self.dice.range(1, 60),
            1 => LAST_ID - self.dice.range(0, 60),
            _ => self.dice.range(1, LAST_ID),
        }
    }

    /// A held id; any id when none is held.
    fn held_id(&mut self) -> i64 {
        let report = any_held(self.mirror.ledger(), &mut self.dice);
        report.map_or(1, |report| report.id)
    }

    fn ask(&mut self, style: &Style) {
        let letter = if self.dice.chance(style.windows) { b'W' } else { b'Q' };
        let numbers = self.ask_numbers(letter);
        let any = match self.dice.range(0, 2) {
            0 => 0..=LAST_METHOD,
            _ => {
                let method = self.dice.range(0, LAST_METHOD);
                method..=method
            }
        };
        any.for_each(|method| self.put_ask(letter, method, &numbers));
    }

    fn ask_numbers(&mut self, letter: u8) -> Vec<i64> {
        let (ledger, silent) = (self.mirror.ledger(), self.silent);
        let aim = |dice: &mut Dice| match silent {
            Some(_) if dice.chance(250) => silent,
            _ => any_held(ledger, dice),
        };
        ask(&mut self.dice, ledger.now(), letter, aim)
    }

    /// The letter and numbers of a call in range.
    fn any_call(&mut self, fleet: Fleet) -> (u8, Vec<i64>) {
        let letter = self.dice.pick(b"OCDAAUUQQWW");
        let t = self.later(&[Pace::Still, Pace::Seconds]);
        let numbers = match letter {
            b'O' => vec![t],
            b'Q' | b'W' => {
                let numbers = self.ask_numbers(letter);
                [&[self.dice.range(0, LAST_METHOD)], &numbers[..]].concat()
            }
            _ => {
                let id = self.held_id();
                self.step_numbers(letter, fleet, id, t)
            }
        };
        (letter, numbers)
    }

    /// A call with one or two numbers that are wrong, or nearly so, or with an
    /// id that is held or not held against the rule.
    fn refusal(&mut self, fleet: Fleet) {
        let (letter, mut numbers) = self.any_call(fleet);
        let now = self.now();
        if self.dice.chance(300) && matches!(letter, b'A' | b'U' | b'D') {
            numbers[0] = self.new_id();
        }
        for _ in 0..self.dice.range(0, 2) {
            let place = self.dice.below(numbers.len());
            numbers[place] = spoiled(&mut self.dice, now, letter, &numbers, place);
        }
        self.put(letter, &numbers);
    }

    /// A line with something wrong in its form.
    fn damage(&mut self, fleet: Fleet) {
        let (letter, numbers) = self.any_call(fleet);
        let mut line = Vec::new();
        write_line(letter, &numbers, &mut line);
        line.pop();
        let dice = &mut self.dice;
        let field = 1 + COLUMNS * dice.below(numbers.len());
        let place = dice.below(line.len());
        let byte = dice.range(0, 255) as u8;
        match dice.range(0, 15) {
            0 => line[0] = byte,
            1 => line[0] = dice.pick(b"ocadquwBR?0 "),
            2 => line[place] = byte,
            3 => line.truncate(place),
            4 => line.insert(place, dice.pick(b" 0-")),
            5 => drop(line.remove(place)),
            6 => line.push(dice.pick(b" \r\t0\0")),
            7 => line.extend_from_slice(b"         0"),
            8 => line.truncate(line.len() - COLUMNS),
            9 => line[field..field + COLUMNS].rotate_left(1),
            10 => line.resize(LONGEST + dice.range(1, 139) as usize, dice.pick(b" 0x")),
            11 => line.resize(LONGEST + dice.range(0, 3) as usize, b' '),
            _ => {
                let texts: Vec<&str> = BAD_NUMBERS.split('|').collect();
                let text = dice.pick(&texts);
                line.splice(field..field + COLUMNS, format!("{text:>10}").into_bytes());
            }
        }
        line.push(b'\n');
        self.raw(&line);
    }

    /// Adds floats at this pace until so many are held.
    fn settle(&mut self, held: usize, fleet: Fleet, pace: Pace) {
        while self.held() < held {
            let id = self.new_id();
            if self.mirror.ledger().reports().all(|report| report.id != id) {
                let t = self.later(&[pace]);
                self.sight(b'A', fleet, id, t);
            }
        }
    }

    /// The full store and the one float too many.
    fn fill_up(&mut self, fleet: Fleet, pace: Pace) {
        self.settle(MOST_HELD - 1, fleet, pace);
        for _ in 0..8 {
            self.settle(MOST_HELD, fleet, pace);
            let ids: Vec<i64> = self.mirror.ledger().reports().map(|r| r.id).collect();
            let free = (1..=LAST_ID).rfind(|id| !ids.contains(id)).unwrap_or(0);
            let held = self.held_id();
            let now = self.now();
            self.put(b'A', &[free, now, 1, 1, 0, 0]);
            self.put(b'A', &[free, now + 40_000, 1, 1, 0, 0]);
            self.put(b'A', &[held, now, 1, 1, 0, 0]);
            self.put(b'A', &[free, now, 1, 1, 0, TOP_SPEED + 1]);
            self.put(b'A', &[free, -1, 1, 1, 0, TOP_SPEED + 1]);
            self.put(b'U', &[held, now, 1, 1, 0, 0]);
            for method in 0..=LAST_METHOD {
                self.put_ask(b'Q', method, &[now, 0, 0, SEA, SEA]);
                self.put_ask(b'W', method, &[now, now + 1, 0, 0, SEA, SEA]);
            }
            let t = self.later(&[Pace::Still, Pace::Minutes, Pace::Jump]);
            self.put(b'D', &[held, t]);
        }
    }
}

/// A held report, where there is one.
fn any_held(ledger: &Ledger, dice: &mut Dice) -> Option<Report> {
    let number = dice.below(ledger.reports().len().max(1));
    ledger.reports().nth(number).copied()
}
