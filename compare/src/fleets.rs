//! Made-up fleets, by request A5 of document 02: a line that orders a fleet in,
//! the call lines that add its floats out.
//!
//! Every draw is one step on from the draw before, in the skipped lines too. The
//! index's side jumps over those; here is no jump that could be wrong with it.

use crate::limits::{MOST_HELD, SEA, TOP_SPEED};
use crate::lines::{report_numbers, write_line, COLUMNS};
use crate::motion::Report;

crate::listed! {
    /// A wrong rule for fleets, to see whether a comparison finds it.
    pub enum WrongFleet {
        /// A draw takes the state before its step.
        DrawnFirst,
        /// A draw is a remainder.
        Remainder,
        /// The step has no added term.
        NoTerm,
        /// y is drawn before x.
        Exchanged,
        /// Positions are drawn below 8,388,607.
        NarrowSea,
        /// Speeds are drawn below 1,000.
        NarrowSpeeds,
        /// vx is drawn without its 500.
        UnshiftedSpeed,
        /// A skipped line is one step and not four.
        ShortSkip,
        /// The steps of skipped lines have no added term.
        BareSkip,
        /// The line whose k is the skip is written too.
        SkipWritten,
        /// A fleet may have 1,025 floats.
        OneMore,
        /// A fleet may have no float.
        NoFloats,
        /// The skip may be above the floats.
        SkipPast,
        /// The skip is below the floats.
        SkipBelow,
        /// A start past 32 bits is taken without what is past them.
        CutStart,
        /// A start is below half of what 32 bits hold.
        HalvedStart,
        /// Numbers may have leading zeros.
        LeadingZeros,
        /// Numbers may have blanks behind them.
        BlanksBehind,
        /// The line has its newline.
        NewlineWanted,
        /// What follows the newline is not looked at.
        SecondLine,
        /// What follows the three numbers is not looked at.
        AnyEnd,
    }
}

/// Numbers in an order for a fleet.
const NUMBERS: usize = 3;
/// An order without its newline.
pub const ORDER: usize = NUMBERS * COLUMNS;
/// States are below this.
pub const STATES: u64 = 1 << 32;
/// A step: times the one, plus the other.
const FACTOR: u32 = 1_664_525;
const TERM: u32 = 1_013_904_223;

/// An order: the state to start from, how many floats, how many lines to skip.
struct Order {
    start: u32,
    floats: i64,
    skip: i64,
}

/// The fleet that an input orders, as the reports of the lines that are written;
/// none where the input is no order.
pub fn fleet(input: &[u8], wrong: Option<WrongFleet>) -> Option<Vec<Report>> {
    let order = read_order(input, wrong)?;
    let first = order.skip + i64::from(wrong != Some(WrongFleet::SkipWritten));
    let mut maker = Maker { state: order.start, wrong };
    let mut reports = Vec::new();
    for id in 1..=order.floats {
        match wrong {
            Some(WrongFleet::ShortSkip) if id <= order.skip => maker.step(),
            Some(WrongFleet::BareSkip) if id <= order.skip => maker.grow(FACTOR.wrapping_pow(4), 0),
            _ => {
                let report = maker.report(id);
                reports.extend((id >= first).then_some(report));
            }
        }
    }
    Some(reports)
}

/// What is due for an input: the call lines of its fleet, or one `?`.
pub fn written(input: &[u8], wrong: Option<WrongFleet>) -> Vec<u8> {
    let Some(reports) = fleet(input, wrong) else {
        return b"?\n".to_vec();
    };
    let mut out = Vec::new();
    for report in &reports {
        write_line(b'A', &report_numbers(report), &mut out);
    }
    out
}

/// The state, which goes from draw to draw and from line to line.
struct Maker {
    state: u32,
    wrong: Option<WrongFleet>,
}

impl Maker {
    fn grow(&mut self, factor: u32, term: u32) {
        self.state = self.state.wrapping_mul(factor).wrapping_add(term);
    }

    fn step(&mut self) {
        match self.wrong {
            Some(WrongFleet::NoTerm) => self.grow(FACTOR, 0),
            _ => self.grow(FACTOR, TERM),
        }
    }

    /// A number below the given one, after a step.
    fn draw(&mut self, below: i64) -> i64 {
        let before = self.state;
        self.step();
        let state = match self.wrong {
            Some(WrongFleet::DrawnFirst) => before,
            _ => self.state,
        };
        let (state, below) = (u64::from(state), below as u64);
        let drawn = match self.wrong {
            Some(WrongFleet::Remainder) => state % below,
            _ => state * below / STATES,
        };
        drawn as i64
    }

    /// The first report of a float: four draws.
    fn report(&mut self, id: i64) -> Report {
        let positions = SEA + i64::from(self.wrong != Some(WrongFleet::NarrowSea));
        let speeds = 2 * TOP_SPEED + i64::from(self.wrong != Some(WrongFleet::NarrowSpeeds));
        let mut at = [0; 2].map(|_| self.draw(positions));
        let mut speed = [0; 2].map(|_| self.draw(speeds) - TOP_SPEED);
        match self.wrong {
            Some(WrongFleet::Exchanged) => at.reverse(),
            Some(WrongFleet::UnshiftedSpeed) => speed[0] += TOP_SPEED,
            _ => (),
        }
        Report { id, t: 0, at, speed }
    }
}

/// The order that an input is, if it is one.
fn read_order(input: &[u8], wrong: Option<WrongFleet>) -> Option<Order> {
    let (fields, cut_off) = order_line(input, wrong)?.as_chunks::<COLUMNS>();
    let fields: &[_; NUMBERS] = fields.try_into().ok().filter(|_| cut_off.is_empty())?;
    let [start, floats, skip] = fields.map(|field| read_number(&field, wrong));
    let (start, floats, skip) = (start?, floats?, skip?);
    let starts = match wrong {
        Some(WrongFleet::CutStart) => u64::MAX,
        Some(WrongFleet::HalvedStart) => STATES / 2,
        _ => STATES,
    };
    let least = u64::from(wrong != Some(WrongFleet::NoFloats));
    let most = MOST_HELD as u64 + u64::from(wrong == Some(WrongFleet::OneMore));
    let last_skip = match wrong {
        Some(WrongFleet::SkipPast) => u64::MAX,
        Some(WrongFleet::SkipBelow) => floats.saturating_sub(1),
        _ => floats,
    };
    let good = start < starts && (least..=most).contains(&floats) && skip <= last_skip;
    good.then_some(Order { start: start as u32, floats: floats as i64, skip: skip as i64 })
}

/// The line that an input has, without its newline; a second line is part of it
/// and spoils it.
fn order_line(input: &[u8], wrong: Option<WrongFleet>) -> Option<&[u8]> {
    match wrong {
        Some(WrongFleet::NewlineWanted) => input.strip_suffix(b"\n"),
        Some(WrongFleet::SecondLine) => input.split(|byte| *byte == b'\n').next(),
        Some(WrongFleet::AnyEnd) => input.get(..ORDER),
        _ => Some(input.strip_suffix(b"\n").unwrap_or(input)),
    }
}

/// The number in a field: blanks, then digits alone, for no number of an order is
/// below 0.
fn read_number(field: &[u8; COLUMNS], wrong: Option<WrongFleet>) -> Option<u64> {
    let start = field.iter().position(|byte| *byte != b' ')?;
    let digits = match wrong {
        Some(WrongFleet::BlanksBehind) => field[start..].trim_ascii_end(),
        _ => &field[start..],
    };
    let padded = digits.len() > 1 && digits[0] == b'0';
    let bad = padded && wrong != Some(WrongFleet::LeadingZeros);
    if bad || !digits.iter().all(u8::is_ascii_digit) {
        return None;
    }
    Some(digits.iter().fold(0, |n, d| 10 * n + u64::from(d - b'0')))
}

#[cfg(test)]
mod tests {
    use super::*;

    fn ordered(start: u64, floats: u64, skip: u64) -> Option<Vec<Report>> {
        fleet(format!("{start:10}{floats:10}{skip:10}\n").as_bytes(), None)
    }

    fn float(id: i64, x: i64, y: i64, vx: i64, vy: i64) -> Report {
        Report { id, t: 0, at: [x, y], speed: [vx, vy] }
    }

    #[test]
    fn steps() {
        let mut maker = Maker { state: 0, wrong: None };
        let mut states = Vec::new();
        for _ in 0..4_096 {
            maker.step();
            states.push(maker.state);
        }
        assert_eq!(states[..2], [1_013_904_223, 1_196_435_762]);
        assert_eq!(states[4_095], 143_282_176);
    }

    #[test]
    fn the_first_three_floats_from_0() {
        let three = vec![
            float(1, 1_980_281, 2_336_788, 320, 168),
            float(2, 3_221_874, 5_216_099, -156, 140),
            float(3, 4_259_551, 4_880_471, 297, 238),
        ];
        assert_eq!(ordered(0, 3, 0), Some(three));
    }

    #[test]
    fn the_last_float_from_42() {
        let last = float(1_024, 6_855_914, 5_896_265, 5, 39);
        assert_eq!(ordered(42, 1_024, 1_023), Some(vec![last]));
        assert_eq!(ordered(42, 1_024, 1_024), Some(vec![]));
    }

    #[test]
    fn lines_and_no_order() {
        let order = b"         0         3         2";
        let line = b"A         3         0   4259551   4880471       297       238\n";
        assert_eq!(written(order, None), line);
        assert_eq!(written(&[&order[..], b"\n"].concat(), None), line);
        assert_eq!(written(b"         0         3         3", None), b"");
        for more in ["\n\n", "\r\n", " ", "\0", "         0"] {
            assert_eq!(written(&[&order[..], more.as_bytes()].concat(), None), b"?\n", "{more:?}");
        }
    }

    #[test]
    fn ranges() {
        assert!(ordered(STATES - 1, 1_024, 1_024).is_some() && ordered(0, 1, 0).is_some());
        let outside = [(STATES, 1, 0), (9_999_999_999, 1, 0), (0, 0, 0), (0, 1_025, 0), (0, 1, 2)];
        for (start, floats, skip) in outside {
            assert_eq!(ordered(start, floats, skip), None);
        }
    }

    #[test]
    fn numbers() {
        let number = |text: &str| read_number(text.as_bytes().try_into().unwrap(), None);
        for n in [0, 7, 10, 1_024, STATES - 1, 9_999_999_999] {
            assert_eq!(number(&format!("{n:10}")), Some(n));
        }
        let cases = ["", "-", "+5", "-5", "-0", "007", "00", "1 2", "5 ", "x", "\t5", "5\r", "5\0"];
        for text in cases {
            assert_eq!(number(&format!("{text:>10}")), None, "{text:?}");
        }
    }
}
