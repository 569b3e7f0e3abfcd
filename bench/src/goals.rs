//! The goals, and which rows miss them. All go by the times on the stores in turn.

use crate::fleet::{Speeds, FLEETS};
use crate::measure::Times;
use crate::names::{is_ask, is_window, ASK, SOUNDNESS, WINDOW};

/// How many times the twin's time a call may take, how many times one pass the
/// soundness test, and how many times the ask at one time a window ask.
pub const OVER_TWIN: f64 = 1.2;
pub const OVER_PASS: f64 = 3.0;
pub const OVER_ASK: f64 = 2.0;

/// The goals' lines.
pub fn lines(all: &[Times]) -> String {
    [over_twin(all), over_pass(all), over_one_time(all), growth(all)].concat()
}

/// The times of another call on the same stores.
fn another<'a>(all: &'a [Times], t: &Times, call: &str) -> Option<&'a Times<'a>> {
    all.iter().find(|other| {
        let (other, own) = (other.row, t.row);
        other.call == call && other.floats == own.floats && other.speeds == own.speeds
    })
}

/// How many times the ask at one time a window ask takes.
pub fn over_ask(all: &[Times], t: &Times) -> Option<f64> {
    let name = format!("{ASK}{}", t.row.call.strip_prefix(WINDOW)?);
    Some(t.index / another(all, t, &name)?.index)
}

/// How much longer than the soundness test on the same stores an ask takes.
pub fn less_soundness(all: &[Times], t: &Times) -> Option<f64> {
    let asks = is_ask(&t.row.call) || is_window(&t.row.call);
    let test = another(all, t, SOUNDNESS).filter(|_| asks)?;
    Some(t.index - test.index)
}

pub fn goal_for_pass(t: &Times) -> f64 {
    match t.row.call.as_str() {
        SOUNDNESS => OVER_PASS,
        _ => f64::INFINITY,
    }
}

/// A goal's line: met, or missed, with the worst case.
fn goal(goal: &str, mut missed: Vec<(f64, String)>) -> String {
    missed.sort_by(|a, b| b.0.total_cmp(&a.0));
    match missed.first() {
        None => format!("- {goal}: met.\n"),
        Some((ratio, call)) => {
            let rows = missed.len();
            format!("- {goal}: missed, rows: {rows}. The worst is {call}: {ratio:.2}.\n")
        }
    }
}

fn name(t: &Times) -> String {
    format!("{} with {} floats, {}", t.row.call, t.row.floats, t.row.speeds.name())
}

fn over_twin(all: &[Times]) -> String {
    let ratios = all.iter().map(|t| (t.index / t.twin, name(t)));
    let missed = ratios.filter(|(ratio, _)| *ratio > OVER_TWIN);
    goal("At most 1.2 times (a) in every row", missed.collect())
}

fn over_pass(all: &[Times]) -> String {
    let ratios = all.iter().map(|t| (t.index / t.pass, goal_for_pass(t), name(t)));
    let missed = ratios.filter(|(ratio, goal, _)| ratio > goal);
    let missed = missed.map(|(ratio, _, name)| (ratio, name));
    let line = goal("Soundness test at most 3 times (b)", missed.collect());
    let exact = Speeds::ALL.map(|speeds| {
        let own = all.iter().filter(|t| t.row.call == SOUNDNESS && t.row.speeds == speeds);
        let ratios: Vec<_> = own.map(|t| format!("{:.1}", t.index / t.exact_pass)).collect();
        format!("{} {}", speeds.name(), ratios.join(", "))
    });
    let floats = FLEETS.map(|floats| floats.to_string()).join(", ");
    format!("{line}  Against the exact sum, with {floats} floats: {}.\n", exact.join("; "))
}

fn over_one_time(all: &[Times]) -> String {
    let ratios = all.iter().filter_map(|t| Some((over_ask(all, t)?, name(t))));
    let missed = ratios.filter(|(ratio, _)| *ratio > OVER_ASK);
    goal("A window ask of an hour at most 2 times (d)", missed.collect())
}

/// From one fleet to the next of such speeds a call may take as many times longer as
/// there are more floats.
fn growth(all: &[Times]) -> String {
    let mut missed = Vec::new();
    for speeds in Speeds::ALL {
        let rows: Vec<&Times> = all.iter().filter(|t| t.row.speeds == speeds).collect();
        for pair in rows.windows(2).filter(|pair| pair[0].row.call == pair[1].row.call) {
            let [few, many] = [pair[0], pair[1]];
            let floats = many.row.floats as f64 / few.row.floats as f64;
            let times = many.index / few.index;
            if times > floats {
                missed.push((times, format!("{} for {floats:.2} times the floats", name(many))));
            }
        }
    }
    goal("No call's time grows faster than the floats held", missed)
}
