//! Numbers for calls, from dice: times, places, rectangles, and numbers at the
//! ends of their ranges and past them.

use crate::ledger::{is_silent, reference_time, Report};
use crate::limits::{ASK_AFTER, ASK_BEFORE, LAST_ID, LAST_METHOD, LAST_TIME};
use crate::limits::{LONGEST_WINDOW, MID_PHASE, PHASE, SEA, SIDE, SILENCE, TOP_SPEED, WIDTH};
use crate::lines::{GREATEST, LEAST};
use dice::Dice;

/// How time passes from one change to the next.
#[derive(Clone, Copy)]
pub enum Pace {
    Still,
    Seconds,
    Minutes,
    /// To the start of the next phase or its reference time, a second before it or
    /// a second after it.
    Border,
    /// Over one to six phases.
    Jump,
    /// Over up to 700 phases, after which a float that sent nothing may be held still,
    /// or now and then over up to 20,000.
    Silence,
    /// To the last hours that there are.
    End,
}

/// How floats lie and move.
#[derive(Clone, Copy)]
pub enum Fleet {
    Any,
    /// Near the edges of the sea, mostly outward.
    Edges,
    /// Slow, with a fast one now and then.
    FewFast,
    /// Toward the middle, the faster the farther off.
    Graded,
    /// Positions and speeds at their limits and at cell borders.
    Limits,
    /// Nearly at rest in a corner of the sea.
    Corner,
    /// Within a second's drift of a cell border at the reference time of the
    /// report's phase.
    Borders,
}

/// The start of a phase or its reference time, a second before it or a second
/// after it.
fn phase_time(dice: &mut Dice, phase: i64) -> i64 {
    let time = dice.pick(&[PHASE * phase, reference_time(phase, None)]);
    time + dice.pick(&[-1, 0, 0, 1])
}

/// A time to open at: about one of the first phases, now, late or any.
pub fn start(dice: &mut Dice, now: i64) -> i64 {
    let first = dice.range(0, 5);
    let any = dice.range(0, LAST_TIME);
    let time = match dice.range(0, 9) {
        0 => LAST_TIME - dice.range(0, 9_000),
        1 => any,
        2 => phase_time(dice, any / PHASE),
        3..=6 => phase_time(dice, first),
        _ => dice.pick(&[0, 1, now]),
    };
    time.max(0)
}

/// A time after now at this pace; it may be below now or past the last time.
pub fn later(dice: &mut Dice, now: i64, pace: Pace) -> i64 {
    let next = now / PHASE + 1;
    match pace {
        Pace::Still => now,
        Pace::Seconds => now + dice.range(0, 20),
        Pace::Minutes => now + dice.range(0, 1_500),
        Pace::Border => phase_time(dice, next),
        Pace::Jump => {
            let phase = next + dice.range(0, 5);
            phase_time(dice, phase) + dice.pick(&[0, 0, 0, 999])
        }
        Pace::Silence => {
            let most = dice.pick(&[700, 700, 700, 20_000]);
            PHASE * (next + dice.range(3, most))
        }
        Pace::End => now.max(LAST_TIME - dice.range(0, 30_000)),
    }
}

/// The float that falls silent next, or now and then one of the ten next.
pub fn next_silent<'a>(
    dice: &mut Dice,
    now: i64,
    floats: impl Iterator<Item = &'a Report>,
) -> Option<Report> {
    let mut floats: Vec<&Report> = floats.filter(|float| !is_silent(float.t, now)).collect();
    floats.sort_by_key(|float| float.t);
    let any = dice.below(floats.len().clamp(1, 10));
    floats.get(dice.pick(&[0, 0, 0, 0, 0, 0, 0, any])).copied().copied()
}

/// A time about the second in which a float falls silent: that second, the one
/// before it or the one after it, or some phases later. It may be below now or past
/// the last time.
pub fn falls_silent(dice: &mut Dice, float: &Report) -> i64 {
    let phases = dice.pick(&[0, 0, 0, 0, 0, 1, 2, 5]);
    float.t + SILENCE + PHASE * phases + dice.pick(&[-1, 0, 0, 1])
}

/// A report of a float that lies and moves so.
pub fn report(dice: &mut Dice, fleet: Fleet, id: i64, t: i64) -> Report {
    let fast = dice.chance(25);
    let [(x, vx), (y, vy)] = [0; 2].map(|_| place(dice, fleet, t, fast));
    Report { id, t, at: [x, y], speed: [vx, vy] }
}

/// A coordinate and a speed on one axis.
fn place(dice: &mut Dice, fleet: Fleet, t: i64, fast: bool) -> (i64, i64) {
    let any = dice.range(0, SEA);
    let any_speed = dice.range(-TOP_SPEED, TOP_SPEED);
    match fleet {
        Fleet::Any => (any, any_speed / dice.pick(&[1, 1, 4, 50])),
        Fleet::Edges => {
            let off = any / dice.pick(&[2, 30, 3_000]);
            match dice.range(0, 4) {
                0 => (any, any_speed),
                1 => (off, any_speed),
                2 => (SEA - off, any_speed),
                3 => (off, -any_speed.abs()),
                _ => (SEA - off, any_speed.abs()),
            }
        }
        Fleet::FewFast if fast => (any, dice.pick(&[-TOP_SPEED, TOP_SPEED, any_speed])),
        Fleet::FewFast => (any, dice.range(-3, 3)),
        Fleet::Graded => graded(dice, any, t),
        Fleet::Limits => {
            let border = WIDTH * dice.range(1, SIDE as i64 - 1) - dice.range(0, 1);
            let top = TOP_SPEED;
            let speed = dice.pick(&[-top, 1 - top, -1, 0, 1, top - 1, top]);
            (dice.pick(&[0, 1, SEA - 1, SEA, border, border]), speed)
        }
        Fleet::Corner => (any / 8, any_speed / 40),
        Fleet::Borders => bordering(dice, any_speed, t),
    }
}

/// Where a float reports at t that is here at the reference time of that phase.
fn reported(here: i64, speed: i64, t: i64) -> i64 {
    here + speed * (t - reference_time(t / PHASE, None))
}

/// A place and a speed such that at the reference time a float is within a
/// second's drift of a cell border, often next to it, on either side.
fn bordering(dice: &mut Dice, any_speed: i64, t: i64) -> (i64, i64) {
    // From farther out it might report out of the sea.
    let least = TOP_SPEED * MID_PHASE / WIDTH + 1;
    let border = WIDTH * dice.range(least, SIDE as i64 - least);
    let speed = any_speed / dice.pick(&[1, 1, 4, 50]);
    let drift = speed.abs().max(1);
    let off = dice.range(-drift, drift - 1);
    (reported(border + dice.pick(&[-1, 0, off]), speed, t), speed)
}

/// A place and a speed toward the middle of the sea, such that over some hours
/// from the reference time on a float falls short of it by about half a cell.
fn graded(dice: &mut Dice, any: i64, t: i64) -> (i64, i64) {
    let off = any - SEA / 2;
    let hours = dice.pick(&[2, 3, 3, 3]);
    let cells = off.abs() / WIDTH;
    let speed = ((2 * cells - 1) * WIDTH / (2 * hours * PHASE)).clamp(0, TOP_SPEED);
    let speed = -off.signum() * speed;
    (reported(any, speed, t).clamp(0, SEA), speed)
}

/// From the earliest time that may be asked for to the latest.
fn askable(now: i64) -> [i64; 2] {
    [(now - ASK_BEFORE).max(0), (now + ASK_AFTER).min(LAST_TIME)]
}

/// A time that may be asked for.
fn asked(dice: &mut Dice, now: i64) -> i64 {
    let [earliest, latest] = askable(now);
    let phase = now / PHASE + dice.range(-2, 2);
    let time = match dice.range(0, 7) {
        0 => now,
        1 => earliest,
        2 => latest,
        3 => phase_time(dice, phase),
        4 | 5 => dice.range(earliest, now),
        _ => dice.range(now, latest),
    };
    time.clamp(earliest, latest)
}

/// The numbers after the method of an ask (`Q`) or a window ask (`W`), all in range.
/// Some go by the time of a report, where one of a few floats has reported late
/// enough to be asked about.
pub fn ask(
    dice: &mut Dice,
    now: i64,
    letter: u8,
    float: impl Fn(&mut Dice) -> Option<Report>,
) -> Vec<i64> {
    let draws = if dice.chance(250) { 5 } else { 0 };
    let mut drawn = (0..draws).filter_map(|_| float(dice));
    if let Some(float) = drawn.find(|float| askable(now)[0] <= float.t) {
        return at_report(dice, now, letter, &float);
    }
    let float = float(dice);
    match letter {
        b'W' => window(dice, now, float),
        _ => timeslice(dice, now, float),
    }
}

/// An ask about the time at which the float reported. Many rectangles have the
/// reported position on an edge, most of these behind the float; others lie where
/// it goes in the second before its report or after it, or would have been before.
fn at_report(dice: &mut Dice, now: i64, letter: u8, float: &Report) -> Vec<i64> {
    let times = match letter {
        b'W' => window_at(dice, now, float.t).to_vec(),
        _ => vec![time_at(dice, now, float.t)],
    };
    let ahead = [0; 2].map(|_| dice.chance(250));
    let second = float.t - dice.range(0, 1);
    let time = dice.pick(&times);
    let corners = match dice.range(0, 9) {
        0..=3 => met(dice, float, float.t, ahead),
        4..=5 if letter == b'W' => crossed(dice, float, second),
        _ => corners(dice, Some(float.position(time))),
    };
    [&times, &corners[..]].concat()
}

/// This time, a second before or after it, or any time before it.
fn time_at(dice: &mut Dice, now: i64, time: i64) -> i64 {
    let [earliest, latest] = askable(now);
    let before = dice.range(earliest, time.max(earliest));
    let near = time + dice.range(-1, 1);
    dice.pick(&[near, near, near, before]).clamp(earliest, latest)
}

/// A window that ends or begins at this time or a second from it, or one about it.
fn window_at(dice: &mut Dice, now: i64, time: i64) -> [i64; 2] {
    let [earliest, latest] = askable(now);
    let any = dice.range(0, LONGEST_WINDOW);
    let length = dice.pick(&[any, any, 0, 1, 2, 60, LONGEST_WINDOW]);
    let near = time + dice.range(-1, 1);
    let some = dice.range(0, length);
    let before = dice.pick(&[0, some, length]);
    let first = (near - before).clamp(earliest, latest);
    [first, (near - before + length).clamp(first, latest)]
}

/// Many rectangles lie about the place that the float has then.
fn timeslice(dice: &mut Dice, now: i64, float: Option<Report>) -> Vec<i64> {
    let time = asked(dice, now);
    let target = float.map(|float| float.position(time));
    [&[time], &corners(dice, target)[..]].concat()
}

/// Many rectangles lie about a place that the float has in that window, or beside
/// its path.
fn window(dice: &mut Dice, now: i64, float: Option<Report>) -> Vec<i64> {
    let [earliest, latest] = askable(now);
    let any = dice.range(0, LONGEST_WINDOW);
    let length = dice.pick(&[any, any, any, 0, 1, 2, 60, LONGEST_WINDOW]);
    let first = asked(dice, now).min(latest - length).max(earliest);
    let last = (first + length).min(latest);
    let time = dice.range(first, last);
    let kind = dice.range(0, 9);
    let corners = match float {
        Some(float) if kind < 3 => touched(dice, &float, time),
        Some(float) if kind < 6 => crossed(dice, &float, time),
        _ => corners(dice, float.map(|float| float.position(time))),
    };
    [&[first, last], &corners[..]].concat()
}

/// Corners about an aim, or anywhere.
fn corners(dice: &mut Dice, aim: Option<[i64; 2]>) -> [i64; 4] {
    let kind = dice.range(0, 19);
    let strip = dice.range(0, 2);
    let spans = [0, 1].map(|axis| span(dice, kind, aim.map(|at| at[axis]), strip == axis as i64));
    in_sea(spans)
}

/// The corners of a rectangle that goes from one number to another on each axis,
/// drawn into the sea.
fn in_sea(spans: [(i64, i64); 2]) -> [i64; 4] {
    let [x, y] = spans.map(|(from, to)| {
        let low = from.clamp(0, SEA);
        (low, to.clamp(low, SEA))
    });
    [x.0, y.0, x.1, y.1]
}

/// A rectangle of which the float passes one corner at this time, through it or a
/// centimetre beside it: on one axis it lies ahead, on the other behind.
fn touched(dice: &mut Dice, float: &Report, time: i64) -> [i64; 4] {
    let x_ahead = dice.chance(500);
    met(dice, float, time, [x_ahead, !x_ahead])
}

/// A rectangle with the float on its corner at this time, or a centimetre beside
/// it, that lies ahead of the float or behind it on either axis.
fn met(dice: &mut Dice, float: &Report, time: i64, ahead: [bool; 2]) -> [i64; 4] {
    let at = float.position(time);
    in_sea([0, 1].map(|axis| {
        let edge = at[axis] + dice.pick(&[-1, 0, 0, 0, 1]);
        let side = dice.pick(&[0, 1, 700, WIDTH]);
        match (float.speed[axis] >= 0) == ahead[axis] {
            true => (edge, edge + side),
            false => (edge - side, edge),
        }
    }))
}

/// A small rectangle on the float's path or close to it, between this second and
/// the next.
fn crossed(dice: &mut Dice, float: &Report, time: i64) -> [i64; 4] {
    const PARTS: i64 = 1_000;
    let at = float.position(time);
    let part = dice.range(0, PARTS);
    in_sea([0, 1].map(|axis| {
        let near = at[axis] + (float.speed[axis] * part).div_euclid(PARTS);
        (near - dice.range(0, 2), near + dice.range(-1, 2))
    }))
}

/// Where a rectangle of a kind begins and ends on one axis, the whole of which
/// some strip takes; it may reach out of the sea.
fn span(dice: &mut Dice, kind: i64, aim: Option<i64>, strip: bool) -> (i64, i64) {
    let any = dice.range(0, SEA);
    let aim = aim.unwrap_or(any);
    match kind {
        0 => (0, SEA),
        1..=5 => {
            let sides = [0, 0, 1, 700, WIDTH];
            (aim - dice.pick(&sides), aim + dice.pick(&sides))
        }
        6 => (aim + dice.range(0, 1), aim + 5_000),
        7 => (aim - 5_000, aim - dice.range(0, 1)),
        8..=10 => (any, any + dice.range(0, 1_000)),
        11..=13 => (any, any + dice.range(0, 2_000_000)),
        14..=15 => {
            let first = any / WIDTH * WIDTH;
            let cells = WIDTH * dice.range(1, 3);
            (first + dice.range(-1, 1), first + cells + dice.range(-2, 0))
        }
        16..=17 if strip => (0, SEA),
        16..=17 => (any, any + dice.range(0, 300_000)),
        18 => dice.pick(&[(0, 0), (SEA, SEA), (0, any), (any, SEA)]),
        _ => {
            let middle = SEA / 2 + dice.range(-2_000, 2_000);
            (middle, middle + dice.range(0, 100_000))
        }
    }
}

/// Another number in a place of a call: at an end of its range, past it or far
/// out.
pub fn spoiled(dice: &mut Dice, now: i64, letter: u8, numbers: &[i64], place: usize) -> i64 {
    let far = dice.pick(&[-1, LEAST, GREATEST]);
    let corner = dice.pick(&[-1, 0, SEA, SEA + 1, far]);
    match (letter, place) {
        (b'O', _) => dice.pick(&[-1, LAST_TIME, LAST_TIME + 1, far]),
        (b'W', 1 | 2) => spoiled_end(dice, now, numbers, place, far),
        (b'Q', 1) => spoiled_asked(dice, now, far),
        (b'C', _) | (_, 1) => dice.pick(&[now - 1, now, 0, LAST_TIME + 1, far]),
        (b'Q' | b'W', 0) => dice.pick(&[-1, 0, LAST_METHOD, LAST_METHOD + 1, far]),
        (_, 0) => dice.pick(&[-1, 0, 1, LAST_ID, LAST_ID + 1, far]),
        (b'Q', 4 | 5) | (b'W', 5 | 6) => dice.pick(&[numbers[place - 2].max(0) - 1, corner]),
        (_, 2 | 3) | (b'Q' | b'W', _) => corner,
        _ => dice.pick(&[-TOP_SPEED - 1, -TOP_SPEED, TOP_SPEED, TOP_SPEED + 1, far]),
    }
}

/// An ask's time as near to now as may be, or a second farther off.
fn spoiled_asked(dice: &mut Dice, now: i64, far: i64) -> i64 {
    let (earliest, latest) = (now - ASK_BEFORE, now + ASK_AFTER);
    dice.pick(&[earliest - 1, earliest, latest, latest + 1, far])
}

/// A window's first or last time: too far from now, past the other one, or with it
/// as long a window as may be, or a second longer.
fn spoiled_end(dice: &mut Dice, now: i64, numbers: &[i64], place: usize, far: i64) -> i64 {
    let out = spoiled_asked(dice, now, far);
    let longest = LONGEST_WINDOW;
    let (first, last) = (numbers[1], numbers[2]);
    let end = match place {
        1 => dice.pick(&[out, out, last + 1, last - longest, last - longest - 1]),
        _ => dice.pick(&[out, out, first - 1, first + longest, first + longest + 1]),
    };
    // The other end may be spoiled too, and as far out as a line can say.
    end.clamp(LEAST, GREATEST)
}
