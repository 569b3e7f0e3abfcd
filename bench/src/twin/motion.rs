//! Where a float is at a time, and which floats a query lists.

use super::grid::{Range, Rect};
use float_index::Report;

/// Where a float is at time s.
pub fn position(r: &Report, s: i64) -> [i64; 2] {
    let past = s - i64::from(r.t);
    [(r.x, r.vx), (r.y, r.vy)].map(|(x, v)| i64::from(x) + i64::from(v) * past)
}

/// When a query wants floats in its rectangle. Each kind has code of its own, so
/// that asks at one time do without the windows'.
pub trait When: Copy {
    /// The first and the last time.
    fn ends(self) -> [i64; 2];

    /// Whether a float is then in a rectangle, and not before its report.
    fn lists(self, rect: &Rect, r: &Report) -> bool;
}

/// At a time.
#[derive(Clone, Copy)]
pub struct At(pub i64);

/// At some moment from a first time to a last one.
#[derive(Clone, Copy)]
pub struct During(pub i64, pub i64);

impl When for At {
    fn ends(self) -> [i64; 2] {
        [self.0; 2]
    }

    fn lists(self, rect: &Rect, r: &Report) -> bool {
        (i64::from(r.t) <= self.0) & rect.holds(position(r, self.0))
    }
}

impl When for During {
    fn ends(self) -> [i64; 2] {
        [self.0, self.1]
    }

    fn lists(self, rect: &Rect, r: &Report) -> bool {
        let During(first, last) = self;
        let from = first.max(r.t.into());
        let seconds = last - from;
        let [x, y] = position(r, from);
        let x = Passage::new(x, r.vx.into(), &rect.0[0]);
        let y = Passage::new(y, r.vy.into(), &rect.0[1]);
        let on_each = x.has_moment(seconds) && y.has_moment(seconds);
        0 <= seconds && on_each && x.meets(&y) && y.meets(&x)
    }
}

pub struct Query<W> {
    pub rect: Rect,
    pub when: W,
}

impl<W: When> Query<W> {
    pub fn lists(&self, r: &Report) -> bool {
        self.when.lists(&self.rect, r)
    }
}

/// How a float goes through a range: u seconds on it is inside where speed * u is
/// from after to until. The speed is not below 0.
struct Passage {
    after: i64,
    until: i64,
    speed: i64,
}

impl Passage {
    /// From p on at speed v.
    fn new(p: i64, v: i64, range: &Range) -> Passage {
        if v >= 0 {
            Passage { after: range.low - p, until: range.high - p, speed: v }
        } else {
            Passage { after: p - range.high, until: p - range.low, speed: -v }
        }
    }

    /// Whether it is inside at some moment of the next so many seconds.
    fn has_moment(&self, seconds: i64) -> bool {
        self.after <= self.speed * seconds && 0 <= self.until
    }

    /// Whether it has entered by the time that the other leaves.
    fn meets(&self, other: &Passage) -> bool {
        self.after * other.speed <= other.until * self.speed
    }
}
