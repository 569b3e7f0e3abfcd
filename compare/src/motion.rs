//! What a float reports, where it is at a time, and whether it is in a rectangle
//! at a time or at a moment of a window.
//!
//! A moment may lie between two seconds. On an axis a float is between two edges
//! from the moment at which it comes to the one to that at which it comes to the
//! other, so it is in the rectangle from the later of its entries to the earlier
//! of its exits. Before its report it may have been aboard ship, so that no
//! moment before it counts.

use crate::grid::Rectangle;
use crate::limits::LAST_TIME;
use crate::methods::Wrong;

/// What a float reported: its id, the time, its position and its speed.
#[derive(Clone, Copy, Debug, PartialEq, Eq)]
pub struct Report {
    pub id: i64,
    pub t: i64,
    pub at: [i64; 2],
    pub speed: [i64; 2],
}

/// A moment: a whole number over a whole number above 0.
#[derive(Clone, Copy, Debug)]
struct Moment {
    over: i128,
    under: i128,
}

/// From one moment to another, both included.
#[derive(Clone, Copy, Debug)]
struct Span {
    from: Moment,
    to: Moment,
}

impl Moment {
    fn whole(t: i64) -> Moment {
        Moment { over: t.into(), under: 1 }
    }

    fn is_by(self, other: Moment) -> bool {
        self.over * other.under <= other.over * self.under
    }

    fn earlier(self, other: Moment) -> Moment {
        if self.is_by(other) {
            self
        } else {
            other
        }
    }

    fn later(self, other: Moment) -> Moment {
        if self.is_by(other) {
            other
        } else {
            self
        }
    }
}

impl Span {
    /// The moments of both, if there are any.
    fn and(self, other: Span) -> Option<Span> {
        let (from, to) = (self.from.later(other.from), self.to.earlier(other.to));
        from.is_by(to).then_some(Span { from, to })
    }

    fn has_whole_second(self) -> bool {
        let up = |m: Moment| -(-m.over).div_euclid(m.under);
        up(self.from) <= self.to.over.div_euclid(self.to.under)
    }

    fn is_one_moment(self) -> bool {
        self.to.is_by(self.from)
    }
}

impl Report {
    /// The position at time s.
    pub fn position(&self, s: i64) -> [i64; 2] {
        [0, 1].map(|axis| self.at[axis] + self.speed[axis] * (s - self.t))
    }

    /// The moments from the first time to the last that count, if there are any:
    /// those not before the report.
    fn counted(&self, [first, last]: [i64; 2], wrong: Option<Wrong>) -> Option<Span> {
        let (from, latest) = match wrong {
            Some(Wrong::ReportLeftOut) => (first.max(self.t), last - 1),
            Some(Wrong::FromFirst) => (first, last),
            Some(Wrong::ReportByFirst) => (first, first),
            // What is held was reported by now.
            Some(Wrong::JudgedByNow) => (first, LAST_TIME),
            _ => (first.max(self.t), last),
        };
        (self.t <= latest).then_some(Span { from: Moment::whole(from), to: Moment::whole(last) })
    }

    /// Whether that time counts and the float is then in the rectangle.
    pub fn is_in_at(&self, rectangle: &Rectangle, time: i64, wrong: Option<Wrong>) -> bool {
        self.counted([time; 2], wrong).is_some() && rectangle.holds(self.position(time))
    }

    /// Whether at some moment from the first time to the last that counts the
    /// float is in the rectangle, on both axes together.
    pub fn is_in_during(
        &self,
        rectangle: &Rectangle,
        times: [i64; 2],
        wrong: Option<Wrong>,
    ) -> bool {
        let Some(window) = self.counted(times, wrong) else {
            return false;
        };
        let on = |axis, within| self.between(axis, rectangle, within, wrong);
        let both = match wrong {
            Some(Wrong::OwnMoments) => on(0, window).and(on(1, window)),
            _ => on(0, window).and_then(|within| on(1, within)),
        };
        both.is_some_and(|both| match wrong {
            Some(Wrong::WholeSeconds) => both.has_whole_second(),
            Some(Wrong::TouchLeftOut) => times[0] == times[1] || !both.is_one_moment(),
            Some(Wrong::ReportLeftOut) => !both.to.is_by(Moment::whole(self.t)),
            _ => true,
        })
    }

    /// The moments of a span at which the float is between the edges of one axis.
    fn between(
        &self,
        axis: usize,
        rectangle: &Rectangle,
        within: Span,
        wrong: Option<Wrong>,
    ) -> Option<Span> {
        let (low, high) = (rectangle.low[axis], rectangle.high[axis]);
        let (x, v) = (self.at[axis], self.speed[axis]);
        if v == 0 {
            return (low..=high).contains(&x).then_some(within);
        }
        let comes_to = |edge: i64| {
            let under = i128::from(v.abs());
            let ahead = i128::from(v.signum() * (edge - x));
            Moment { over: i128::from(self.t) * under + ahead, under }
        };
        let ends = [low, high].map(comes_to);
        // Westward or southward the high edge comes first.
        let [from, to] = match wrong {
            Some(Wrong::SameEnds) => ends,
            _ if v > 0 => ends,
            _ => [ends[1], ends[0]],
        };
        within.and(Span { from, to })
    }
}

#[cfg(test)]
mod tests;
