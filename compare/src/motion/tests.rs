//! Times and windows against the definition: some moment n / m not before the
//! report, tried one by one.

use super::*;
use dice::Dice;

/// At the moment n / m: m times the position is m times x and v times
/// n - m * t.
fn is_in_at_moment(report: &Report, rectangle: &Rectangle, n: i64, m: i64) -> bool {
    let at = [0, 1].map(|axis| m * report.at[axis] + report.speed[axis] * (n - m * report.t));
    let [low, high] = [rectangle.low, rectangle.high].map(|corner| corner.map(|x| m * x));
    n >= m * report.t && Rectangle { low, high }.holds(at)
}

/// Of small numbers every moment is tried that can be the first one inside:
/// a whole second, or one over a speed. Reports are from before the window, in
/// it, and from after it.
#[test]
fn windows_by_every_moment() {
    let mut dice = Dice::new(3);
    let (mut inside, mut too_early, mut at_report) = (0, 0, 0);
    for _ in 0..200_000 {
        let mut pair = |low, high| [0; 2].map(|_| dice.range(low, high));
        let (at, speed, low, sides) = (pair(-6, 6), pair(-5, 5), pair(-6, 6), pair(0, 4));
        let ([first, _], [length, _], [after, _]) = (pair(-2, 2), pair(0, 4), pair(-2, 5));
        let report = Report { id: 1, t: first + after, at, speed };
        let rectangle = Rectangle { low, high: [low[0] + sides[0], low[1] + sides[1]] };
        let last = first + length;
        let is_in = |n, m| is_in_at_moment(&report, &rectangle, n, m);
        let at_some_moment = (1..=5).any(|m| (m * first..=m * last).any(|n| is_in(n, m)));
        let during = |wrong| report.is_in_during(&rectangle, [first, last], wrong);
        let got = during(None);
        assert_eq!(got, at_some_moment, "{report:?} {rectangle:?} {first} {last}");
        assert_eq!(report.is_in_at(&rectangle, last, None), is_in(last, 1));
        inside += usize::from(got);
        too_early += usize::from(!got && during(Some(Wrong::JudgedByNow)));
        at_report += usize::from(got && !during(Some(Wrong::ReportLeftOut)));
    }
    for (count, least) in [(inside, 5_000), (too_early, 1_000), (at_report, 1_000)] {
        assert!((least..195_000).contains(&count), "{inside} {too_early} {at_report}");
    }
}
