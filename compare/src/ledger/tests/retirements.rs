//! Silent floats retire: worked cases, each refusal after a retirement, rows that
//! stay, and, on generated lists, how many are held and who is.

use super::*;
use crate::generate::STEPS;
use std::collections::BTreeMap;

/// A ledger opened at 0 with floats at rest at one place, ids and times as here.
fn added(times: &[(i64, i64)]) -> Ledger {
    let mut ledger = open(0);
    for (held, (id, t)) in (1..).zip(times) {
        assert_eq!(ledger.call(&add(*id, *t), 0), Answer::Accepted(held));
    }
    ledger
}

fn resting(id: i64, t: i64) -> Report {
    report(id, t, [500_000, 10_000], [0; 2])
}

fn add(id: i64, t: i64) -> Call {
    Call::Add(resting(id, t))
}

fn again(id: i64, t: i64) -> Call {
    Call::Report(resting(id, t))
}

fn drop(id: i64, t: i64) -> Call {
    Call::Drop { id, t }
}

fn clock(t: i64) -> Call {
    Call::Clock { t }
}

fn accepted(ledger: &mut Ledger, call: Call, value: i64) {
    assert_eq!(ledger.call(&call, 0), Answer::Accepted(value), "{call:?}");
    assert_eq!(ledger.now, call.step_time().unwrap());
}

#[test]
fn a_float_retires_in_its_second() {
    let mut ledger = added(&[(1, 0), (2, 1)]);
    accepted(&mut ledger, clock(2_591_999), 2);
    accepted(&mut ledger, clock(2_592_000), 1);
    accepted(&mut ledger, clock(2_592_001), 0);
    assert_eq!(ledger.retired(), 2);
}

#[test]
fn a_silent_float_is_not_held() {
    for call in [drop(1, 2_592_000), again(1, 2_592_000)] {
        let mut ledger = added(&[(1, 0), (2, 5)]);
        refused(&mut ledger, call, 0, 6, 0);
        accepted(&mut ledger, drop(2, 2_592_000), 0);
    }
    // A second earlier it is, and nobody has retired by what was refused.
    for (call, left) in [(drop(1, 2_591_999), 1), (again(1, 2_591_999), 2)] {
        let mut ledger = added(&[(1, 0), (2, 5)]);
        refused(&mut ledger, drop(1, 2_592_000), 0, 6, 0);
        accepted(&mut ledger, call, left);
    }
}

#[test]
fn an_id_goes_back_to_the_makers() {
    let mut ledger = added(&[(1, 0)]);
    refused(&mut ledger, add(1, 2_591_999), 0, 5, 0);
    accepted(&mut ledger, add(1, 2_592_000), 1);
    assert_eq!(ledger.held[&1].report.t, 2_592_000);
    refused(&mut ledger, add(1, 2_592_000), 0, 5, 0);
}

#[test]
fn a_full_store_has_room_when_floats_retire() {
    for (first, held) in [(0, 1), (1, MOST_HELD as i64)] {
        let times = (1..=MOST_HELD as i64).map(|id| (id, if id == 1 { 0 } else { first }));
        let mut ledger = added(&Vec::from_iter(times));
        refused(&mut ledger, add(2_000, 2_591_999), 0, 7, 0);
        refused(&mut ledger, add(2, 2_591_999), 0, 5, 0);
        accepted(&mut ledger, add(2_000, 2_592_000), held);
    }
}

/// The checks before it come first, and each refused call leaves everything.
#[test]
fn refusals_where_floats_are_silent() {
    let late = 2_592_000;
    let bad = Report { speed: [501, 0], ..resting(1, late) };
    let mut ledger = added(&[(1, 0), (2, 5)]);
    for call in [Call::Add(bad), Call::Report(bad), drop(0, late), add(0, late)] {
        refused(&mut ledger, call, 0, 4, 0);
    }
    for t in [4, LAST_TIME + 1] {
        for call in [clock(t), add(1, t), again(1, t), drop(1, t)] {
            refused(&mut ledger, call, 0, 3, 0);
        }
    }
    refused(&mut ledger, add(2, late), 0, 5, 0);
    refused(&mut ledger, again(1, late), 0, 6, 0);
    accepted(&mut ledger, again(2, late), 1);
    accepted(&mut ledger, add(1, late), 2);
}

#[test]
fn the_last_report_counts() {
    let mut ledger = added(&[(1, 0), (2, 0), (3, 0)]);
    accepted(&mut ledger, again(2, 2_591_999), 3);
    accepted(&mut ledger, clock(2_592_000), 1);
    accepted(&mut ledger, clock(5_183_998), 1);
    accepted(&mut ledger, clock(5_183_999), 0);
}

/// What asks for the cell in which floats rest give by every method: cells read,
/// and the ids listed. A cell is useful where its float is listed.
fn reads(ledger: &mut Ledger, cells: usize, ids: &[i64]) {
    let (low, high) = ([262_144, 0], [524_287, 262_143]);
    let now = ledger.now;
    for method in 0..=LAST_METHOD {
        let rounds = if method == 2 { cells } else { 0 };
        let wanted = (ids.to_vec(), cells, ids.len(), rounds);
        assert_eq!(listed(ledger, ask(method, now, low, high)), wanted, "{method} at {now}");
        assert_eq!(listed(ledger, window(method, [now; 2], low, high)), wanted);
    }
}

#[test]
fn rows_stay_till_their_phase_dies() {
    // It is placed in phase 720 and retires there, or in phase 719 and retires at
    // the start of the next.
    for (reported, last_phase) in [(100, 722), (0, 721)] {
        let mut ledger = added(&[(1, reported)]);
        accepted(&mut ledger, clock(reported + 2_591_999), 1);
        reads(&mut ledger, 1, &[1]);
        let rows = ledger.rows.clone();
        accepted(&mut ledger, clock(reported + 2_592_000), 0);
        assert_eq!(ledger.rows, rows);
        reads(&mut ledger, 1, &[]);
        accepted(&mut ledger, clock(3_600 * last_phase + 3_599), 0);
        reads(&mut ledger, 1, &[]);
        accepted(&mut ledger, clock(3_600 * last_phase + 3_600), 0);
        reads(&mut ledger, 0, &[]);
    }
}

#[test]
fn a_row_does_not_narrow_when_one_of_its_floats_retires() {
    let mut ledger = added(&[(1, 100)]);
    accepted(&mut ledger, clock(2_592_050), 1);
    let fast = Report { id: 2, t: 2_592_060, speed: [7, -9], ..resting(2, 0) };
    accepted(&mut ledger, Call::Add(fast), 2);
    let wide = Row::one([0; 2]).join(Row::one([7, -9]));
    let place = (ledger.held[&2].phase, ledger.held[&2].cell);
    assert_eq!((ledger.held[&1].phase, ledger.held[&1].cell), place);
    for t in [2_592_099, 2_592_100, 2_602_799] {
        ledger.call(&clock(t), 0);
        assert_eq!(ledger.rows[slot(place.0)][place.1], wide);
    }
    assert_eq!(ledger.retired(), 1);
}

#[test]
fn a_retired_float_is_not_placed_anew() {
    for call in [clock(2_592_100), add(1, 2_592_100), drop(2, 2_592_100), again(2, 2_592_100)] {
        let mut ledger = added(&[(1, 100)]);
        let other = report(2, 101, [5_000_000; 2], [0; 2]);
        accepted(&mut ledger, Call::Add(other), 2);
        ledger.call(&call, 0);
        let own = ledger.placements.iter().filter(|(phase, cell, _)| (*phase, *cell) == (720, 1));
        let reports = matches!(call, Call::Add(_) | Call::Report(_));
        assert_eq!((own.count(), ledger.retired()), (usize::from(reports), 1), "{call:?}");
    }
}

/// Asks look up to two hours ahead, and a ledger may be taken up with a float that
/// is silent.
#[test]
fn a_silent_float_is_listed_till_the_next_step() {
    let mut ledger = added(&[(1, 0)]);
    accepted(&mut ledger, clock(2_591_999), 1);
    for time in [2_591_999, 2_592_000, 2_599_199] {
        let ask = ask(3, time, [0; 2], [SEA; 2]);
        assert_eq!(listed(&mut ledger, ask), (vec![1], 1, 1, 0));
    }
    for now in [2_592_000, 2_592_001, LAST_TIME] {
        let held = Held::placed(resting(1, 0), now / PHASE, None);
        let mut rows = [0; SLOTS].map(|_| vec![Row::EMPTY; CELLS]);
        rows[slot(held.phase)][held.cell] = Row::one([0; 2]);
        let mut ledger = Ledger::kept(now, vec![held], rows, None);
        reads(&mut ledger, 1, &[1]);
        refused(&mut ledger, drop(1, now), 0, 6, 0);
        reads(&mut ledger, 1, &[1]);
        accepted(&mut ledger, clock(now), 0);
        reads(&mut ledger, 1, &[]);
    }
}

/// How often a call of this letter came in this case.
type Seen = BTreeMap<(u8, &'static str), usize>;

/// Held are the accepted adds less the drops less the retirements, and nobody who
/// is held after an accepted step is silent. A refused call leaves who is held.
/// Every case comes up in each of the calls that make a step.
#[test]
fn retirements_in_generated_lists() {
    let mut seen = Seen::new();
    for list in lists(1) {
        let mut ledger = Ledger::new(None);
        let (mut adds, mut drops, mut retirements) = (0, 0, 0);
        for call in calls(&list) {
            let (now, before) = (ledger.now, Vec::from_iter(ledger.reports().copied()));
            let answer = ledger.call(&call, MOST_HELD);
            if (&call, &answer) == (&Call::Open { t: ledger.now }, &Answer::Accepted(0)) {
                (adds, drops, retirements) = (0, 0, 0);
            }
            let Some(t) = call.step_time() else {
                continue;
            };
            count_cases(&mut seen, &call, &answer, now, &before);
            if let Answer::Refused(..) = answer {
                assert!(ledger.now == now && ledger.reports().eq(&before), "{call:?}");
                continue;
            }
            adds += usize::from(matches!(call, Call::Add(_)));
            drops += usize::from(matches!(call, Call::Drop { .. }));
            retirements += before.iter().filter(|held| held.t + 2_592_000 <= t).count();
            assert_eq!(ledger.held.len(), adds - drops - retirements, "{call:?}");
            assert_eq!(ledger.retired(), retirements);
            assert!(ledger.reports().all(|held| t < held.t + 2_592_000), "{call:?}");
        }
    }
    for letter in STEPS {
        for case in CASES {
            let count = seen.get(&(*letter, case)).copied().unwrap_or(0);
            let named = case.starts_with("it names") || case == "it is refused";
            let wanted = if *letter == b'C' && named { 0..=0 } else { 3..=usize::MAX };
            assert!(wanted.contains(&count), "{} where {case}: {count}", *letter as char);
        }
    }
}

const CASES: [&str; 9] = [
    "a float is silent from the next second on",
    "a float is silent from this second on",
    "a float has been silent for a second",
    "floats retire in the phase that it was",
    "floats retire and three phases have gone by",
    "floats retire of 1,024",
    "it names a silent float",
    "it names another one",
    "it is refused",
];

/// Counts the cases that a call is in, made at this time of a ledger that held
/// these.
fn count_cases(seen: &mut Seen, call: &Call, answer: &Answer, now: i64, held: &[Report]) {
    let (letter, id, t) = match call {
        Call::Clock { t } => (b'C', None, *t),
        Call::Add(report) => (b'A', Some(report.id), report.t),
        Call::Report(report) => (b'U', Some(report.id), report.t),
        Call::Drop { id, t } => (b'D', Some(*id), *t),
        Call::Open { .. } | Call::Ask(_) => return,
    };
    let silent = |held: &&Report| held.t + 2_592_000 <= t;
    let some = held.iter().any(|held| silent(&held));
    let retire = some && matches!(answer, Answer::Accepted(_));
    let since = |seconds| held.iter().any(|held| held.t + 2_592_000 + seconds == t);
    let is_silent = |id| held.iter().filter(silent).any(|held| held.id == id);
    let holds = [
        since(-1),
        since(0),
        since(1),
        retire && t / PHASE == now / PHASE,
        retire && t / PHASE > now / PHASE + 2,
        retire && held.len() == MOST_HELD,
        some && id.is_some_and(is_silent),
        some && id.is_some_and(|id| !is_silent(id)),
        some && matches!(answer, Answer::Refused(5..=7, _)),
    ];
    for (case, _) in CASES.iter().zip(holds).filter(|(_, holds)| *holds) {
        *seen.entry((letter, case)).or_default() += 1;
    }
}
