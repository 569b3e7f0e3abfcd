//! The ledger against document 01's listing, P cases and table of refusals,
//! against worked asks for windows and for the time before a report, and, on
//! generated lists, against its own definitions and the lists of another reference
//! time. Retirements have a file of their own.

mod retirements;

use super::*;
use crate::generate::{lists, List};
use crate::lines::read_call;
use crate::stream::{answers, serve};
use crate::LISTING;

fn open(t: i64) -> Ledger {
    let mut ledger = Ledger::new(None);
    assert_eq!(ledger.call(&Call::Open { t }, 0), Answer::Accepted(0));
    ledger
}

fn report(id: i64, t: i64, at: [i64; 2], speed: [i64; 2]) -> Report {
    Report { id, t, at, speed }
}

fn ask(method: i64, time: i64, low: [i64; 2], high: [i64; 2]) -> Ask {
    Ask { method, when: When::At(time), rectangle: Rectangle { low, high } }
}

fn window(method: i64, [first, last]: [i64; 2], low: [i64; 2], high: [i64; 2]) -> Ask {
    Ask { when: When::During { first, last }, ..ask(method, first, low, high) }
}

/// Ids, cells, useful, rounds.
fn listed(ledger: &mut Ledger, ask: Ask) -> (Vec<i64>, usize, usize, usize) {
    match ledger.call(&Call::Ask(ask), MOST_HELD) {
        Answer::Listed { ids, cells, useful, rounds } => (ids, cells, useful, rounds),
        other => panic!("{other:?}"),
    }
}

#[test]
fn the_listing() {
    let (calls, wanted) = LISTING;
    let got = answers(calls.as_bytes(), None);
    assert_eq!(String::from_utf8(got).unwrap(), wanted);
    let unended = calls.trim_end().as_bytes();
    assert_eq!(answers(unended, None), wanted.as_bytes());
}

#[test]
fn pieces_newlines_and_long_lines() {
    let unread = "?         9         0\n";
    for (input, count) in [("", 0), ("\n", 1), ("x", 1), ("x\n", 1), ("\n\nx", 3)] {
        let got = answers(input.as_bytes(), None);
        assert_eq!(got, unread.repeat(count).as_bytes());
    }
    let long = format!("{}{}\n{}", LISTING.0, "O         0".repeat(9_000), LISTING.0);
    let wanted = [LISTING.1, unread, LISTING.1].concat();
    assert_eq!(answers(long.as_bytes(), None), wanted.as_bytes());
    let mut served = Vec::new();
    serve(&mut long.as_bytes(), &mut served).unwrap();
    assert_eq!(served, wanted.as_bytes());
}

#[test]
fn p11_cells_and_rounds() {
    let mut ledger = open(0);
    let floats = [(2_700_000, 0), (1_100_000, 200), (5_300_000, 500)];
    for (id, (x, vx)) in (1..).zip(floats) {
        let call = Call::Add(report(id, 0, [x, 500], [vx, 0]));
        assert_eq!(ledger.call(&call, 0), Answer::Accepted(id));
    }
    for (method, cells, rounds) in [(0, 5, 0), (1, 1, 0), (2, 1, 1), (3, 1, 0)] {
        let ask = ask(method, 3_600, [2_621_440, 0], [2_883_583, 1_000]);
        assert_eq!(listed(&mut ledger, ask), (vec![1], cells, 1, rounds));
    }
}

#[test]
fn p12_a_float_is_placed_anew_when_its_phase_dies() {
    let mut ledger = open(0);
    ledger.call(&Call::Add(report(1, 0, [100_000, 0], [100, 0])), 0);
    ledger.call(&Call::Clock { t: 10_799 }, 0);
    assert_eq!((ledger.held[&1].phase, ledger.held[&1].cell), (0, 1));
    ledger.call(&Call::Clock { t: 10_800 }, 0);
    assert_eq!((ledger.held[&1].phase, ledger.held[&1].cell), (3, 5));
}

/// A second earlier the first is still in column 0, a second later the other is
/// there.
#[test]
fn a_float_is_placed_by_its_position_in_mid_phase() {
    for (x, vx) in [(172_144, 50), (352_144, -50)] {
        let ledger = holding(&[([x, 0], [vx, 0])]);
        assert_eq!(ledger.held[&1].cell, 1);
    }
}

#[test]
fn the_ends_of_d() {
    let ds = |now, time| {
        let ledger = open(now);
        [0, 1, 2].map(|phase| ledger.choice(&ask(0, time, [0; 2], [0; 2]), phase).d[0])
    };
    assert_eq!(ds(7_200, 3_600), [1_800, -1_800, -5_400]);
    assert_eq!(ds(10_799, 17_999), [16_199, 12_599, 8_999]);
}

#[test]
fn edge_cells_have_no_end() {
    let mut ledger = open(0);
    ledger.call(&Call::Add(report(1, 3_599, [100, 0], [500, 0])), 0);
    let ask = ask(3, 3_599, [0, 0], [1_000, 1_000]);
    assert_eq!(listed(&mut ledger, ask), (vec![1], 1, 1, 0));
}

#[test]
fn missing_bounds() {
    let sea = [SEA; 2];
    let mut ledger = open(8_000);
    for method in 0..4 {
        let ask = ask(method, 8_000, [0, 0], sea);
        assert_eq!(listed(&mut ledger, ask), (vec![], 0, 0, 0));
    }
    // A float at rest in the first cell, asked for in the last.
    ledger.call(&Call::Add(report(1, 8_000, [0, 0], [0, 0])), 0);
    for (method, cells, rounds) in [(0, 1, 0), (1, 0, 0), (2, 0, 1), (3, 0, 0)] {
        let ask = ask(method, 8_000, sea, sea);
        assert_eq!(listed(&mut ledger, ask), (vec![], cells, 0, rounds));
    }
}

/// A ledger opened at 0 with these floats added then, ids from 1 on.
fn holding(floats: &[([i64; 2], [i64; 2])]) -> Ledger {
    let mut ledger = open(0);
    for (id, (at, speed)) in (1..).zip(floats) {
        let call = Call::Add(report(id, 0, *at, *speed));
        assert_eq!(ledger.call(&call, 0), Answer::Accepted(id));
    }
    ledger
}

#[test]
fn a_window_touched_at_a_corner() {
    let mut ledger = holding(&[([1_000_000; 2], [100, -100])]);
    for (method, cells, rounds) in [(0, 6, 0), (1, 6, 0), (2, 6, 1), (3, 1, 0)] {
        for (high_y, ids) in [(850_000, vec![1]), (849_999, vec![])] {
            let ask = window(method, [0, 3_600], [1_100_000, 800_000], [1_150_000, high_y]);
            let useful = ids.len();
            assert_eq!(listed(&mut ledger, ask), (ids, cells, useful, rounds));
        }
    }
}

#[test]
fn a_window_crossed_between_two_seconds() {
    let mut ledger = holding(&[([100; 2], [500; 2])]);
    let ids = |ledger: &mut Ledger, ask| listed(ledger, ask).0;
    for time in [0, 1] {
        assert_eq!(ids(&mut ledger, ask(3, time, [350; 2], [360; 2])), []);
    }
    for (low_y, high_y, wanted) in [(350, 360, &[1][..]), (361, 371, &[]), (360, 371, &[1])] {
        let ask = window(3, [0, 1], [350, low_y], [360, high_y]);
        assert_eq!(ids(&mut ledger, ask), wanted);
    }
}

#[test]
fn a_window_of_one_time_and_one_of_an_hour() {
    let floats = [(1_000_000, 300), (3_000_000, -500), (1_500_000, 0)];
    let mut ledger = holding(&floats.map(|(x, vx)| ([x, 500], [vx, 0])));
    for (method, one, hour) in [(0, 2, 9), (1, 2, 9), (2, 2, 9), (3, 1, 2)] {
        for (times, ids, cells) in
            [([1_800; 2], vec![1, 3], one), ([0, 3_600], vec![1, 2, 3], hour)]
        {
            let ask = window(method, times, [1_400_000, 0], [1_600_000, 1_000]);
            let got = listed(&mut ledger, ask);
            assert_eq!((got.0, got.1), (ids, cells));
        }
    }
}

/// A ledger with float 7 at (10000, 10000), eastward by 10, reported at 100.
fn reported_at_100() -> Ledger {
    let mut ledger = open(0);
    let call = Call::Add(report(7, 100, [10_000; 2], [10, 0]));
    assert_eq!(ledger.call(&call, 0), Answer::Accepted(1));
    ledger
}

/// By each method the ask lists these ids and reads the one cell.
fn lists_by_every_method(ledger: &mut Ledger, when: When, x: [i64; 2], ids: &[i64]) {
    let rectangle = Rectangle { low: [x[0], 0], high: [x[1], 20_000] };
    for (method, rounds) in [(0, 0), (1, 0), (2, 1), (3, 0)] {
        let wanted = (ids.to_vec(), 1, ids.len(), rounds);
        let ask = Ask { method, when, rectangle };
        assert_eq!(listed(ledger, ask), wanted, "{ask:?}");
    }
}

#[test]
fn no_float_before_its_report() {
    let mut ledger = reported_at_100();
    let whole = [0, 20_000];
    for (time, ids) in [(0, &[][..]), (99, &[]), (100, &[7]), (101, &[7])] {
        lists_by_every_method(&mut ledger, When::At(time), whole, ids);
    }
    for (last, ids) in [(0, &[][..]), (99, &[]), (100, &[7]), (200, &[7])] {
        lists_by_every_method(&mut ledger, When::During { first: 0, last }, whole, ids);
    }
    // Up to 9,999 it has come before its report alone, to 10,000 at its report.
    for (high, ids) in [(9_999, &[][..]), (10_000, &[7])] {
        let when = When::During { first: 0, last: 200 };
        lists_by_every_method(&mut ledger, when, [9_000, high], ids);
    }
}

#[test]
fn a_new_report_ends_what_the_old_one_said() {
    let mut ledger = reported_at_100();
    ledger.call(&Call::Report(report(7, 200, [10_000; 2], [10, 0])), 0);
    // It was held then, by a report that is gone; later clocks change nothing.
    for now in [200, 3_000] {
        ledger.call(&Call::Clock { t: now }, 0);
        for (time, ids) in [(100, &[][..]), (199, &[]), (200, &[7])] {
            lists_by_every_method(&mut ledger, When::At(time), [0, 20_000], ids);
            let when = When::During { first: 100, last: time };
            lists_by_every_method(&mut ledger, when, [0, 20_000], ids);
        }
    }
}

#[test]
fn refusals_of_windows() {
    let mut ledger = open(3_600);
    let all = |method, times| Call::Ask(window(method, times, [0; 2], [SEA; 2]));
    let mut given = |call, number| refused(&mut ledger, call, 0, number, 0);
    for times in [[3_600, 3_599], [0, 3_601], [10_800, 7_199]] {
        given(all(0, times), 10);
        given(all(4, times), 10);
    }
    for times in [[0, 10_801], [-1, 0], [-1, 10_801], [10_801, 10_801], [10_801, 3_600]] {
        given(all(4, times), 3);
    }
    given(all(4, [0, 3_600]), 4);
    given(Call::Ask(window(0, [0, 3_600], [1, 0], [0; 2])), 4);
    for times in [[0, 3_600], [7_200, 10_800], [10_800, 10_800]] {
        let nothing = Answer::Listed { ids: vec![], cells: 0, useful: 0, rounds: 0 };
        assert_eq!(ledger.call(&all(0, times), 0), nothing);
    }
    ledger.call(&Call::Add(report(1, 3_600, [0; 2], [0; 2])), 0);
    refused(&mut ledger, all(3, [0, 3_600]), 0, 8, 1);
    refused(&mut ledger, all(3, [0, 3_601]), 0, 10, 0);
}

const GOOD: Report = Report { id: 7, t: 100, at: [0, SEA], speed: [-TOP_SPEED, TOP_SPEED] };

/// Makes the call, which is refused with this number and value and changes
/// neither the time nor what is held nor a row.
fn refused(ledger: &mut Ledger, call: Call, list: usize, number: i64, value: i64) {
    let (now, held, rows) = (ledger.now, ledger.held.clone(), ledger.rows.clone());
    assert_eq!(ledger.call(&call, list), Answer::Refused(number, value), "{call:?}");
    assert!(ledger.now == now && ledger.held == held && ledger.rows == rows, "{call:?}");
}

#[test]
fn refusals_by_time_and_numbers() {
    let mut ledger = open(100);
    let mut refused = |call, number| refused(&mut ledger, call, 0, number, 0);
    for t in [-1, LAST_TIME + 1] {
        refused(Call::Open { t }, 3);
    }
    for t in [-1, 99, LAST_TIME + 1] {
        refused(Call::Clock { t }, 3);
        refused(Call::Add(Report { t, id: 0, ..GOOD }), 3);
        refused(Call::Report(Report { t, id: 0, ..GOOD }), 3);
        refused(Call::Drop { id: 0, t }, 3);
    }
    for time in [-1, 7_301, LAST_TIME + 1] {
        refused(Call::Ask(ask(9, time, [0, 0], [0, 0])), 3);
    }
    for id in [-1, 0, LAST_ID + 1] {
        refused(Call::Add(Report { id, ..GOOD }), 4);
        refused(Call::Report(Report { id, ..GOOD }), 4);
        refused(Call::Drop { id, t: 5_000 }, 4);
    }
    for at in [[-1, 0], [0, -1], [SEA + 1, 0], [0, SEA + 1]] {
        refused(Call::Add(Report { at, ..GOOD }), 4);
        refused(Call::Ask(ask(0, 100, at, [SEA; 2])), 4);
        refused(Call::Ask(ask(0, 100, [0; 2], at)), 4);
    }
    for speed in [[-501, 0], [0, -501], [501, 0], [0, 501]] {
        refused(Call::Report(Report { speed, ..GOOD }), 4);
    }
    for (method, low) in [(-1, [0; 2]), (4, [0; 2]), (0, [1, 0]), (0, [0, 1])] {
        refused(Call::Ask(ask(method, 100, low, [0; 2])), 4);
    }
}

#[test]
fn refusals_by_what_is_held() {
    let mut ledger = open(100);
    refused(&mut ledger, Call::Report(GOOD), 0, 6, 0);
    refused(&mut ledger, Call::Drop { id: 7, t: 5_000 }, 0, 6, 0);
    let most = MOST_HELD as i64;
    for id in 1..=most {
        let call = Call::Add(Report { id, ..GOOD });
        assert_eq!(ledger.call(&call, 0), Answer::Accepted(id));
    }
    let late = Report { t: 9_000, ..GOOD };
    refused(&mut ledger, Call::Add(late), 0, 5, 0);
    refused(&mut ledger, Call::Add(Report { id: most + 1, ..late }), 0, 7, 0);
    let all = Call::Ask(ask(2, 100, [0; 2], [SEA; 2]));
    for list in [0, 1, MOST_HELD - 1] {
        refused(&mut ledger, all, list, 8, most);
    }
    let listed = ledger.call(&all, MOST_HELD);
    assert!(matches!(listed, Answer::Listed { ids, .. } if ids == Vec::from_iter(1..=most)));
}

/// The calls of a list, in order.
fn calls(list: &List) -> impl Iterator<Item = Call> + '_ {
    list.input.split(|byte| *byte == b'\n').filter_map(read_call)
}

/// The rows are the bounds of the listed placements; whatever the method, the
/// chosen cells hold every listed float of their phase; and a window of one time
/// gives what that time gives.
#[test]
fn rows_and_choices_in_generated_lists() {
    let mut most_rounds = 0;
    for list in lists(1) {
        let mut ledger = Ledger::new(None);
        for (number, call) in calls(&list).enumerate() {
            let answer = ledger.call(&call, MOST_HELD);
            if number % 16 == 0 {
                check_rows(&ledger);
            }
            let Call::Ask(ask) = call else {
                continue;
            };
            check_one_time(&mut ledger, ask, &answer);
            if let Answer::Listed { ids, .. } = answer {
                most_rounds = most_rounds.max(check_choices(&ledger, &ask, &ids));
            }
        }
    }
    assert!(most_rounds >= 6, "{most_rounds}");
}

fn check_rows(ledger: &Ledger) {
    let c = ledger.now / PHASE;
    let mut wanted = [0; SLOTS].map(|_| vec![Row::EMPTY; CELLS]);
    for (phase, cell, speed) in &ledger.placements {
        assert!(live(c).contains(phase));
        let row = &mut wanted[slot(*phase)][*cell];
        *row = row.join(Row::one(*speed));
    }
    for phase in live(c) {
        assert_eq!(ledger.rows[slot(phase)], wanted[slot(phase)]);
    }
}

/// The same ask of one time, in the other of its two forms.
fn check_one_time(ledger: &mut Ledger, ask: Ask, answer: &Answer) {
    let other = match ask.when {
        When::At(time) => When::During { first: time, last: time },
        When::During { first, last } if first == last => When::At(first),
        When::During { .. } => return,
    };
    let other = Call::Ask(Ask { when: other, ..ask });
    assert_eq!(&ledger.call(&other, MOST_HELD), answer, "{ask:?}");
}

fn check_choices(ledger: &Ledger, ask: &Ask, ids: &[i64]) -> usize {
    let mut most_rounds = 0;
    for phase in live(ledger.now / PHASE) {
        let choice = ledger.choice(ask, phase);
        for d in choice.d {
            let from_start = d + MID_PHASE;
            assert!((-ASK_BEFORE..PHASE * SLOTS as i64 + ASK_AFTER).contains(&from_start));
        }
        let chosen = [0, 1, 2, 3].map(|method| choice.choose(method));
        let mut inside = vec![0; CELLS];
        for (method, chosen) in chosen.iter().enumerate() {
            for cell in &chosen.cells {
                // Each method's cells are among those of the method before.
                assert_eq!(inside[*cell], method);
                inside[*cell] += 1;
            }
        }
        let here = ids.iter().map(|id| &ledger.held[id]);
        for held in here.filter(|held| held.phase == phase) {
            assert_eq!(inside[held.cell], 4);
        }
        let rounds = chosen[2].rounds;
        let ends = chosen[0].cells.first().zip(chosen[0].cells.last());
        let most = ends.map_or(0, |(first, last)| {
            let [low, high] = [first, last].map(|cell| crate::grid::places(*cell));
            (high[0] - low[0]) + (high[1] - low[1]) + 1
        });
        assert!(rounds <= most);
        most_rounds = most_rounds.max(rounds);
    }
    most_rounds
}

/// With the phase's start for its reference time every call has the same number,
/// value and ids, also where an ask looks for them in its cells alone.
#[test]
fn lists_come_out_as_before() {
    let mut other_cells = 0;
    for list in lists(1) {
        let mut ledgers = [None, Some(Wrong::OldReference)].map(Ledger::new);
        for call in calls(&list) {
            let [right, old] = ledgers.each_mut().map(|ledger| ledger.call(&call, MOST_HELD));
            other_cells += usize::from(right != old);
            assert_eq!(without_cells(&right), without_cells(&old), "{call:?}");
            if let (Call::Ask(ask), Answer::Listed { ids, .. }) = (call, right) {
                let found = ledgers.each_ref().map(|ledger| found(ledger, &ask));
                assert!(found.iter().all(|found| *found == ids), "{ask:?}");
            }
        }
    }
    assert!(other_cells > 1_000, "{other_cells}");
}

fn without_cells(answer: &Answer) -> Answer {
    match answer {
        Answer::Listed { ids, .. } => {
            Answer::Listed { ids: ids.clone(), cells: 0, useful: 0, rounds: 0 }
        }
        other => other.clone(),
    }
}

/// The ids listed that an ask finds in the cells that it chooses.
fn found(ledger: &Ledger, ask: &Ask) -> Vec<i64> {
    let mut chosen = [[false; CELLS]; SLOTS];
    for phase in live(ledger.now / PHASE) {
        for cell in ledger.choice(ask, phase).choose(ask.method).cells {
            chosen[slot(phase)][cell] = true;
        }
    }
    let read = ledger.held().filter(|held| chosen[slot(held.phase)][held.cell]);
    let listed = read.filter(|held| super::lists(ask, &held.report, None));
    listed.map(|held| held.report.id).collect()
}
