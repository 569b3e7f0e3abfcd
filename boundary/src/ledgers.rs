//! Between the independent ledger and the buffers: the words that a ledger
//! would leave, and the ledger of sound words. Where which word stands is the
//! buffers' own; phases, cells and curve numbers are the ledger's.

use buffers::{rows, Record, Words, KEYS, NOW};
use plain_ledger::grid::curve_number;
use plain_ledger::ledger::{live, slot, Held, Ledger, Report};
use plain_ledger::limits::{CELLS, PHASE};
use plain_ledger::methods::{Row, Wrong};

/// A report with its key, in the ledger's numbers.
pub type Keyed = (i64, Report);

/// A number of a call or a word, which generators keep in 32 bits.
pub fn small(number: i64) -> i32 {
    i32::try_from(number).expect("numbers fit 32 bits")
}

/// What the index is told of a report.
pub fn told(s: &Report) -> float_index::Report {
    let [x, y] = s.at.map(small);
    let [vx, vy] = s.speed.map(small);
    float_index::Report { id: small(s.id), t: small(s.t), x, y, vx, vy }
}

pub fn record((key, report): &Keyed) -> Record {
    buffers::record(small(*key), told(report))
}

pub fn keyed(record: &Record) -> Keyed {
    let float_index::Report { id, t, x, y, vx, vy } = buffers::report(record);
    let (at, speed) = ([x, y].map(i64::from), [vx, vy].map(i64::from));
    let report = Report { id: id.into(), t: t.into(), at, speed };
    (record[buffers::KEY].into(), report)
}

/// The key of a float where it is placed.
fn key_of(held: &Held) -> i64 {
    buffers::key(slot(held.phase), curve_number(held.cell)) as i64
}

/// The right key of a report in a phase.
pub fn key_in(phase: i64, report: &Report) -> i64 {
    key_of(&Held::placed(*report, phase, None))
}

/// Whether a ledger with a wrong rule has placed a float in another cell than the
/// right one, so that its words are unsound.
pub fn is_misplaced(ledger: &Ledger) -> bool {
    ledger.held().any(|held| key_of(held) != key_in(held.phase, &held.report))
}

/// The words of a ledger, each float where the ledger has placed it.
pub fn write(ledger: &Ledger) -> Words {
    let floats = ledger.held().map(|held| record(&(key_of(held), held.report)));
    let mut rows = vec![buffers::EMPTY; KEYS];
    for (slot, of_slot) in ledger.rows().iter().enumerate() {
        for (cell, row) in of_slot.iter().enumerate() {
            let spans = [0, 1].map(|axis| [row.least[axis], row.greatest[axis]]);
            rows[buffers::key(slot, curve_number(cell))] = spans;
        }
    }
    Words::new(small(ledger.now()), floats.collect(), &rows)
}

/// The ledger of sound words. A wrong rule places their floats anew.
pub fn read(words: &Words, wrong: Option<Wrong>) -> Ledger {
    let now = i64::from(words.store[NOW]);
    let held = words.held().iter().map(|record| {
        let (key, report) = keyed(record);
        let of_slot = |p: &i64| slot(*p) == key as usize / CELLS;
        Held::placed(report, live(now / PHASE).find(of_slot).unwrap_or(0), wrong)
    });
    let row = |slot, cell| {
        let [x, y] = rows(&words.table)[buffers::key(slot, curve_number(cell))];
        Row { least: [x[0], y[0]], greatest: [x[1], y[1]] }
    };
    let rows = std::array::from_fn(|slot| (0..CELLS).map(|cell| row(slot, cell)).collect());
    Ledger::kept(now, held.collect(), rows, wrong)
}
