//! The page of results.

use crate::asks::{side_name, METHODS};
use crate::cells::Cells;
use crate::fleet::{Speeds, STORES};
use crate::goals::{self, goal_for_pass, less_soundness, over_ask, OVER_ASK, OVER_TWIN};
use crate::measure::{Times, ROUNDS, RUNS};
use crate::names::{is_ask, is_window};
use std::fmt::Write;

// As the page says in words.
const _: () = assert!(STORES == 8);

const HEAD: &str = "\
# Benchmarks

Written by `bench/run`, which builds the proved library and measures it in one run beside:

- (a) a plain Rust twin (bench/src/twin): the same buffers, the same checks, the same ways of doing things. It
  must give the same replies, words and lists on every store, or the run fails. At a phase change it sorts the
  floats to move and puts them in as one run;
- (b) one pass over the 53 KB of lent memory, the fastest that looks at each number once: their sum in their own
  width. The exact sum, in 64 bits, is a slower pass; its time is named too, and the goal goes by the faster one;
- (c) for asks, a linear scan of the records without any check, its ids sorted;
- (d) for window asks, the index's own ask at one time by the same method, of the same rectangles and fleets.

Each call takes 8 stores in turn: the first call is on the first store, the second on the second, the eighth on the
last. A time is the mean over the 8. The stores are alike but for their seeds; floats, ids and rectangles are others
in each. A processor that meets one store again and again learns it: its branch predictor then knows how every test of
every record will come out, and a call may take less than half its time. A host's store changes between calls, and
other work is done meanwhile. So a run takes the stores of each row once, and all other rows come before the next run.
The column \"one store\" has the index's time on the first of the 8 alone, repeated, and so learned; no goal goes by it.

\"Less the soundness test\" is a difference and not a measurement: the time of an ask less that of the soundness test on
the same 8 stores in turn. Every call for hosts but open begins with that test.

Fleets: floats anywhere in the sea, reported evenly at the starts of the three live phases. Where few are fast, 49 in
50 have speeds up to 30 cm/s and the others up to 500 cm/s; where speeds are uniform, each is as likely as any other
from -500 to 500 cm/s, on both axes. Rectangles lie within four cells of the middle of the sea, on the first store in
the middle, and are asked for an hour ahead, or by a window ask for the hour from now on. A phase change with all
floats to move has them all in the phase that dies. Where every second float retires, the fleet reported thirty days
before, every second float a minute before the others. Times are microseconds. All are measured in turn, on fresh
copies of the buffers, so that a busy machine disturbs them alike; what counts are the ratios. Where a function lies
in the program changes the time of its short loops by up to a half; so each, of the index and of the twin, is put at
a multiple of 64 bytes. In a host's program it may lie elsewhere. A ratio in bold misses its goal.
";

const WITHOUT_TEST: &str = "\
\"Without the test\" is measured, over proved code: crates/repeating tests the 8 stores and then asks them in turn, all of
the first store's rectangle, or does not. It is the difference, for each ask.

";

const CELLS_READ: &str = "\
## Cells read

The cells that an ask reads by each method, summed over the three live phases, and the useful ones among them, by
every method the same. The numbers are means over five times of the index in its third phase: its first second, a
quarter, half and three quarters of it, and its last second. Fleets and rectangles are those of the first store above,
where few floats are fast.
`cargo run --offline --release -p bench -- --cells` prints this section alone.

";

/// What `bench/compare` printed of the rows with the most floats when asks were last made
/// faster, with the text that goes before. It stays till there is another such change.
const BEFORE_AND_AFTER: &str = include_str!("../before_and_after.md");

/// A column: its head, and what it says of a row.
type Column = (&'static str, fn(&[Times], &Times) -> Option<String>);

/// The columns. One that says nothing of any row of a table is left out of it.
const COLUMNS: [Column; 12] = [
    ("call", |_, t| Some(t.row.call.clone())),
    ("floats", |_, t| Some(t.row.floats.to_string())),
    ("index", |_, t| Some(format!("{:.1}", t.index))),
    ("one store", |_, t| Some(format!("{:.1}", t.one_store))),
    ("less the soundness test", |all, t| less_soundness(all, t).map(|less| format!("{less:.1}"))),
    ("without the test", |_, t| t.inner.map(|inner| format!("{inner:.1}"))),
    ("(a) twin", |_, t| Some(format!("{:.1}", t.twin))),
    ("index / (a)", |_, t| Some(ratio(t.index / t.twin, OVER_TWIN, 2))),
    ("index / (b)", |_, t| Some(ratio(t.index / t.pass, goal_for_pass(t), 1))),
    ("(c) scan", |_, t| t.scan.map(|scan| format!("{scan:.2}"))),
    ("index / (c)", |_, t| t.scan.map(|scan| format!("{:.0}", t.index / scan))),
    ("index / (d)", |all, t| over_ask(all, t).map(|over| ratio(over, OVER_ASK, 2))),
];

pub fn page(all: &[Times], cells: &[Cells]) -> String {
    let mut page = String::from(HEAD);
    let cores = std::thread::available_parallelism().map_or(1, usize::from);
    let machine = format!("{} on {}, {cores} cores", std::env::consts::ARCH, std::env::consts::OS);
    let medians = format!("The least of {ROUNDS} medians, of {RUNS} runs each");
    let _ = writeln!(page, "\n{medians}. Machine: {machine}.");
    if let Some(Times { pass, exact_pass, .. }) = all.first() {
        let _ = writeln!(page, "(b) takes {pass:.1}, the exact sum {exact_pass:.1}.\n");
    }
    if all.iter().any(|t| t.inner.is_some()) {
        page += WITHOUT_TEST;
    }
    Speeds::ALL.iter().for_each(|speeds| page += &section(all, *speeds));
    page += "## Goals\n\n";
    page += &goals::lines(all);
    page = page + "\n" + BEFORE_AND_AFTER;
    page + "\n" + &cells_read(cells)
}

/// The tables of fleets with such speeds.
fn section(all: &[Times], speeds: Speeds) -> String {
    let of = |wanted: fn(&str) -> bool| -> Vec<&Times> {
        let own = all.iter().filter(|t| t.row.speeds == speeds);
        own.filter(|t| wanted(&t.row.call)).collect()
    };
    let others = table(all, &of(|call| !is_ask(call) && !is_window(call)));
    let asks = table(all, &of(is_ask));
    let windows = table(all, &of(is_window));
    let title = speeds.title();
    format!("## {title}\n\n{others}\n### Asks\n\n{asks}\n### Window asks\n\n{windows}\n")
}

fn table(all: &[Times], rows: &[&Times]) -> String {
    let said = |(_, cell): &Column| rows.iter().any(|t| cell(all, t).is_some());
    let columns: Vec<Column> = COLUMNS.into_iter().filter(said).collect();
    let heads: String = columns.iter().map(|(head, _)| format!(" {head} |")).collect();
    let sides = "---:|".repeat(columns.len() - 1);
    let mut table = format!("|{heads}\n|---|{sides}\n");
    for t in rows {
        let cells = columns.iter().map(|(_, cell)| cell(all, t));
        let cells: String = cells.map(|cell| format!(" {} |", cell.unwrap_or_default())).collect();
        table += &format!("|{cells}\n");
    }
    table
}

/// A ratio, in bold where it is past its goal.
fn ratio(ratio: f64, goal: f64, places: usize) -> String {
    if ratio > goal {
        format!("**{ratio:.places$}**")
    } else {
        format!("{ratio:.places$}")
    }
}

/// The index's times as tab-separated values: call, floats, speeds, the stores in turn,
/// one store.
pub fn values(all: &[Times]) -> String {
    let line = |t: &Times| {
        let (call, floats, speeds) = (&t.row.call, t.row.floats, t.row.speeds.name());
        let (in_turn, one_store) = (t.index, t.one_store);
        format!("{call}\t{floats}\t{speeds}\t{in_turn:.3}\t{one_store:.3}\n")
    };
    all.iter().map(line).collect()
}

/// The section on cells read.
pub fn cells_read(all: &[Cells]) -> String {
    let methods = METHODS.join(" | ");
    let mut section = String::from(CELLS_READ);
    let _ = writeln!(section, "| floats | rectangle | asked time | {methods} | useful |");
    section += "|---:|---|---|---:|---:|---:|---:|---:|\n";
    for Cells { floats, side, asked, read, useful } in all {
        let side = side_name(*side);
        let read = read.map(|cells| format!("{cells:.1}")).join(" | ");
        let _ = writeln!(section, "| {floats} | {side} | {asked} | {read} | {useful:.1} |");
    }
    section
}
