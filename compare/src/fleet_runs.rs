//! The fleet program compared with the plain rule for made-up fleets, byte by
//! byte; its lines are read back and given to the ledger.

use crate::programs::{fail, first_difference, line, through_pipe};
use plain_ledger::fleet_inputs::{fleet_inputs, FleetInput};
use plain_ledger::fleets::{fleet, written, WrongFleet, ORDER};
use plain_ledger::ledger::Call;
use plain_ledger::lines::{read_call, write_line, COLUMNS};
use plain_ledger::stream::answers;
use std::path::Path;
use std::process::exit;
use std::time::{Duration, Instant};

/// Every so many inputs come in pieces of these lengths too, a pause after each.
const IN_PIECES: usize = 50;
const PIECES: [usize; 5] = [1, COLUMNS, ORDER - 1, ORDER, ORDER + 1];
const PAUSE: Duration = Duration::from_millis(1);

/// How many inputs gave a fleet with lines, one with every line skipped and a
/// `?`, and how many lines there were.
#[derive(Clone, Copy, Debug, Default, PartialEq, Eq)]
struct Counts {
    fleets: usize,
    skipped: usize,
    refused: usize,
    lines: usize,
}

/// The least of each without which a comparison says too little.
const LEAST: Counts = Counts { fleets: 1_000, skipped: 100, refused: 1_000, lines: 100_000 };

impl Counts {
    fn add(&mut self, due: &[u8]) {
        match due {
            b"" => self.skipped += 1,
            b"?\n" => self.refused += 1,
            _ => {
                self.fleets += 1;
                self.lines += due.split_inclusive(|byte| *byte == b'\n').count();
            }
        }
    }

    fn reaches(&self, least: &Counts) -> bool {
        self.fleets >= least.fleets
            && self.skipped >= least.skipped
            && self.refused >= least.refused
            && self.lines >= least.lines
    }
}

/// Compares the program with the rule on every input.
pub fn compare_fleets(program: &Path) {
    let begun = Instant::now();
    let mut counts = Counts::default();
    let mut pieces = PIECES.into_iter().cycle();
    let inputs = fleet_inputs();
    for (index, input) in inputs.iter().enumerate() {
        let whole = input.bytes.len().max(1);
        compare_one(program, input, whole, Duration::ZERO);
        if index % IN_PIECES == 0 && whole <= 2 * ORDER {
            let length = pieces.next().unwrap_or(1);
            compare_one(program, input, length, PAUSE);
        }
        counts.add(&written(&input.bytes, None));
    }
    let Counts { fleets, skipped, refused, lines } = counts;
    print!("{} inputs the same: {fleets} wrote {lines} lines, each read back", inputs.len());
    print!(" and accepted; {skipped} skipped every line; {refused} wrote ?");
    println!("; {:.1} s", begun.elapsed().as_secs_f64());
    if !counts.reaches(&LEAST) {
        fail(&format!("too few of a kind: there should be {LEAST:?}"));
    }
}

fn compare_one(program: &Path, input: &FleetInput, length: usize, pause: Duration) {
    let wanted = written(&input.bytes, None);
    let got = through_pipe(program, &input.bytes, length, pause);
    if let Some(number) = first_difference(&wanted, &got) {
        println!("difference in {}, in pieces of {length}, line {}", input.kind, number + 1);
        println!("  input   {}", line(&input.bytes, 0));
        println!("  due     {}", line(&wanted, number));
        println!("  written {}", line(&got, number));
        exit(1)
    }
    if !reads_back(&input.bytes, &got) || !is_accepted(&input.bytes, &got) {
        fail(&format!("no calls, or refused: the fleet of {}", line(&input.bytes, 0)));
    }
}

/// Whether each line that was written for an input is the call that adds its
/// float.
fn reads_back(input: &[u8], got: &[u8]) -> bool {
    let Some(reports) = fleet(input, None) else {
        return true;
    };
    let lines = got.split_inclusive(|byte| *byte == b'\n');
    let calls = lines.map(|line| line.strip_suffix(b"\n").and_then(read_call));
    calls.eq(reports.into_iter().map(|report| Some(Call::Add(report))))
}

/// Whether the ledger accepts each line in turn, and holds one float more.
fn is_accepted(input: &[u8], got: &[u8]) -> bool {
    let Some(reports) = fleet(input, None) else {
        return true;
    };
    let mut accepted = Vec::new();
    for held in 1..=reports.len() {
        write_line(b'A', &[0, held as i64], &mut accepted);
    }
    answers(got, None) == accepted
}

/// The first of the inputs, and its line, that tell the rule from a wrong one.
fn first_found(inputs: &[FleetInput], wrong: WrongFleet) -> Option<(&FleetInput, usize)> {
    inputs.iter().find_map(|input| {
        let right = written(&input.bytes, None);
        let number = first_difference(&right, &written(&input.bytes, Some(wrong)))?;
        Some((input, number))
    })
}

pub fn fleet_mutants() {
    let inputs = fleet_inputs();
    for &wrong in WrongFleet::ALL {
        let Some((input, number)) = first_found(&inputs, wrong) else {
            fail(&format!("{wrong:?} is not found"));
        };
        println!("{wrong:?} is found in {}, line {}", input.kind, number + 1);
        println!("  input {}", line(&input.bytes, 0));
        println!("  right {}", line(&written(&input.bytes, None), number));
        println!("  wrong {}", line(&written(&input.bytes, Some(wrong)), number));
    }
}

#[cfg(test)]
mod tests;
