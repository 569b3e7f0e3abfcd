//! Inputs for a program that makes up fleets: orders at the limits, orders from
//! dice, and orders with something wrong in them. The same in every run.

use crate::fleets::{ORDER, STATES};
use crate::limits::MOST_HELD;
use crate::lines::COLUMNS;
use dice::Dice;

pub struct FleetInput {
    pub kind: &'static str,
    pub bytes: Vec<u8>,
}

/// Starts at the ends of their range and of half of it.
const STARTS: [u64; 5] = [0, 1, STATES / 2 - 1, STATES / 2, STATES - 1];
const MOST: u64 = MOST_HELD as u64;
/// Texts for a number that are no number, or none in range.
const BAD_NUMBERS: &str = "4294967296|4294967297|9999999999|1025|65536|65537|01|007|00|\
    0000000000|0000000005|+5|-0|-1|-||1 2|5 |5         |x|0x5|5.0|1e3|1,024|\t5|5\r|5\0";
/// What one byte of an order may turn into, or be followed by.
const BYTES: &[u8] = b" 0159-+.x\n\r\t\0\x80\xff";
/// Orders from dice, and as many with something wrong from dice.
const DICED: usize = 1_200;
/// A length far past every piece in which a program may read.
const LONG: usize = 1_000_000;

pub fn fleet_inputs() -> Vec<FleetInput> {
    let kinds: [(&'static str, Vec<Vec<u8>>); 6] = [
        ("limits", limits()),
        ("orders", orders()),
        ("bad numbers", bad_numbers()),
        ("one byte", one_byte()),
        ("other lengths", other_lengths()),
        ("damaged", damaged()),
    ];
    let of = |(kind, inputs): (_, Vec<Vec<u8>>)| {
        inputs.into_iter().map(move |bytes| FleetInput { kind, bytes })
    };
    kinds.into_iter().flat_map(of).collect()
}

/// An order without its newline.
fn order(start: u64, floats: u64, skip: u64) -> Vec<u8> {
    format!("{start:10}{floats:10}{skip:10}").into_bytes()
}

fn ended(mut line: Vec<u8>) -> Vec<u8> {
    line.push(b'\n');
    line
}

/// Two orders that all else is damaged from: one with blanks before each number,
/// one with a number that fills its columns.
fn sound() -> [Vec<u8>; 2] {
    [order(7, 12, 9), order(STATES - 1, MOST, MOST - 3)]
}

/// Each number at the ends of its range and past them, with the newline and
/// without.
fn limits() -> Vec<Vec<u8>> {
    let mut inputs = Vec::new();
    for start in STARTS.into_iter().chain([STATES]) {
        for floats in [0, 1, 2, MOST - 1, MOST, MOST + 1] {
            let mut skips = vec![0, 1, floats.saturating_sub(1), floats, floats + 1];
            skips.sort();
            skips.dedup();
            for line in skips.into_iter().map(|skip| order(start, floats, skip)) {
                inputs.push(ended(line.clone()));
                inputs.push(line);
            }
        }
    }
    inputs
}

/// An order from dice: fleets of every size, most of them small.
fn any_order(dice: &mut Dice) -> Vec<u8> {
    let any = dice.bits() % STATES;
    let start = any >> dice.range(0, 31);
    let most = dice.pick(&[5, 50, 50, MOST as i64]);
    let floats = dice.range(1, most);
    let skip = match dice.range(0, 3) {
        0 => 0,
        1 => floats - dice.range(0, 1),
        _ => dice.range(0, floats),
    };
    let line = order(start, floats as u64, skip as u64);
    if dice.chance(500) {
        line
    } else {
        ended(line)
    }
}

fn orders() -> Vec<Vec<u8>> {
    let mut dice = Dice::new(5_001);
    (0..DICED).map(|_| any_order(&mut dice)).collect()
}

/// Each text that is no number, or none in range, in the place of each number.
fn bad_numbers() -> Vec<Vec<u8>> {
    let mut inputs = Vec::new();
    for text in BAD_NUMBERS.split('|') {
        for number in 0..ORDER / COLUMNS {
            let mut line = ended(order(7, 12, 9));
            let field = number * COLUMNS;
            line.splice(field..field + COLUMNS, format!("{text:>10}").into_bytes());
            inputs.push(line);
        }
    }
    inputs
}

/// A byte changed, removed or added, at each place.
fn one_byte() -> Vec<Vec<u8>> {
    let mut inputs = Vec::new();
    for line in sound().map(ended) {
        for place in 0..=line.len() {
            let (before, after) = line.split_at(place);
            let rest = after.get(1..).unwrap_or_default();
            inputs.push([before, rest].concat());
            for byte in BYTES {
                inputs.push([before, &[*byte], rest].concat());
            }
            for byte in b" 0\n" {
                inputs.push([before, &[*byte], after].concat());
            }
        }
    }
    inputs
}

/// No line, more lines than one, and lines that are too short or too long.
fn other_lengths() -> Vec<Vec<u8>> {
    let [line, other] = sound();
    let mut inputs = vec![Vec::new()];
    for length in (1..4).chain(ORDER - 1..ORDER + 4).chain([LONG]) {
        inputs.extend([b' ', b'0', b'7', b'\n', 0].map(|fill| vec![fill; length]));
    }
    for cut in 0..ORDER {
        inputs.push(line[..cut].to_vec());
        inputs.push(ended(line[..cut].to_vec()));
    }
    for behind in ["\n\n", "\r\n", "\n\r", "\n ", "\n\0", "\0\n", " \n", "         0\n"] {
        inputs.push([&line[..], behind.as_bytes()].concat());
    }
    for before in ["\n", " ", "\0", "A", "         0"] {
        inputs.push([before.as_bytes(), &line].concat());
    }
    inputs.push([&ended(line.clone())[..], &other].concat());
    inputs.push([&ended(line.clone())[..], &ended(other)].concat());
    inputs.push(ended(line).into_iter().cycle().take(LONG).collect());
    inputs
}

/// Orders from dice with one or two bytes wrong, or with a number from dice in
/// the place of one of theirs.
fn damaged() -> Vec<Vec<u8>> {
    let mut dice = Dice::new(5_002);
    let mut inputs = Vec::new();
    for _ in 0..DICED {
        let mut line = any_order(&mut dice);
        for _ in 0..dice.range(1, 2) {
            damage(&mut dice, &mut line);
        }
        inputs.push(line);
    }
    inputs
}

fn damage(dice: &mut Dice, line: &mut Vec<u8>) {
    let place = dice.below(line.len());
    let bytes = [dice.pick(BYTES), dice.range(0, 255) as u8];
    let byte = dice.pick(&bytes);
    match dice.range(0, 5) {
        0 | 1 => line[place] = byte,
        2 => drop(line.remove(place)),
        3 => line.insert(place, byte),
        4 => line.push(byte),
        _ => {
            let number = dice.bits() % 10_000_000_000 / dice.pick(&[1, 1_000, 10_000_000]);
            let field = (place / COLUMNS * COLUMNS).min(ORDER - COLUMNS);
            let end = line.len().min(field + COLUMNS);
            line.splice(field..end, format!("{number:10}").into_bytes());
        }
    }
}
