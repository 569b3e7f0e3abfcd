//! What asks name: methods, rectangles, and how far ahead they look.

use buffers::WIDTH;
use dice::Dice;
use float_index::{Rectangle, LAST_POSITION, LONGEST_WINDOW};

pub const METHODS: [&str; 4] = ["naive", "semi-naive", "iterative", "optimal"];
const WHOLE_SEA: i32 = LAST_POSITION + 1;
/// The sides of the asked rectangles.
pub const SIDES: [i32; 3] = [WIDTH, 1_000_000, WHOLE_SEA];
/// How far ahead asks look, and how long windows are.
pub const HOUR: i32 = LONGEST_WINDOW;
/// How far from the middle of the sea rectangles lie at most, on each axis. So near to
/// it, what reaches them is cut off by the edges of the sea about alike.
const AWAY: i32 = 4 * WIDTH;

/// The square of a side with its middle so far from that of the sea, where there is
/// room for it.
fn square(side: i32, [x, y]: [i32; 2]) -> Rectangle {
    let room = WHOLE_SEA - side;
    let [low_x, low_y] = [x, y].map(|away| (room / 2 + away).clamp(0, room));
    Rectangle { low_x, low_y, high_x: low_x + side - 1, high_y: low_y + side - 1 }
}

/// The square of a side in the middle of the sea.
pub fn middle(side: i32) -> Rectangle {
    square(side, [0, 0])
}

/// The square of a side that a store is asked for, of those that are taken in turn:
/// for the first of them in the middle of the sea.
pub fn asked(side: i32, store: usize) -> Rectangle {
    let mut dice = Dice::new(store as u64);
    let mut away = || match store {
        0 => 0,
        _ => dice.range((-AWAY).into(), AWAY.into()) as i32,
    };
    square(side, [away(), away()])
}

pub fn side_name(side: i32) -> String {
    match side {
        WHOLE_SEA => "whole sea".into(),
        _ => format!("side {side}"),
    }
}
