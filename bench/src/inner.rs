//! Asks without their soundness test, over proved code. Hosts have no such call: a
//! library made for measuring (crates/repeating) tests several stores once and then
//! asks them in turn. build.rs says whether it is linked.

use buffers::Words;
use float_index::Rectangle;

/// Several stores one after the other, and so their tables.
pub fn joined<'a>(all: impl Iterator<Item = &'a Words> + Clone) -> Words {
    Words {
        store: all.clone().flat_map(|words| words.store.iter().copied()).collect(),
        table: all.flat_map(|words| words.table.iter().copied()).collect(),
    }
}

/// An ask by a method at a time on each of the joined stores in turn, and that so many
/// times. Gives how many were accepted.
pub type AsksInTurn = fn(&Words, &mut [u16], usize, i32, i32, Rectangle) -> usize;

#[cfg(not(asks_in_turn))]
pub const ASKS_IN_TURN: Option<AsksInTurn> = None;

#[cfg(asks_in_turn)]
pub const ASKS_IN_TURN: Option<AsksInTurn> = Some(asks_in_turn);

#[cfg(asks_in_turn)]
fn asks_in_turn(
    all: &Words,
    list: &mut [u16],
    turns: usize,
    method: i32,
    t: i32,
    q: Rectangle,
) -> usize {
    #[rustfmt::skip]
    extern "C" {
        fn float_index_asks_in_turn(s: *const i32, sn: usize, t: *const i16, tn: usize,
            list: *mut u16, ids: usize, turns: usize, method: i32, asked: i32,
            low_x: i32, low_y: i32, high_x: i32, high_y: i32) -> usize;
    }
    let (s, sn) = (all.store.as_ptr(), all.store.len());
    let (table, tn) = (all.table.as_ptr(), all.table.len());
    let (ids, n) = (list.as_mut_ptr(), list.len());
    let Rectangle { low_x: x0, low_y: y0, high_x: x1, high_y: y1 } = q;
    // SAFETY: as for the calls of float_index, the function is for slices of every
    // length and content.
    unsafe { float_index_asks_in_turn(s, sn, table, tn, ids, n, turns, method, t, x0, y0, x1, y1) }
}
