//! The float index for Rust programs: safe functions over the proved library.
//!
//! Floats drift in the sea and send in a position and a drift. An ask names a
//! rectangle and a time, or a window of time, and gets the floats predicted
//! inside.
//!
//! Positions are centimetres, speeds centimetres per second, times seconds, all
//! whole numbers. The index lives in two buffers that the caller lends: a store
//! of [`STORE_WORDS`] words and a table of [`TABLE_NUMBERS`] numbers.
//!
//! A float that has sent nothing for [`SILENCE`] seconds is silent. Every clock
//! step, also that of an [`add`], a [`report`] or a [`drop`], first retires the
//! silent floats: they are no longer held, and their ids may be added again.
//! Whether an id is held, whether the store is full and how many floats are held
//! is judged after that. A refused call retires none. Store and table may be lent
//! with silent floats; asks list these till the next accepted step.
//!
//! Every call takes any numbers, and buffers of any length with any content. It
//! either does its whole work, or gives the number of a refusal and leaves
//! store, table and list as they were. Checks run in the order in which the
//! numbers stand in [`refusal`], and the first to fail is given. Nothing is
//! allocated, and nothing is kept between calls. A call may need
//! [`STACK_BYTES`] of stack.

/// The words of a store; with any other length calls are refused with 1.
pub const STORE_WORDS: usize = 7_175;
/// The numbers of a table; with any other length calls are refused with 1.
pub const TABLE_NUMBERS: usize = 12_288;
/// The most floats held; a list of so many ids is never too short.
pub const MOST_HELD: usize = 1_024;
/// Ids are 1 to this.
pub const LAST_ID: i32 = 65_535;
/// Times are 0 to this, in seconds.
pub const LAST_TIME: i32 = 999_999_999;
/// Positions of reports and of corners are 0 to this, in centimetres.
pub const LAST_POSITION: i32 = 8_388_607;
/// Speeds are from minus this to this, in centimetres per second.
pub const TOP_SPEED: i32 = 500;
/// How far before now an ask's time may lie, in seconds.
pub const ASK_BEFORE: i32 = 3_600;
/// How far after now an ask's time may lie, in seconds.
pub const ASK_AFTER: i32 = 7_200;
/// How far after its first time a window's last time may lie, in seconds.
pub const LONGEST_WINDOW: i32 = 3_600;
/// A float is silent from so many seconds after its last report on, and retires in
/// the next clock step.
pub const SILENCE: i32 = 2_592_000;
/// Stack that a call may need.
pub const STACK_BYTES: usize = 262_144;

/// How an ask chooses the cells that it reads. All four list the same ids.
pub mod method {
    pub const NAIVE: i32 = 0;
    pub const SEMI_NAIVE: i32 = 1;
    pub const ITERATIVE: i32 = 2;
    pub const OPTIMAL: i32 = 3;
}

/// The numbers that a call gives back, in the order of the checks. A window ask is
/// an ask.
pub mod refusal {
    /// No refusal.
    pub const ACCEPTED: usize = 0;
    /// Store or table has another length.
    pub const WRONG_LENGTH: usize = 1;
    /// Store or table unsound; not for open.
    pub const UNSOUND: usize = 2;
    /// Time out of its range, below now, or, for an ask, too far from now.
    pub const BAD_TIME: usize = 3;
    /// Window ask: the last time is before the first, or more than
    /// [`crate::LONGEST_WINDOW`] after it.
    pub const BAD_WINDOW: usize = 10;
    /// Id, position, speed, method or corner out of its range; low above high.
    pub const BAD_NUMBER: usize = 4;
    /// Add: the id is held, after silent floats have retired.
    pub const ALREADY_HELD: usize = 5;
    /// Report, drop: the id is not held, after silent floats have retired.
    pub const NOT_HELD: usize = 6;
    /// Add: [`crate::MOST_HELD`] floats are held, after silent ones have retired.
    pub const FULL: usize = 7;
    /// Ask: the list is shorter than the ids needed.
    pub const LIST_TOO_SHORT: usize = 8;
}

/// What a call gives back.
#[repr(C)]
#[derive(Clone, Copy, Debug, Default, PartialEq, Eq)]
#[must_use]
pub struct Reply {
    /// 0 where the call is accepted, else the number of the refusal.
    pub number: usize,
    /// The floats held after an accepted clock, add, report or drop, the ids
    /// listed by an accepted ask, the ids needed with number 8, and else 0.
    pub value: usize,
    /// Cells read by an accepted ask, summed over the live phases, and else 0.
    pub cells: usize,
    /// Those of them with a listed float in them.
    pub useful: usize,
    /// Rounds of the iterative method.
    pub rounds: usize,
}

impl Reply {
    pub fn is_accepted(&self) -> bool {
        self.number == refusal::ACCEPTED
    }
}

/// What a float sends: at time `t` it was at (`x`, `y`) and drifted at
/// (`vx`, `vy`).
#[derive(Clone, Copy, Debug, PartialEq, Eq)]
pub struct Report {
    pub id: i32,
    pub t: i32,
    pub x: i32,
    pub y: i32,
    pub vx: i32,
    pub vy: i32,
}

/// A rectangle of the sea, edges included.
#[derive(Clone, Copy, Debug, PartialEq, Eq)]
pub struct Rectangle {
    pub low_x: i32,
    pub low_y: i32,
    pub high_x: i32,
    pub high_y: i32,
}

/// The exported functions. A slice is a pointer, not null and aligned, and the
/// count of its numbers; Rust's slices are always so.
mod exported {
    use super::Reply;

    #[rustfmt::skip]
    extern "C" {
        pub fn float_index_open(s: *mut i32, sn: usize, t: *mut i16, tn: usize, time: i32) -> Reply;
        pub fn float_index_clock(s: *mut i32, sn: usize, t: *mut i16, tn: usize, time: i32) -> Reply;
        pub fn float_index_add(s: *mut i32, sn: usize, t: *mut i16, tn: usize,
            id: i32, time: i32, x: i32, y: i32, vx: i32, vy: i32) -> Reply;
        pub fn float_index_report(s: *mut i32, sn: usize, t: *mut i16, tn: usize,
            id: i32, time: i32, x: i32, y: i32, vx: i32, vy: i32) -> Reply;
        pub fn float_index_drop(s: *mut i32, sn: usize, t: *mut i16, tn: usize,
            id: i32, time: i32) -> Reply;
        pub fn float_index_ask(s: *const i32, sn: usize, t: *const i16, tn: usize,
            list: *mut u16, ids: usize, method: i32, asked: i32,
            low_x: i32, low_y: i32, high_x: i32, high_y: i32) -> Reply;
        pub fn float_index_ask_window(s: *const i32, sn: usize, t: *const i16, tn: usize,
            list: *mut u16, ids: usize, method: i32, first: i32, last: i32,
            low_x: i32, low_y: i32, high_x: i32, high_y: i32) -> Reply;
        pub fn float_index_is_sound(s: *const i32, sn: usize, t: *const i16, tn: usize) -> bool;
    }
}

/// Both buffers as the exported functions take them.
fn lent(store: &mut [i32], table: &mut [i16]) -> (*mut i32, usize, *mut i16, usize) {
    (store.as_mut_ptr(), store.len(), table.as_mut_ptr(), table.len())
}

/// The same where they are only read.
fn read(store: &[i32], table: &[i16]) -> (*const i32, usize, *const i16, usize) {
    (store.as_ptr(), store.len(), table.as_ptr(), table.len())
}

// SAFETY, for each function below: the exported function is proved for slices
// of every length and content and for all numbers. It keeps no pointer, and
// Rust's borrows keep the slices apart and unchanged by others meanwhile.

/// Opens the index at time `t`, whatever the buffers held: no float is held and
/// every row is empty. Gives 0. Refused with 1 and 3 only. Buffers of a version that
/// placed floats by the start of their hour are not carried over: open them anew.
pub fn open(store: &mut [i32], table: &mut [i16], t: i32) -> Reply {
    let (s, sn, w, wn) = lent(store, table);
    unsafe { exported::float_index_open(s, sn, w, wn, t) }
}

/// The clock goes to time `t`, which is not below now. Gives the floats held.
/// First the floats that are silent at `t` retire; the rows in which they are placed
/// do not narrow.
/// When `t` lies in a later phase, the rows of newly live phases are emptied and
/// the floats of phases that are no longer live are placed in the current one.
/// Refused with 1, 2 and 3.
pub fn clock(store: &mut [i32], table: &mut [i16], t: i32) -> Reply {
    let (s, sn, w, wn) = lent(store, table);
    unsafe { exported::float_index_clock(s, sn, w, wn, t) }
}

/// A float that is not held sends its first report; the clock goes to its time
/// first, as by [`clock`], so an id whose float is silent then may be added again.
/// Gives the floats held. Refused with 1, 2, 3, 4, 5 and 7.
pub fn add(store: &mut [i32], table: &mut [i16], r: Report) -> Reply {
    let (s, sn, w, wn) = lent(store, table);
    unsafe { exported::float_index_add(s, sn, w, wn, r.id, r.t, r.x, r.y, r.vx, r.vy) }
}

/// A held float sends a new report, which replaces the one before; the clock
/// goes to its time first, as by [`clock`], and a float that is silent then is no
/// longer held. Gives the floats held. Refused with 1, 2, 3, 4 and 6.
pub fn report(store: &mut [i32], table: &mut [i16], r: Report) -> Reply {
    let (s, sn, w, wn) = lent(store, table);
    unsafe { exported::float_index_report(s, sn, w, wn, r.id, r.t, r.x, r.y, r.vx, r.vy) }
}

/// A held float is taken out; the clock goes to `t` first, as by [`clock`], and a
/// float that is silent then is no longer held. Gives the floats held. Refused
/// with 1, 2, 3, 4 and 6.
pub fn drop(store: &mut [i32], table: &mut [i16], id: i32, t: i32) -> Reply {
    let (s, sn, w, wn) = lent(store, table);
    unsafe { exported::float_index_drop(s, sn, w, wn, id, t) }
}

/// The held floats predicted inside the rectangle at the asked time, edges
/// included. A float whose report time is after the asked time is not among them.
/// Their ids are written in front of the list by rising number, and the rest of
/// it is kept; the value is how many they are. A list of any length will do
/// where the ids needed fit, an empty one where none is needed. Refused with 1, 2,
/// 3, 4 and 8.
pub fn ask(
    store: &[i32],
    table: &[i16],
    list: &mut [u16],
    method: i32,
    asked: i32,
    rectangle: Rectangle,
) -> Reply {
    let (s, sn, w, wn) = read(store, table);
    let (l, ln) = (list.as_mut_ptr(), list.len());
    let Rectangle { low_x, low_y, high_x, high_y } = rectangle;
    unsafe {
        exported::float_index_ask(s, sn, w, wn, l, ln, method, asked, low_x, low_y, high_x, high_y)
    }
}

/// The held floats predicted inside the rectangle at some moment from the first
/// time to the last, on both axes at that same moment, edges and fractions of a
/// second included. For a float that reported after the first time only the
/// moments from its report on count. With `first` equal to `last` it is [`ask`]
/// at that time. List and value are as there. Refused with 1, 2, 3, 10, 4 and 8,
/// in this order.
pub fn ask_window(
    store: &[i32],
    table: &[i16],
    list: &mut [u16],
    method: i32,
    first: i32,
    last: i32,
    rectangle: Rectangle,
) -> Reply {
    let (s, sn, w, wn) = read(store, table);
    let (l, ln) = (list.as_mut_ptr(), list.len());
    let Rectangle { low_x: x0, low_y: y0, high_x: x1, high_y: y1 } = rectangle;
    unsafe {
        exported::float_index_ask_window(s, sn, w, wn, l, ln, method, first, last, x0, y0, x1, y1)
    }
}

/// Whether store and table have their lengths and are sound, so that no call
/// refuses them with 1 or 2.
pub fn is_sound(store: &[i32], table: &[i16]) -> bool {
    let (s, sn, w, wn) = read(store, table);
    unsafe { exported::float_index_is_sound(s, sn, w, wn) }
}
