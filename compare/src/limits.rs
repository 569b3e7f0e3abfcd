//! The numbers of documents 01 and 02, once for the ledger and what is compared
//! with it. The index's side has its own (bindings/rust, buffers), so that a slip
//! on one side is not the other's too.

/// The grid's columns, and its rows.
pub const SIDE: usize = 32;
pub const CELLS: usize = SIDE * SIDE;
/// Width and height of a cell.
pub const WIDTH: i64 = 262_144;
/// The greatest coordinate in the sea.
pub const SEA: i64 = WIDTH * SIDE as i64 - 1;
/// The greatest speed, either way.
pub const TOP_SPEED: i64 = 500;
pub const LAST_TIME: i64 = 999_999_999;
pub const LAST_ID: i64 = 65_535;
pub const MOST_HELD: usize = 1_024;
/// The seconds of a phase.
pub const PHASE: i64 = 3_600;
/// How long after its start the reference time of a phase lies, in seconds.
pub const MID_PHASE: i64 = 1_800;
/// A float that has sent nothing for so many seconds is lost.
pub const SILENCE: i64 = 2_592_000;
/// Live phases, and so the remainders by which their rows are kept.
pub const SLOTS: usize = 3;
/// How far before now and after now an ask's time may lie.
pub const ASK_BEFORE: i64 = 3_600;
pub const ASK_AFTER: i64 = 7_200;
/// How far after its first time a window's last time may lie.
pub const LONGEST_WINDOW: i64 = 3_600;
/// Methods are 0 to this.
pub const LAST_METHOD: i64 = 3;
