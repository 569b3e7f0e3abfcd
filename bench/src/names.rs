//! What rows are called.

use crate::asks::{side_name, METHODS};

pub const SOUNDNESS: &str = "soundness test";
/// How the names of asks begin, at one time and over a window. They go on alike.
pub const ASK: &str = "ask, ";
pub const WINDOW: &str = "window ask, ";

pub fn is_ask(call: &str) -> bool {
    call.starts_with(ASK)
}

pub fn is_window(call: &str) -> bool {
    call.starts_with(WINDOW)
}

/// The name of an ask of a kind.
pub fn ask_name(kind: &str, method: usize, side: i32) -> String {
    format!("{kind}{}, {}", METHODS[method], side_name(side))
}
