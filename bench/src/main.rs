//! Measures every call of the index beside a plain Rust twin, one pass over the
//! lent memory and a linear scan, and writes the page of results.
//!
//!     bench FILE      measures, and writes FILE
//!     bench --rows    measures, and prints the index's times, tab-separated
//!     bench --cells   prints the page's section on cells read, and measures nothing
//!     bench           a short run, which checks that index and twin agree

mod asks;
mod calls;
mod cells;
mod fleet;
mod goals;
mod inner;
mod measure;
mod names;
mod page;
mod row;
mod twin;

use measure::{measured, ROUNDS, RUNS};
use row::Row;
use std::process::ExitCode;

fn main() -> ExitCode {
    match std::env::args().nth(1).as_deref() {
        None => {
            let calls: usize = measured(&rows(), 1, 1).iter().map(|t| t.row.calls.len()).sum();
            println!("index and twin agree in {calls} calls");
        }
        Some("--cells") => print!("{}", page::cells_read(&cells::all())),
        Some("--rows") => print!("{}", page::values(&measured(&rows(), ROUNDS, RUNS))),
        Some(file) => return write(file),
    }
    ExitCode::SUCCESS
}

/// The rows, in which index and twin agree.
fn rows() -> Vec<Row> {
    let rows = calls::rows();
    rows.iter().for_each(Row::check);
    rows
}

/// Measures, and writes the page.
fn write(file: &str) -> ExitCode {
    let page = page::page(&measured(&rows(), ROUNDS, RUNS), &cells::all());
    print!("{page}");
    match std::fs::write(file, page) {
        Ok(()) => ExitCode::SUCCESS,
        Err(error) => {
            eprintln!("{file}: {error}");
            ExitCode::FAILURE
        }
    }
}
