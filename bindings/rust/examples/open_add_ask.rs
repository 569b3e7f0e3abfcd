//! Opens the index, adds two floats, asks where they are an hour later by each
//! method and who comes by in a window, and shows two refusals. It prints what
//! examples/open_add_ask.c does.

use float_index::{method, Rectangle, Reply, Report, MOST_HELD, STORE_WORDS, TABLE_NUMBERS};

fn print_change(call: &str, reply: Reply) {
    println!("{call}: number {}, value {}", reply.number, reply.value);
}

fn print_ask(call: &str, reply: Reply, list: &[u16]) {
    let Reply { number, value, cells, useful, rounds } = reply;
    print!("{call}: number {number}, value {value}, cells {cells}, useful {useful}, rounds {rounds}, ids");
    let listed = if reply.is_accepted() { value } else { 0 };
    for id in &list[..listed] {
        print!(" {id}");
    }
    println!();
}

const RECTANGLE: Rectangle =
    Rectangle { low_x: 400_000, low_y: 0, high_x: 500_000, high_y: 200_000 };
const EAST: Report = Report { id: 7, t: 0, x: 100_000, y: 100_000, vx: 100, vy: 0 };
const WEST: Report = Report { id: 9, x: 600_000, vx: -50, ..EAST };

fn main() {
    let mut store = vec![0; STORE_WORDS];
    let mut table = vec![0; TABLE_NUMBERS];
    let mut list = vec![0; MOST_HELD];
    let methods = [
        ("naive", method::NAIVE),
        ("semi-naive", method::SEMI_NAIVE),
        ("iterative", method::ITERATIVE),
        ("optimal", method::OPTIMAL),
    ];

    print_change("open", float_index::open(&mut store, &mut table, 0));
    print_change("add 7", float_index::add(&mut store, &mut table, EAST));
    print_change("add 9", float_index::add(&mut store, &mut table, WEST));
    for (name, method) in methods {
        let reply = float_index::ask(&store, &table, &mut list, method, 3_600, RECTANGLE);
        print_ask(name, reply, &list);
    }
    let optimal = method::OPTIMAL;
    let reply = float_index::ask_window(&store, &table, &mut list, optimal, 0, 2_000, RECTANGLE);
    print_ask("window", reply, &list);
    let one = &mut list[..1];
    let reply = float_index::ask(&store, &table, one, optimal, 3_600, RECTANGLE);
    print_ask("list of one id", reply, one);
    print_change("drop 7", float_index::drop(&mut store, &mut table, 7, 10));
    print_change("drop 7", float_index::drop(&mut store, &mut table, 7, 20));
    let reply = float_index::ask(&store, &table, &mut list, optimal, 3_600, RECTANGLE);
    print_ask("optimal", reply, &list);
}
