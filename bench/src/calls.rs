//! The calls that are measured.

use crate::asks::{asked, HOUR, METHODS, SIDES};
use crate::fleet::{time_in, Fleet, Speeds, FLEETS, STORES};
use crate::inner::{joined, ASKS_IN_TURN};
use crate::names::{ask_name, ASK, SOUNDNESS, WINDOW};
use crate::row::{Act, Asks, Call, InTurn, Row};
use crate::twin::{self, At, During, When};
use buffers::{Words, HELD, NOW};
use float_index::{Rectangle, Reply, Report, MOST_HELD};
use std::rc::Rc;

/// A call that changes the buffers, by its numbers.
type Change<N> = fn(&mut Words, N) -> Reply;

/// A store that is measured with, and the fleet that its floats are of.
struct Store {
    /// Which of those that calls take in turn, from 0 on.
    number: usize,
    fleet: Fleet,
    words: Rc<Words>,
}

impl Store {
    fn now(&self) -> i32 {
        self.words.store[NOW]
    }

    /// The id of the float in the middle of the fleet.
    fn middle_id(&self) -> i32 {
        self.fleet.float(self.words.store[HELD] as usize / 2, 0).id
    }

    /// A float that is not among those held.
    fn new_float(&self) -> Report {
        self.fleet.float(5_000, time_in(2))
    }
}

/// The stores that a call takes in turn, all alike but for their seeds.
struct Stores {
    speeds: Speeds,
    stores: Vec<Store>,
    /// The words of all of them.
    joined: Rc<Words>,
}

impl Stores {
    /// Stores of each size, of both speeds. The speeds change faster: a call on one
    /// kind is then measured between those on the other, so that the branch predictor
    /// does not keep what it learned of them in the row before.
    fn each(words: impl Fn(&Fleet, usize) -> Words) -> Vec<Stores> {
        let sizes = FLEETS.into_iter();
        let each = sizes.flat_map(|floats| Speeds::ALL.map(|speeds| (floats, speeds)));
        each.map(|(floats, speeds)| Stores::new(speeds, |fleet| words(fleet, floats))).collect()
    }

    fn new(speeds: Speeds, words: impl Fn(&Fleet) -> Words) -> Stores {
        let store = |number| {
            let fleet = Fleet::of_store(speeds, number);
            let words = Rc::new(words(&fleet));
            Store { number, fleet, words }
        };
        let stores: Vec<Store> = (0..STORES).map(store).collect();
        let joined = Rc::new(joined(stores.iter().map(|store| &*store.words)));
        Stores { speeds, stores, joined }
    }

    fn floats(&self) -> usize {
        self.stores[0].words.store[HELD] as usize
    }

    fn row(&self, call: &str, of: impl Fn(&Store) -> Call) -> Row {
        Row {
            call: call.into(),
            floats: self.floats(),
            speeds: self.speeds,
            calls: self.stores.iter().map(of).collect(),
            in_turn: None,
        }
    }

    /// The same change by the index and by the twin, by numbers that each store has
    /// of its own.
    fn change<N: Copy + 'static>(
        &self,
        call: &str,
        numbers: impl Fn(&Store) -> N,
        [index, twin]: [Change<N>; 2],
    ) -> Row {
        self.row(call, |store| {
            let n = numbers(store);
            let base = Rc::clone(&store.words);
            let index: Act = Box::new(move |w, _| index(w, n));
            let twin: Act = Box::new(move |w, _| twin(w, n));
            Call { base, index, twin, scan: None }
        })
    }

    fn open(&self) -> Row {
        let index: Change<i32> = |w, t| float_index::open(&mut w.store, &mut w.table, t);
        self.change("open", |_| 5, [index, twin::open])
    }

    fn soundness(&self) -> Row {
        fn reply(sound: bool) -> Reply {
            Reply { number: usize::from(!sound), ..Reply::default() }
        }
        let index: Change<()> = |w, ()| reply(float_index::is_sound(&w.store, &w.table));
        let twin: Change<()> = |w, ()| reply(twin::is_sound(w));
        self.change(SOUNDNESS, |_| (), [index, twin])
    }

    fn clock(&self, call: &str, t: impl Fn(&Store) -> i32) -> Row {
        let index: Change<i32> = |w, t| float_index::clock(&mut w.store, &mut w.table, t);
        self.change(&format!("clock, {call}"), t, [index, twin::clock])
    }

    fn next_second(&self, call: &str) -> Row {
        self.clock(call, |store| store.now() + 1)
    }

    fn add(&self) -> Row {
        let index: Change<Report> = |w, r| float_index::add(&mut w.store, &mut w.table, r);
        self.change("add", Store::new_float, [index, twin::add])
    }

    fn report(&self) -> Row {
        let index: Change<Report> = |w, r| float_index::report(&mut w.store, &mut w.table, r);
        let new = |store: &Store| Report { id: store.middle_id(), ..store.new_float() };
        self.change("report", new, [index, twin::report])
    }

    fn drop(&self) -> Row {
        let index: Change<(i32, i32)> =
            |w, (id, t)| float_index::drop(&mut w.store, &mut w.table, id, t);
        let twin: Change<(i32, i32)> = |w, (id, t)| twin::drop(w, id, t);
        self.change("drop", |store| (store.middle_id(), time_in(2)), [index, twin])
    }

    /// An ask an hour ahead.
    fn ask(&self, method: usize, side: i32) -> Row {
        let row = self.row(&ask_name(ASK, method, side), |store| {
            let (number, q) = (method as i32, asked(side, store.number));
            let t = store.now() + HOUR;
            beside(store, asking(number, t, q), number, At(t.into()), q)
        });
        Row { in_turn: self.in_turn(method as i32, side), ..row }
    }

    /// The first store's ask, of all stores in turn.
    fn in_turn(&self, method: i32, side: i32) -> Option<InTurn> {
        let asks_in_turn = ASKS_IN_TURN?;
        let all = Rc::clone(&self.joined);
        let (t, q) = (self.stores[0].now() + HOUR, asked(side, 0));
        let asks: Asks = Box::new(move |list, turns| asks_in_turn(&all, list, turns, method, t, q));
        Some(InTurn { asks, last: asking(method, t, q) })
    }

    /// A window ask from now on for an hour.
    fn window(&self, method: usize, side: i32) -> Row {
        self.row(&ask_name(WINDOW, method, side), |store| {
            let (number, q) = (method as i32, asked(side, store.number));
            let (first, last) = (store.now(), store.now() + HOUR);
            let index: Act = Box::new(move |w, list| {
                float_index::ask_window(&w.store, &w.table, list, number, first, last, q)
            });
            beside(store, index, number, During(first.into(), last.into()), q)
        })
    }
}

/// The index's ask.
fn asking(method: i32, t: i32, q: Rectangle) -> Act {
    Box::new(move |w, list| float_index::ask(&w.store, &w.table, list, method, t, q))
}

/// An ask of the index beside the twin's and a linear scan.
fn beside(store: &Store, index: Act, method: i32, when: impl When + 'static, q: Rectangle) -> Call {
    Call {
        base: Rc::clone(&store.words),
        index,
        twin: Box::new(move |w, list| twin::ask(w, list, method, when, q)),
        scan: Some(Box::new(move |w, list| twin::scan(w, list, when, q))),
    }
}

/// Every row, in the order of the tables.
pub fn rows() -> Vec<Row> {
    let live = Stores::each(|fleet, floats| fleet.words(floats, 3));
    let full = live.iter().filter(|stores| stores.floats() == MOST_HELD);
    let mut rows: Vec<Row> = full.map(Stores::open).collect();
    rows.extend(live.iter().map(Stores::soundness));
    rows.extend(clocks(&live));
    let with_room = Stores::each(|fleet, floats| fleet.words(floats.min(MOST_HELD - 1), 3));
    rows.extend(with_room.iter().map(Stores::add));
    rows.extend(live.iter().map(Stores::report));
    rows.extend(live.iter().map(Stores::drop));
    rows.extend(each_ask(&live, Stores::ask));
    rows.extend(each_ask(&live, Stores::window));
    rows
}

fn clocks(live: &[Stores]) -> Vec<Row> {
    let silent = Stores::each(Fleet::silent);
    let one_phase = Stores::each(|fleet, floats| fleet.words(floats, 1));
    let dying = Stores::each(dying);
    let same = live.iter().map(|stores| stores.next_second("same phase"));
    let retire = "same phase, every second float retires";
    let retire = silent.iter().map(|stores| stores.next_second(retire));
    let none =
        one_phase.iter().map(|stores| stores.clock("next phase, no float to move", |_| time_in(1)));
    let all =
        dying.iter().map(|stores| stores.clock("next phase, all floats to move", |_| time_in(3)));
    same.chain(retire).chain(none).chain(all).collect()
}

/// An index in the last of the phases in which its floats may stay.
fn dying(fleet: &Fleet, floats: usize) -> Words {
    let mut words = fleet.words(floats, 1);
    let reply = float_index::clock(&mut words.store, &mut words.table, time_in(2));
    assert!(reply.is_accepted());
    words
}

/// An ask of one kind by each method, for each side, of all stores.
fn each_ask(all: &[Stores], ask: fn(&Stores, usize, i32) -> Row) -> Vec<Row> {
    let mut rows = Vec::new();
    for method in 0..METHODS.len() {
        for side in SIDES {
            rows.extend(all.iter().map(|stores| ask(stores, method, side)));
        }
    }
    rows
}
