//! What is measured for one row of a table.

use crate::fleet::Speeds;
use buffers::Words;
use float_index::{Reply, MOST_HELD};
use std::rc::Rc;

/// A call, on buffers that it may change.
pub type Act = Box<dyn Fn(&mut Words, &mut [u16]) -> Reply>;

/// A linear scan, which gives how many ids it wrote.
pub type Scan = Box<dyn Fn(&Words, &mut [u16]) -> usize>;

/// Asks on all stores in turn, so many times over, which gives how many were accepted.
pub type Asks = Box<dyn Fn(&mut [u16], usize) -> usize>;

/// Asks of stores that are tested once, all of one rectangle.
pub struct InTurn {
    pub asks: Asks,
    /// The same ask of the last store alone, by the index.
    pub last: Act,
}

/// A call on one store.
pub struct Call {
    pub base: Rc<Words>,
    pub index: Act,
    pub twin: Act,
    /// Beside an ask.
    pub scan: Option<Scan>,
}

/// A call on stores that it takes in turn, all with so many floats of such speeds.
pub struct Row {
    pub call: String,
    pub floats: usize,
    pub speeds: Speeds,
    pub calls: Vec<Call>,
    /// Beside asks at one time, where the library for them is linked.
    pub in_turn: Option<InTurn>,
}

impl Row {
    /// Index, twin and the others must agree in every number, on every store.
    pub fn check(&self) {
        self.calls.iter().for_each(|call| call.check(&self.call));
        if let (Some(in_turn), Some(last)) = (&self.in_turn, self.calls.last()) {
            in_turn.check(&self.call, self.calls.len(), &last.base);
        }
    }
}

impl InTurn {
    /// All are accepted, and the ids of the last store are those that the index lists.
    fn check(&self, name: &str, stores: usize, last: &Words) {
        let (mut list, mut own) = (vec![0; MOST_HELD], vec![0; MOST_HELD]);
        assert!((self.asks)(&mut list, 2) == 2 * stores, "{name}: refused in turn");
        let ids = (self.last)(&mut last.clone(), &mut own).value;
        assert!(list[..ids] == own[..ids], "{name}: asked in turn it differs");
    }
}

impl Call {
    fn check(&self, name: &str) {
        let results = [&self.index, &self.twin].map(|act| {
            let mut words = Words::clone(&self.base);
            let mut list = vec![0; MOST_HELD];
            let reply = act(&mut words, &mut list);
            (reply, words, list)
        });
        assert!(results[0] == results[1], "{name}: the twin differs");
        let (reply, _, listed) = &results[0];
        assert!(reply.is_accepted(), "{name}: refused");
        if let Some(scan) = &self.scan {
            let mut list = vec![0; MOST_HELD];
            let n = scan(&self.base, &mut list);
            assert!((n, &list) == (reply.value, listed), "{name}: the scan differs");
        }
    }
}
