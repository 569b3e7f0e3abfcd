//! The plain ledger of documents 01 and 02, and the means to compare another
//! program with it.
//!
//! The ledger was written from those documents alone. It shares no code with the
//! index, its twin in bench/ or the buffers that boundary/ lends, not even a
//! constant; only dice come from another crate, for the lists.
//!
//! - `limits`: the documents' numbers.
//! - `grid`: columns, cells, blocks of cells and the curve.
//! - `methods`: speed rows and the four ways to choose cells.
//! - `motion`: reports, positions, and moments at which a float is inside.
//! - `ledger`: the calls and their answers.
//! - `lines`: call lines read, call and answer lines written.
//! - `stream`: a run of bytes in, a run of bytes out.
//! - `calls`: numbers for calls, good and bad, from dice.
//! - `generate`: lists of call lines from fixed seeds.
//! - `fleets`: call lines for a made-up fleet.
//! - `fleet_inputs`: orders for fleets, good and bad.

pub mod calls;
pub mod fleet_inputs;
pub mod fleets;
pub mod generate;
pub mod grid;
pub mod ledger;
pub mod limits;
pub mod lines;
pub mod methods;
pub mod motion;
pub mod stream;

/// An enum of plain cases, and `ALL`, the list of them.
#[macro_export]
macro_rules! listed {
    ($(#[$of:meta])* pub enum $name:ident { $($(#[$on:meta])* $case:ident,)* }) => {
        $(#[$of])*
        #[derive(Clone, Copy, Debug, PartialEq, Eq)]
        pub enum $name { $($(#[$on])* $case,)* }

        impl $name {
            pub const ALL: &[$name] = &[$($name::$case,)*];
        }
    };
}

/// Document 01's listing as document 02 changes it: call lines and the answers to
/// them.
pub const LISTING: (&str, &str) = (
    "\
O         0
A         7         0    100000    100000       100         0
A         9         0    600000    100000       -50         0
Q         3      3600    400000         0    500000    200000
D         7        10
Q         0      3600    400000         0    500000    200000
D         7        20
",
    "\
O         0         0
A         0         1
A         0         2
Q         0         2         1         1         0         7         9
D         0         1
Q         0         1         3         1         0         9
D         6         0
",
);
