//! The second program: an independent reading of document 01, to compare the proved product with.
//!
//! | Document 01 | Module |
//! |---|---|
//! | Tables | `tables` (rows, in the library `notation`), `shape` (the rules), `forests` (forests as values and rows) |
//! | Ties | `types` (atoms, heads, Barren), `places` (Tie, fit), `unfit` (where a forest is unfit) |
//! | How a run goes | `run`, with `purse` for units and depth, `scope` for variables |
//! | How a check goes | `check`, with `inclusion` |
//! | Refusals by number | `refusals`, and `answers` (their order, each question) |
//! | Bundles | `bundles` (what is refused; the bytes are in the library `notation`) |
//!
//! The library `notation` has the text people write, and the bytes of bundles. `cases` makes random bundles and `faults` damaged ones, from
//! trees of `scripts` and numbers of `dice`; `compare` runs another program on them. `splits` splits descriptions in two.

pub mod answers;
pub mod bundles;
pub mod cases;
pub mod check;
pub mod compare;
pub mod dice;
pub mod faults;
pub mod forests;
pub mod inclusion;
pub mod places;
pub mod purse;
pub mod refusals;
pub mod run;
pub mod scope;
pub mod scripts;
pub mod shape;
pub mod splits;
pub mod types;
pub mod unfit;

pub use notation;
pub use notation::tables;
