//! The level store for speed: the same answers and bytes as crate `model`, from the same state and slices.
//!
//! Nothing is kept between calls. What is done for speed:
//!
//! - every call is compiled for each of the six sector sizes, so that products and quotients with S are shifts
//!   and a page has a length that the compiler knows;
//! - the search and the making of a filter are compiled for each number of positions, 1 to 8, see `hash`;
//! - filters, of entries and of deletions alike, are walked place by place (RAM page, L1, current set, full sets), see `filters`,
//!   up to 64 filters a word, see `walk`;
//! - deletions and keys are compared without an exit inside a block, which the compiler turns into vector code, see `scan`;
//! - a set is rebuilt by copies of bytes and merges of words, straight from flash to flash, see `rebuild`;
//! - a tab is read in place, and each of its rows needs one search;
//! - a call that fills no page, so without chip operations, is compiled in one piece; the list of operations is made of rows for
//!   the others, and a row is carried out at once but where a budget ends in it, see `plan` and `change`.
//!
//! No `unsafe`: slices are cut before a loop, so that no test of a bound is left inside. The one that is left for
//! each page opened was measured against `get_unchecked`: no difference beyond that of two runs.

#![forbid(unsafe_code)]

mod bits;
mod calls;
mod change;
mod filters;
mod hash;
mod header;
mod layout;
mod plan;
mod rebuild;
mod scan;
mod search;
mod tab;
mod walk;

pub use calls::{append, delete, format, insert, load, lookup, restart, update};
pub use calls::{delete_cut, format_cut, insert_cut, restart_cut, update_cut};
pub use model::{Change, CutResult, LoadResult, LookupResult, State};
