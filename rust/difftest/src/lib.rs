//! Differential test: two stores get the same calls on the same bytes; after each call the answers,
//! the states and all bytes must be equal.

#![forbid(unsafe_code)]

pub mod boundaries;
pub mod counts;
pub mod cuts;
pub mod damage;
pub mod histories;
pub mod loads;
mod mixes;
pub mod pair;
pub mod random;
pub mod scenarios;
pub mod tabs;
pub mod updates;
pub mod wild;
