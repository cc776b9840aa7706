//! The calls as values and a store as a trait with one method over them, so that tests and benchmarks can run any
//! implementation; calls that are made of steps also with a budget of steps, after which they are cut.

mod call;
mod lent;
#[cfg(feature = "proved")]
mod proved_store;
mod rust_stores;

pub use call::{Answer, Call};
pub use lent::{Lent, Memory};
pub use model::{
    Change, CutResult, Geometry, LoadResult, LookupResult, State, HASH_COUNT_01, HEADER_BYTES, SECTOR_SIZES,
};
#[cfg(feature = "proved")]
pub use proved_store::ProvedStore;
pub use rust_stores::{FastStore, ModelStore};

/// A level store.
pub trait Store {
    fn name(&self) -> &'static str;

    /// Makes a call on this state and on the bytes lent. With a budget, which only a call of steps takes, it is cut after so many of its
    /// first steps. `Answer` says which kind of answer belongs to which call.
    fn call(&self, budget: Option<u64>, state: State, call: &Call, lent: &mut Lent) -> Answer;
}

/// The store of a name: `model`, `fast`, and `proved` with the feature.
pub fn by_name(name: &str) -> Option<Box<dyn Store>> {
    match name {
        "model" => Some(Box::new(ModelStore)),
        "fast" => Some(Box::new(FastStore)),
        #[cfg(feature = "proved")]
        "proved" => Some(Box::new(ProvedStore)),
        _ => None,
    }
}
