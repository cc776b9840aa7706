//! The stores in Rust: each call is the function of that name of a crate.

use crate::{Answer, Call, Lent, State, Store};

/// A call of steps: the function without a budget, or the one with it.
macro_rules! steps_of {
    ($calls:ident::{$whole:ident, $cut:ident}, $budget:ident, $state:ident, ($($argument:ident),*), $lent:ident) => {
        match $budget {
            None => Answer::Change($calls::$whole($state, $($argument,)* $lent.data, $lent.spare, $lent.ram)),
            Some(budget) => Answer::Cut($calls::$cut(
                budget, $state, $($argument,)* $lent.data, $lent.spare, $lent.ram,
            )),
        }
    };
}

macro_rules! store_over {
    ($(#[$about:meta])* $store:ident, $calls:ident) => {
        $(#[$about])*
        pub struct $store;

        impl Store for $store {
            fn name(&self) -> &'static str {
                stringify!($calls)
            }

            // Always inlined: where the call is known, which the benchmark sees to, its function is called directly.
            #[inline(always)]
            fn call(&self, budget: Option<u64>, state: State, call: &Call, lent: &mut Lent) -> Answer {
                match *call {
                    Call::Format { sector_size, ra_blocks, da_blocks, hash_count } => {
                        let [s, r, d, k] = [sector_size, ra_blocks, da_blocks, hash_count];
                        steps_of!($calls::{format, format_cut}, budget, state, (s, r, d, k), lent)
                    }
                    Call::Insert { key, moves, goal, word } => {
                        steps_of!($calls::{insert, insert_cut}, budget, state, (key, moves, goal, word), lent)
                    }
                    Call::Update { key, moves, goal, word } => {
                        steps_of!($calls::{update, update_cut}, budget, state, (key, moves, goal, word), lent)
                    }
                    Call::Delete { key } => steps_of!($calls::{delete, delete_cut}, budget, state, (key), lent),
                    Call::Restart => steps_of!($calls::{restart, restart_cut}, budget, state, (), lent),
                    Call::Lookup { .. } | Call::Load { .. } if budget.is_some() => unreachable!("{call} has no budget"),
                    Call::Lookup { key } => Answer::Lookup($calls::lookup(state, key, lent.data, lent.spare, lent.ram)),
                    Call::Load { tab } => Answer::Load($calls::load(state, tab, lent.data, lent.spare, lent.ram)),
                }
            }
        }
    };
}

store_over!(
    /// The plain model.
    ModelStore,
    model
);
store_over!(
    /// The store for speed.
    FastStore,
    fast
);
