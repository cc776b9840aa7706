//! The store of the static library.

use crate::{Answer, Call, Change, CutResult, Lent, LoadResult, LookupResult, State, Store};

/// The functions of the static library, which take pointers and numbers alone: a state is its six numbers, an answer the numbers of a
/// result in their order but for those of 64 bits, and a slice a pointer and a length of 64 bits.
mod c {
    extern "C" {
        pub fn level_store_format_numbers(
            answer: &mut [u32; 7],
            old: &[u32; 6],
            sector_size: u32,
            ra_blocks: u32,
            da_blocks: u32,
            hash_count: u32,
            data: *mut u8,
            data_len: u64,
            spare: *mut u8,
            spare_len: u64,
            ram: *mut u8,
            ram_len: u64,
        );

        pub fn level_store_insert_numbers(
            answer: &mut [u32; 7],
            state: &[u32; 6],
            key: u32,
            moves: u32,
            goal: u32,
            word: u32,
            data: *mut u8,
            data_len: u64,
            spare: *mut u8,
            spare_len: u64,
            ram: *mut u8,
            ram_len: u64,
        );

        pub fn level_store_update_numbers(
            answer: &mut [u32; 7],
            state: &[u32; 6],
            key: u32,
            moves: u32,
            goal: u32,
            word: u32,
            data: *mut u8,
            data_len: u64,
            spare: *mut u8,
            spare_len: u64,
            ram: *mut u8,
            ram_len: u64,
        );

        pub fn level_store_delete_numbers(
            answer: &mut [u32; 7],
            state: &[u32; 6],
            key: u32,
            data: *mut u8,
            data_len: u64,
            spare: *mut u8,
            spare_len: u64,
            ram: *mut u8,
            ram_len: u64,
        );

        pub fn level_store_lookup_numbers(
            answer: &mut [u32; 5],
            deletion_count: &mut u64,
            state: &[u32; 6],
            key: u32,
            data: *const u8,
            data_len: u64,
            spare: *const u8,
            spare_len: u64,
            ram: *const u8,
            ram_len: u64,
        );

        pub fn level_store_load_numbers(
            answer: &mut [u32; 8],
            state: &[u32; 6],
            tab: *const u8,
            tab_len: u64,
            data: *mut u8,
            data_len: u64,
            spare: *mut u8,
            spare_len: u64,
            ram: *mut u8,
            ram_len: u64,
        );

        pub fn level_store_restart_numbers(
            answer: &mut [u32; 7],
            state: &[u32; 6],
            data: *mut u8,
            data_len: u64,
            spare: *mut u8,
            spare_len: u64,
            ram: *mut u8,
            ram_len: u64,
        );

        pub fn level_store_format_cut_numbers(
            answer: &mut [u32; 8],
            steps: &mut u64,
            budget: u64,
            old: &[u32; 6],
            sector_size: u32,
            ra_blocks: u32,
            da_blocks: u32,
            hash_count: u32,
            data: *mut u8,
            data_len: u64,
            spare: *mut u8,
            spare_len: u64,
            ram: *mut u8,
            ram_len: u64,
        );

        pub fn level_store_insert_cut_numbers(
            answer: &mut [u32; 8],
            steps: &mut u64,
            budget: u64,
            state: &[u32; 6],
            key: u32,
            moves: u32,
            goal: u32,
            word: u32,
            data: *mut u8,
            data_len: u64,
            spare: *mut u8,
            spare_len: u64,
            ram: *mut u8,
            ram_len: u64,
        );

        pub fn level_store_update_cut_numbers(
            answer: &mut [u32; 8],
            steps: &mut u64,
            budget: u64,
            state: &[u32; 6],
            key: u32,
            moves: u32,
            goal: u32,
            word: u32,
            data: *mut u8,
            data_len: u64,
            spare: *mut u8,
            spare_len: u64,
            ram: *mut u8,
            ram_len: u64,
        );

        pub fn level_store_delete_cut_numbers(
            answer: &mut [u32; 8],
            steps: &mut u64,
            budget: u64,
            state: &[u32; 6],
            key: u32,
            data: *mut u8,
            data_len: u64,
            spare: *mut u8,
            spare_len: u64,
            ram: *mut u8,
            ram_len: u64,
        );

        pub fn level_store_restart_cut_numbers(
            answer: &mut [u32; 8],
            steps: &mut u64,
            budget: u64,
            state: &[u32; 6],
            data: *mut u8,
            data_len: u64,
            spare: *mut u8,
            spare_len: u64,
            ram: *mut u8,
            ram_len: u64,
        );
    }
}

fn change_of(answer: [u32; 7]) -> Change {
    let [refusal, state @ ..] = answer;
    Change {
        refusal,
        state: State::of_numbers(state),
    }
}

fn cut_of(answer: [u32; 8], steps: u64) -> CutResult {
    let [refusal, finished, state @ ..] = answer;
    CutResult {
        refusal,
        finished,
        steps,
        state: State::of_numbers(state),
    }
}

fn load_of(answer: [u32; 8]) -> LoadResult {
    let [refusal, rows, state @ ..] = answer;
    LoadResult {
        refusal,
        rows,
        state: State::of_numbers(state),
    }
}

fn lookup_of(answer: [u32; 5], deletion_count: u64) -> LookupResult {
    let [refusal, found, count, in_ram, offset] = answer;
    LookupResult {
        refusal,
        found,
        count,
        in_ram,
        offset,
        deletion_count,
    }
}

/// The store of the static library.
pub struct ProvedStore;

impl Store for ProvedStore {
    fn name(&self) -> &'static str {
        "proved"
    }

    // Always inlined: where the call is known, which the benchmark sees to, its function is called directly.
    #[inline(always)]
    fn call(&self, budget: Option<u64>, state: State, call: &Call, lent: &mut Lent) -> Answer {
        let state = &state.numbers();
        // A function with its first arguments; the bytes follow.
        macro_rules! on_lent {
            ($function:ident, $($argument:expr),*) => {
                // Each call lends distinct slices with their lengths for its duration; the library takes any state,
                // any numbers and slices of any length.
                unsafe {
                    c::$function(
                        $($argument,)*
                        lent.data.as_mut_ptr(),
                        lent.data.len() as u64,
                        lent.spare.as_mut_ptr(),
                        lent.spare.len() as u64,
                        lent.ram.as_mut_ptr(),
                        lent.ram.len() as u64,
                    )
                }
            };
        }
        // A call of steps: the function without a budget, or the one with it.
        macro_rules! steps_of {
            ($whole:ident, $cut:ident; $($argument:ident),*) => {
                match budget {
                    None => {
                        let mut answer = [0; 7];
                        on_lent!($whole, &mut answer, state $(, $argument)*);
                        Answer::Change(change_of(answer))
                    }
                    Some(budget) => {
                        let (mut answer, mut steps) = ([0; 8], 0);
                        on_lent!($cut, &mut answer, &mut steps, budget, state $(, $argument)*);
                        Answer::Cut(cut_of(answer, steps))
                    }
                }
            };
        }
        match *call {
            Call::Format {
                sector_size: s,
                ra_blocks: r,
                da_blocks: d,
                hash_count: k,
            } => steps_of!(level_store_format_numbers, level_store_format_cut_numbers; s, r, d, k),
            Call::Insert {
                key,
                moves,
                goal,
                word,
            } => {
                steps_of!(level_store_insert_numbers, level_store_insert_cut_numbers; key, moves, goal, word)
            }
            Call::Update {
                key,
                moves,
                goal,
                word,
            } => {
                steps_of!(level_store_update_numbers, level_store_update_cut_numbers; key, moves, goal, word)
            }
            Call::Delete { key } => {
                steps_of!(level_store_delete_numbers, level_store_delete_cut_numbers; key)
            }
            Call::Restart => steps_of!(level_store_restart_numbers, level_store_restart_cut_numbers;),
            Call::Lookup { .. } | Call::Load { .. } if budget.is_some() => {
                unreachable!("{call} has no budget")
            }
            Call::Lookup { key } => {
                let (mut answer, mut deletion_count) = ([0; 5], 0);
                on_lent!(
                    level_store_lookup_numbers,
                    &mut answer,
                    &mut deletion_count,
                    state,
                    key
                );
                Answer::Lookup(lookup_of(answer, deletion_count))
            }
            Call::Load { tab } => {
                let mut answer = [0; 8];
                on_lent!(
                    level_store_load_numbers,
                    &mut answer,
                    state,
                    tab.as_ptr(),
                    tab.len() as u64
                );
                Answer::Load(load_of(answer))
            }
        }
    }
}
