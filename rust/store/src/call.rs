//! A call and its answer.

use crate::{Change, CutResult, LoadResult, LookupResult, State};
use std::fmt;

/// A call with its arguments but for the state and the bytes lent, which every call takes.
#[derive(Clone, Copy, Debug, PartialEq, Eq)]
pub enum Call<'t> {
    Format {
        sector_size: u32,
        ra_blocks: u32,
        da_blocks: u32,
        hash_count: u32,
    },
    Insert {
        key: u32,
        moves: u32,
        goal: u32,
        word: u32,
    },
    Update {
        key: u32,
        moves: u32,
        goal: u32,
        word: u32,
    },
    Delete {
        key: u32,
    },
    Lookup {
        key: u32,
    },
    /// Each row of a comma-separated tab is an insert, or an update if the level is live.
    Load {
        tab: &'t [u8],
    },
    /// Finishes the pending call of the RAM's header or finds none; goes by the header's state, not by the one handed in.
    Restart,
}

impl Call<'_> {
    /// Those that change a volume by themselves, and a restart, are made of steps: they take a budget.
    pub fn has_steps(self) -> bool {
        !matches!(self, Call::Lookup { .. } | Call::Load { .. })
    }
}

impl fmt::Display for Call<'_> {
    fn fmt(&self, f: &mut fmt::Formatter) -> fmt::Result {
        match self {
            Call::Load { tab } => write!(f, "Load \"{}\"", tab.escape_ascii()),
            other => write!(f, "{other:?}"),
        }
    }
}

/// A call of steps answers by a change, or with a budget by a cut; a lookup and a load by results of their own.
#[derive(Clone, Copy, Debug, PartialEq, Eq)]
pub enum Answer {
    Change(Change),
    Cut(CutResult),
    Lookup(LookupResult),
    Load(LoadResult),
}

impl Answer {
    /// And, with a budget, finished.
    pub fn accepted(self) -> bool {
        self.refusal() == 0 && !self.is_cut()
    }

    pub fn is_cut(self) -> bool {
        matches!(
            self,
            Answer::Cut(CutResult {
                refusal: 0,
                finished: 0,
                ..
            })
        )
    }

    pub fn refusal(self) -> u32 {
        match self {
            Answer::Change(change) => change.refusal,
            Answer::Cut(result) => result.refusal,
            Answer::Lookup(result) => result.refusal,
            Answer::Load(result) => result.refusal,
        }
    }

    /// The state that it hands out; a lookup hands out none.
    pub fn state(self) -> Option<State> {
        match self {
            Answer::Change(change) => Some(change.state),
            Answer::Cut(result) => Some(result.state),
            Answer::Lookup(_) => None,
            Answer::Load(result) => Some(result.state),
        }
    }

    /// Of a call of steps without a budget.
    #[inline(always)]
    pub fn change(self) -> Change {
        match self {
            Answer::Change(change) => change,
            other => other.of_another_call(),
        }
    }

    /// Of a call of steps with a budget.
    #[inline(always)]
    pub fn cut(self) -> CutResult {
        match self {
            Answer::Cut(result) => result,
            other => other.of_another_call(),
        }
    }

    #[inline(always)]
    pub fn lookup(self) -> LookupResult {
        match self {
            Answer::Lookup(result) => result,
            other => other.of_another_call(),
        }
    }

    #[inline(always)]
    pub fn load(self) -> LoadResult {
        match self {
            Answer::Load(result) => result,
            other => other.of_another_call(),
        }
    }

    #[cold]
    fn of_another_call(self) -> ! {
        panic!("the answer of another call: {self:?}");
    }
}
