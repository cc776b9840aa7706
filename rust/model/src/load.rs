//! Request 1: the rows of a tab, one call each.

use crate::calls::{insert, judge_with_pending, lookup, update};
use crate::tab::{read_tab, Row};
use crate::{Change, LoadResult, State};

const MALFORMED: u32 = 9;
/// "The free word is 0."
const FREE_WORD: u32 = 0;

/// "Loading ends at the first row that is malformed or refused by the store; that row changes nothing,
/// earlier rows remain, and the answer gives their number and the refusal." 9 is "found after 1 and 2 and
/// before the store sees that row", and after 10. Request 8: "each is cut and finished by itself".
pub fn load(state: State, tab: &[u8], data: &mut [u8], spare: &mut [u8], ram: &mut [u8]) -> LoadResult {
    let mut result = LoadResult {
        refusal: 0,
        rows: 0,
        state,
    };
    if let Err(refusal) = judge_with_pending(state, data, spare, ram) {
        return LoadResult { refusal, ..result };
    }
    let reading = read_tab(tab);
    for row in reading.rows {
        let Change { refusal, state } = set(result.state, row, data, spare, ram);
        if refusal != 0 {
            return LoadResult { refusal, ..result };
        }
        result.state = state;
        result.rows += 1;
    }
    if !reading.whole {
        result.refusal = MALFORMED;
    }
    result
}

/// "Each row is an insert, or an update if the level is live."
fn set(state: State, [level, moves, goal]: Row, data: &mut [u8], spare: &mut [u8], ram: &mut [u8]) -> Change {
    let is_live = lookup(state, level, data, spare, ram).found == 1;
    let call = if is_live { update } else { insert };
    call(state, level, moves, goal, FREE_WORD, data, spare, ram)
}
