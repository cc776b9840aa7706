//! The calls and their refusals, "checked in the order 1, 2, 8, 3, 4, 5, 6, 7", and 10 "straight after 2". Each changing call is a
//! list of steps, see `steps`, and the call itself has budget enough for all of them.

use crate::change::{Plan, Record};
use crate::geometry::Geometry;
use crate::header::{read_header, store_finished, store_intent, Call, Header, Pending};
use crate::search::{record_place, search, Ending, SearchResult};
use crate::steps::{all_fresh, count_done, run, Step};
use crate::{Change, CutResult, LookupResult, State};

const NOT_ALLOWED: u32 = 1;
const TOO_SHORT: u32 = 2;
const LIVE: u32 = 3;
const NOT_LIVE: u32 = 4;
const RECORDS_FULL: u32 = 5;
const DELETIONS_FULL: u32 = 6;
const NOT_FRESH: u32 = 7;
const WRONG_RECORD_NUMBER: u32 = 8;
const PENDING: u32 = 10;

/// Enough for every call.
const ENOUGH: u64 = u64::MAX;

/// "Format takes the old state, which it does not judge, and S, R, D, erases the volume,
/// zeroes the desk and gives n = d = 0." From request 2 on it takes k too.
pub fn format(
    old: State,
    sector_size: u32,
    ra_blocks: u32,
    da_blocks: u32,
    hash_count: u32,
    data: &mut [u8],
    spare: &mut [u8],
    ram: &mut [u8],
) -> Change {
    whole(format_cut(
        ENOUGH,
        old,
        sector_size,
        ra_blocks,
        da_blocks,
        hash_count,
        data,
        spare,
        ram,
    ))
}

pub fn format_cut(
    budget: u64,
    old: State,
    sector_size: u32,
    ra_blocks: u32,
    da_blocks: u32,
    hash_count: u32,
    data: &mut [u8],
    spare: &mut [u8],
    ram: &mut [u8],
) -> CutResult {
    let new = State {
        sector_size,
        ra_blocks,
        da_blocks,
        hash_count,
        records: 0,
        deletions: 0,
    };
    begin(budget, Call::Format(new), old, data, spare, ram)
}

pub fn insert(
    state: State,
    key: u32,
    moves: u32,
    goal: u32,
    word: u32,
    data: &mut [u8],
    spare: &mut [u8],
    ram: &mut [u8],
) -> Change {
    whole(insert_cut(
        ENOUGH, state, key, moves, goal, word, data, spare, ram,
    ))
}

pub fn insert_cut(
    budget: u64,
    state: State,
    key: u32,
    moves: u32,
    goal: u32,
    word: u32,
    data: &mut [u8],
    spare: &mut [u8],
    ram: &mut [u8],
) -> CutResult {
    let record = Record {
        key,
        moves,
        goal,
        word,
    };
    begin(budget, Call::Insert(record), state, data, spare, ram)
}

/// "An update is a deletion followed by an insertion, in one call, even if the values are equal." Request 4: "An update of a
/// key that is not live now inserts it: n rises by one, d stays."
pub fn update(
    state: State,
    key: u32,
    moves: u32,
    goal: u32,
    word: u32,
    data: &mut [u8],
    spare: &mut [u8],
    ram: &mut [u8],
) -> Change {
    whole(update_cut(
        ENOUGH, state, key, moves, goal, word, data, spare, ram,
    ))
}

pub fn update_cut(
    budget: u64,
    state: State,
    key: u32,
    moves: u32,
    goal: u32,
    word: u32,
    data: &mut [u8],
    spare: &mut [u8],
    ram: &mut [u8],
) -> CutResult {
    let record = Record {
        key,
        moves,
        goal,
        word,
    };
    begin(budget, Call::Update(record), state, data, spare, ram)
}

pub fn delete(state: State, key: u32, data: &mut [u8], spare: &mut [u8], ram: &mut [u8]) -> Change {
    whole(delete_cut(ENOUGH, state, key, data, spare, ram))
}

pub fn delete_cut(
    budget: u64,
    state: State,
    key: u32,
    data: &mut [u8],
    spare: &mut [u8],
    ram: &mut [u8],
) -> CutResult {
    begin(budget, Call::Delete { key }, state, data, spare, ram)
}

/// "A new call, restart, is handed a state too but goes by the header's, all others by theirs; it finishes a pending call or
/// finds none and returns the state."
pub fn restart(state: State, data: &mut [u8], spare: &mut [u8], ram: &mut [u8]) -> Change {
    whole(restart_cut(ENOUGH, state, data, spare, ram))
}

pub fn restart_cut(
    budget: u64,
    state: State,
    data: &mut [u8],
    spare: &mut [u8],
    ram: &mut [u8],
) -> CutResult {
    let (plan, steps) = match restart_steps(data, spare, ram) {
        Ok(Some(found)) => found,
        // Nothing is pending: there is nothing to do.
        Ok(None) => {
            return CutResult {
                refusal: 0,
                finished: 1,
                steps: 0,
                state: read_header(ram).map_or(state, |header| header.state),
            }
        }
        Err(refusal) => return refused(refusal, state),
    };
    let done = run(&steps, budget, plan.geometry, data, spare, ram);
    answer(done, steps.len(), plan.state, state)
}

/// "Lookup gives hit, count and the 16 record bytes as the caller's own, on the chip or in the desk,
/// wherever that record is; or miss, count and an empty part; its refusals give count 0 and an empty part."
/// From request 5 on it "also gives the DA pages opened, 0 on a refusal".
pub fn lookup(state: State, key: u32, data: &[u8], spare: &[u8], ram: &[u8]) -> LookupResult {
    let nothing = LookupResult::default();
    let geometry = match judge_with_pending(state, data, spare, ram) {
        Ok(geometry) => geometry,
        Err(refusal) => return LookupResult { refusal, ..nothing },
    };
    let SearchResult {
        ending,
        count,
        deletion_count,
    } = search(geometry, state, key, data, ram);
    let miss = LookupResult {
        count,
        deletion_count,
        ..nothing
    };
    match ending {
        Ending::WrongRecordNumber => LookupResult {
            refusal: WRONG_RECORD_NUMBER,
            ..nothing
        },
        Ending::NotLive => miss,
        Ending::Live { record } => {
            let (in_ram, offset) = record_place(geometry, state.records as usize, record as usize);
            LookupResult {
                found: 1,
                in_ram: u32::from(in_ram),
                offset: offset as u32,
                ..miss
            }
        }
    }
}

/// A changing call with a budget.
fn begin(
    budget: u64,
    call: Call,
    state: State,
    data: &mut [u8],
    spare: &mut [u8],
    ram: &mut [u8],
) -> CutResult {
    let (plan, steps) = match call_steps(call, state, data, spare, ram) {
        Ok(found) => found,
        Err(refusal) => return refused(refusal, state),
    };
    let done = run(&steps, budget, plan.geometry, data, spare, ram);
    answer(done, steps.len(), plan.state, state)
}

/// "An accepted changing call first stores its intent and, format aside, the state handed over, then does its chip operations,
/// then stores the finished desk with the new state and the intent cleared." Or the refusal.
fn call_steps(
    call: Call,
    state: State,
    data: &[u8],
    spare: &[u8],
    ram: &[u8],
) -> Result<(Plan, Vec<Step>), u32> {
    // "10, a call other than format and restart while the kind is not 0, tested straight after 2."
    if !matches!(call, Call::Format(_)) {
        judge_with_pending(state, data, spare, ram)?;
    }
    let mut plan = plan_of(call, state, data, spare, ram)?;
    if !all_fresh(&plan.operations, spare) {
        return Err(NOT_FRESH);
    }
    let mut steps = vec![store_intent(call, state, ram)];
    steps.append(&mut plan.operations);
    steps.push(store_finished(plan.ram.clone(), plan.state));
    Ok((plan, steps))
}

/// "The intent and all up to the last programmed sector of the call's list count as done; of these a restart repeats none, and it
/// does all the later ones, erases perhaps again." Nothing if no call is pending; or the refusal: "as the pending call would, 7 and
/// 10 aside; with none, by 1 and 2; an unknown kind by 1; a desk under 64 bytes by 2 first".
fn restart_steps(data: &[u8], spare: &[u8], ram: &[u8]) -> Result<Option<(Plan, Vec<Step>)>, u32> {
    let Header { state, pending } = read_header(ram).ok_or(TOO_SHORT)?;
    let call = match pending {
        Pending::UnknownKind => return Err(NOT_ALLOWED),
        Pending::Nothing => return judge(state, data, spare, ram).map(|_| None),
        Pending::Call(call) => call,
    };
    let mut plan = plan_of(call, state, data, spare, ram)?;
    let done = count_done(&plan.operations, spare);
    let mut steps: Vec<Step> = plan.operations.drain(..).skip(done).collect();
    steps.push(store_finished(plan.ram.clone(), plan.state));
    Ok(Some((plan, steps)))
}

/// What a call does if it is accepted, or its refusal, 7 and 10 aside.
fn plan_of(call: Call, state: State, data: &[u8], spare: &[u8], ram: &[u8]) -> Result<Plan, u32> {
    if let Call::Format(new) = call {
        let geometry = judge(new, data, spare, ram)?;
        return Ok(Plan::of_format(geometry, new, ram));
    }
    let geometry = judge(state, data, spare, ram)?;
    let found = |key: u32| match search(geometry, state, key, data, ram).ending {
        Ending::WrongRecordNumber => Err(WRONG_RECORD_NUMBER),
        Ending::NotLive => Ok(None),
        Ending::Live { record } => Ok(Some(record)),
    };
    let (deleted, inserted) = match call {
        Call::Insert(record) => match found(record.key)? {
            Some(_) => return Err(LIVE),
            None => (None, Some(record)),
        },
        Call::Update(record) => (found(record.key)?, Some(record)),
        Call::Delete { key } => (Some(found(key)?.ok_or(NOT_LIVE)?), None),
        Call::Format(_) => (None, None),
    };
    if inserted.is_some() && state.records as usize >= geometry.record_capacity() {
        return Err(RECORDS_FULL);
    }
    // Of an update of a key that is not live: "5 and 7 apply, and 6 does not".
    if deleted.is_some() && state.deletions as usize >= geometry.deletion_capacity() {
        return Err(DELETIONS_FULL);
    }
    Ok(Plan::of_change(geometry, state, deleted, inserted, ram))
}

/// Refusals 1, 2 and 10.
pub fn judge_with_pending(state: State, data: &[u8], spare: &[u8], ram: &[u8]) -> Result<Geometry, u32> {
    let geometry = judge(state, data, spare, ram)?;
    match read_header(ram).map(|header| header.pending) {
        Some(Pending::Nothing) => Ok(geometry),
        _ => Err(PENDING),
    }
}

/// Refusals 1 and 2. Nothing is multiplied before S, R and D are known to be allowed; "a k outside the range
/// falls under refusal 1".
fn judge(state: State, data: &[u8], spare: &[u8], ram: &[u8]) -> Result<Geometry, u32> {
    let geometry = Geometry::of_state(state).ok_or(NOT_ALLOWED)?;
    // "n or d above capacity; d above n".
    if state.records as usize > geometry.record_capacity()
        || state.deletions as usize > geometry.deletion_capacity()
        || state.deletions > state.records
    {
        return Err(NOT_ALLOWED);
    }
    // "Cells under 64SB, marks under 64B or desk under 20S bytes", from request 5 on 24S, and with the header of request 8
    // 24S + 64; longer slices are allowed.
    if data.len() < geometry.data_bytes()
        || spare.len() < geometry.spare_bytes()
        || ram.len() < geometry.ram_bytes()
    {
        return Err(TOO_SHORT);
    }
    Ok(geometry)
}

/// After so many of the steps: the new state, or the one handed in if they were not all.
fn answer(done: usize, steps: usize, new: State, handed_in: State) -> CutResult {
    let finished = done == steps;
    CutResult {
        refusal: 0,
        finished: u32::from(finished),
        steps: done as u64,
        state: if finished { new } else { handed_in },
    }
}

/// "The state comes back as handed in."
fn refused(refusal: u32, state: State) -> CutResult {
    CutResult {
        refusal,
        finished: 0,
        steps: 0,
        state,
    }
}

/// Of a call with budget enough.
fn whole(result: CutResult) -> Change {
    Change {
        refusal: result.refusal,
        state: result.state,
    }
}
