//! The calls and their refusals, checked in the order 1, 2, 10, 9, 8, 3, 4, 5, 6, 7.

use crate::change::{carry_out, erase, go_on, store_items, Lent, Progress};
use crate::header::{self, is_idle, store_format_intent, store_state, Header, Intent};
use crate::layout::{Layout, RECORD};
use crate::plan::{Edit, Items, Plan, Record};
use crate::search::{search, Ending, Found};
use crate::tab::Tab;
use model::{Change, CutResult, LoadResult, LookupResult, State};

const NOT_ALLOWED: u32 = 1;
const TOO_SHORT: u32 = 2;
const LIVE: u32 = 3;
const NOT_LIVE: u32 = 4;
const RECORDS_FULL: u32 = 5;
const DELETIONS_FULL: u32 = 6;
const NOT_FRESH: u32 = 7;
const WRONG_RECORD_NUMBER: u32 = 8;
const MALFORMED: u32 = 9;
const PENDING: u32 = 10;

/// More steps than any call has.
const ENOUGH: u64 = u64::MAX;

/// What a changing call asks for.
#[derive(Clone, Copy)]
enum Request {
    Insert(Record),
    Update(Record),
    Delete(u32),
}

impl Request {
    #[inline(always)]
    fn key(self) -> u32 {
        match self {
            Request::Insert(record) | Request::Update(record) => record[0],
            Request::Delete(key) => key,
        }
    }

    #[inline(always)]
    fn intent(self) -> Intent {
        let (kind, arguments) = match self {
            Request::Insert(record) => (header::INSERT, record),
            Request::Update(record) => (header::UPDATE, record),
            Request::Delete(key) => (header::DELETE, [key, 0, 0, 0]),
        };
        Intent { kind, arguments }
    }
}

/// The call compiled for this sector size; another size is refused.
macro_rules! for_size {
    ($size:expr, $call:ident($($argument:expr),*)) => {
        match $size {
            16 => $call::<16>($($argument),*),
            32 => $call::<32>($($argument),*),
            64 => $call::<64>($($argument),*),
            128 => $call::<128>($($argument),*),
            256 => $call::<256>($($argument),*),
            512 => $call::<512>($($argument),*),
            _ => Err(NOT_ALLOWED),
        }
    };
}

pub fn format(
    old: State,
    sector_size: u32,
    ra_blocks: u32,
    da_blocks: u32,
    hash_count: u32,
    data: &mut [u8],
    spare: &mut [u8],
    ram: &mut [u8],
) -> Change {
    whole(format_cut(
        ENOUGH,
        old,
        sector_size,
        ra_blocks,
        da_blocks,
        hash_count,
        data,
        spare,
        ram,
    ))
}

pub fn insert(
    state: State,
    key: u32,
    moves: u32,
    goal: u32,
    word: u32,
    data: &mut [u8],
    spare: &mut [u8],
    ram: &mut [u8],
) -> Change {
    let request = Request::Insert([key, moves, goal, word]);
    whole(requested(ENOUGH, state, request, Lent { data, spare, ram }))
}

pub fn update(
    state: State,
    key: u32,
    moves: u32,
    goal: u32,
    word: u32,
    data: &mut [u8],
    spare: &mut [u8],
    ram: &mut [u8],
) -> Change {
    let request = Request::Update([key, moves, goal, word]);
    whole(requested(ENOUGH, state, request, Lent { data, spare, ram }))
}

pub fn delete(state: State, key: u32, data: &mut [u8], spare: &mut [u8], ram: &mut [u8]) -> Change {
    let request = Request::Delete(key);
    whole(requested(ENOUGH, state, request, Lent { data, spare, ram }))
}

pub fn restart(state: State, data: &mut [u8], spare: &mut [u8], ram: &mut [u8]) -> Change {
    whole(restart_cut(ENOUGH, state, data, spare, ram))
}

pub fn format_cut(
    budget: u64,
    old: State,
    sector_size: u32,
    ra_blocks: u32,
    da_blocks: u32,
    hash_count: u32,
    data: &mut [u8],
    spare: &mut [u8],
    ram: &mut [u8],
) -> CutResult {
    let new = fresh_state([sector_size, ra_blocks, da_blocks, hash_count]);
    let lent = Lent { data, spare, ram };
    answer(old, for_size!(sector_size, start_new(budget, new, lent)))
}

pub fn insert_cut(
    budget: u64,
    state: State,
    key: u32,
    moves: u32,
    goal: u32,
    word: u32,
    data: &mut [u8],
    spare: &mut [u8],
    ram: &mut [u8],
) -> CutResult {
    let request = Request::Insert([key, moves, goal, word]);
    requested(budget, state, request, Lent { data, spare, ram })
}

pub fn update_cut(
    budget: u64,
    state: State,
    key: u32,
    moves: u32,
    goal: u32,
    word: u32,
    data: &mut [u8],
    spare: &mut [u8],
    ram: &mut [u8],
) -> CutResult {
    let request = Request::Update([key, moves, goal, word]);
    requested(budget, state, request, Lent { data, spare, ram })
}

pub fn delete_cut(
    budget: u64,
    state: State,
    key: u32,
    data: &mut [u8],
    spare: &mut [u8],
    ram: &mut [u8],
) -> CutResult {
    let request = Request::Delete(key);
    requested(budget, state, request, Lent { data, spare, ram })
}

/// It goes by the header alone.
pub fn restart_cut(
    budget: u64,
    state: State,
    data: &mut [u8],
    spare: &mut [u8],
    ram: &mut [u8],
) -> CutResult {
    let lent = Lent { data, spare, ram };
    let result = match Header::read(lent.ram) {
        Some(header) => go_on_with(budget, header, lent),
        None => Err(TOO_SHORT),
    };
    answer(state, result)
}

pub fn lookup(state: State, key: u32, data: &[u8], spare: &[u8], ram: &[u8]) -> LookupResult {
    match for_size!(state.sector_size, look_up(state, key, data, spare, ram)) {
        Ok(result) => result,
        Err(refusal) => LookupResult {
            refusal,
            ..LookupResult::default()
        },
    }
}

pub fn load(state: State, tab: &[u8], data: &mut [u8], spare: &mut [u8], ram: &mut [u8]) -> LoadResult {
    let lent = Lent { data, spare, ram };
    let mut loaded = LoadResult {
        refusal: 0,
        rows: 0,
        state,
    };
    if let Err(refusal) = for_size!(state.sector_size, load_rows(&mut loaded, tab, lent)) {
        loaded.refusal = refusal;
    }
    loaded
}

/// An insert without its search; with a record number to be deleted, an update. It makes the volume of a history
/// that is known to be accepted: nobody asks whether the key is live.
pub fn append(
    state: State,
    deleted: Option<u32>,
    record: Record,
    data: &mut [u8],
    spare: &mut [u8],
    ram: &mut [u8],
) -> Change {
    let lent = Lent { data, spare, ram };
    let result = for_size!(state.sector_size, append_known(state, deleted, record, lent));
    whole(answer(state, result))
}

/// A format: its intent, the erases of all blocks, the RAM.
fn start_new<const S: usize>(budget: u64, new: State, lent: Lent) -> Result<Progress, u32> {
    let layout = judge::<S>(new, lent.data, lent.spare, lent.ram)?;
    let Some(budget) = budget.checked_sub(1) else {
        return Ok(Progress::cut(0));
    };
    store_format_intent(new, lent.ram);
    let progress = erase_all(&layout, budget, new, lent);
    Ok(Progress {
        steps: 1 + progress.steps,
        ..progress
    })
}

/// A pending format has no sign of what was done: all erases are made again.
fn start_again<const S: usize>(budget: u64, new: State, lent: Lent) -> Result<Progress, u32> {
    let layout = judge::<S>(new, lent.data, lent.spare, lent.ram)?;
    Ok(erase_all(&layout, budget, new, lent))
}

fn erase_all<const S: usize>(layout: &Layout<S>, budget: u64, new: State, lent: Lent) -> Progress {
    let blocks = (layout.data_bytes / Layout::<S>::BLOCK) as u64;
    erase::<S>(0, blocks.min(budget) as usize, lent.data, lent.spare);
    if budget <= blocks {
        return Progress::cut(budget);
    }
    lent.ram[..Layout::<S>::RAM_PAGES].fill(0);
    store_state(new, lent.ram);
    Progress {
        steps: blocks + 1,
        state: Some(new),
    }
}

/// A changing call. Everything on the way of one that fills no page is compiled for its kind and for S.
#[inline(always)]
fn requested(budget: u64, state: State, request: Request, lent: Lent) -> CutResult {
    answer(
        state,
        for_size!(state.sector_size, call(budget, state, request, lent)),
    )
}

#[inline(always)]
fn call<const S: usize>(budget: u64, state: State, request: Request, lent: Lent) -> Result<Progress, u32> {
    let layout = judge::<S>(state, lent.data, lent.spare, lent.ram)?;
    idle(lent.ram)?;
    let edit = decide(&layout, state, request, lent.data, lent.ram)?;
    make(&layout, budget, state, edit, request.intent(), lent)
}

/// The steps of a change; 7 concerns those that fill a page.
#[inline(always)]
fn make<const S: usize>(
    layout: &Layout<S>,
    budget: u64,
    state: State,
    edit: Edit,
    intent: Intent,
    lent: Lent,
) -> Result<Progress, u32> {
    let items = Items::new(layout, state, edit);
    if items.fill_a_page() {
        return make_full(layout, budget, state, items, intent, lent);
    }
    Ok(store_items::<S>(&items, state, intent, budget, lent.ram))
}

#[inline(never)]
fn make_full<const S: usize>(
    layout: &Layout<S>,
    budget: u64,
    state: State,
    items: Items,
    intent: Intent,
    lent: Lent,
) -> Result<Progress, u32> {
    let plan = Plan::new(layout, items);
    if !plan.fresh(lent.spare) {
        return Err(NOT_FRESH);
    }
    Ok(carry_out(&plan, state, intent, budget, lent))
}

/// The pending call of a header; an unknown kind is refused.
fn go_on_with(budget: u64, header: Header, lent: Lent) -> Result<Progress, u32> {
    let Header { state, intent } = header;
    let arguments = intent.arguments;
    let request = match intent.kind {
        header::NONE => return for_size!(state.sector_size, settled(state, lent)),
        header::INSERT => Request::Insert(arguments),
        header::UPDATE => Request::Update(arguments),
        header::DELETE => Request::Delete(arguments[0]),
        header::FORMAT => {
            return for_size!(arguments[0], start_again(budget, fresh_state(arguments), lent));
        }
        _ => return Err(NOT_ALLOWED),
    };
    for_size!(state.sector_size, call_again(budget, state, request, lent))
}

/// Nothing is pending.
fn settled<const S: usize>(state: State, lent: Lent) -> Result<Progress, u32> {
    judge::<S>(state, lent.data, lent.spare, lent.ram)?;
    Ok(Progress {
        steps: 0,
        state: Some(state),
    })
}

/// The rest of a pending call, without 7 and 10.
fn call_again<const S: usize>(
    budget: u64,
    state: State,
    request: Request,
    lent: Lent,
) -> Result<Progress, u32> {
    let layout = judge::<S>(state, lent.data, lent.spare, lent.ram)?;
    let edit = decide(&layout, state, request, lent.data, lent.ram)?;
    let plan = Plan::new(&layout, Items::new(&layout, state, edit));
    let done = plan.done(lent.spare);
    Ok(go_on(&plan, done, budget, lent))
}

/// The rows of a tab; `loaded` counts those accepted.
fn load_rows<const S: usize>(loaded: &mut LoadResult, tab: &[u8], lent: Lent) -> Result<(), u32> {
    let layout = judge::<S>(loaded.state, lent.data, lent.spare, lent.ram)?;
    idle(lent.ram)?;
    if tab.is_empty() {
        return Ok(());
    }
    let mut tab = Tab::behind_header(tab).ok_or(MALFORMED)?;
    while !tab.at_end() {
        let [level, moves, goal] = tab.row().ok_or(MALFORMED)?;
        let lent = Lent {
            data: &mut *lent.data,
            spare: &mut *lent.spare,
            ram: &mut *lent.ram,
        };
        loaded.state = set(&layout, loaded.state, [level, moves, goal, 0], lent)?;
        loaded.rows += 1;
    }
    Ok(())
}

/// A row of a tab: an insert, or an update if the level is live.
fn set<const S: usize>(layout: &Layout<S>, state: State, record: Record, lent: Lent) -> Result<State, u32> {
    let edit = decide(layout, state, Request::Update(record), lent.data, lent.ram)?;
    let request = match edit.deleted {
        Some(_) => Request::Update(record),
        None => Request::Insert(record),
    };
    let progress = make(layout, ENOUGH, state, edit, request.intent(), lent)?;
    Ok(progress.state.unwrap_or(state))
}

fn append_known<const S: usize>(
    state: State,
    deleted: Option<u32>,
    record: Record,
    lent: Lent,
) -> Result<Progress, u32> {
    let layout = judge::<S>(state, lent.data, lent.spare, lent.ram)?;
    let edit = Edit {
        deleted,
        inserted: Some(record),
    };
    room(&layout, state, edit)?;
    make(
        &layout,
        ENOUGH,
        state,
        edit,
        Request::Update(record).intent(),
        lent,
    )
}

/// The search of a changing call, and refusals 8, 3, 4, 5, 6.
#[inline(always)]
fn decide<const S: usize>(
    layout: &Layout<S>,
    state: State,
    request: Request,
    data: &[u8],
    ram: &[u8],
) -> Result<Edit, u32> {
    let live = match search(layout, state, request.key(), data, ram).ending {
        Some(Ending::WrongRecordNumber) => return Err(WRONG_RECORD_NUMBER),
        Some(Ending::Live(number)) => Some(number),
        None => None,
    };
    let (deleted, inserted) = match (request, live) {
        (Request::Insert(_), Some(_)) => return Err(LIVE),
        (Request::Delete(_), None) => return Err(NOT_LIVE),
        (Request::Insert(record) | Request::Update(record), live) => (live, Some(record)),
        (Request::Delete(_), live) => (live, None),
    };
    let edit = Edit { deleted, inserted };
    room(layout, state, edit)?;
    Ok(edit)
}

fn look_up<const S: usize>(
    state: State,
    key: u32,
    data: &[u8],
    spare: &[u8],
    ram: &[u8],
) -> Result<LookupResult, u32> {
    let layout = judge::<S>(state, data, spare, ram)?;
    idle(ram)?;
    let Found {
        ending,
        opened,
        deletions_opened,
    } = search(&layout, state, key, data, ram);
    let mut result = LookupResult {
        count: opened,
        deletion_count: deletions_opened,
        ..LookupResult::default()
    };
    match ending {
        Some(Ending::WrongRecordNumber) => return Err(WRONG_RECORD_NUMBER),
        Some(Ending::Live(number)) => {
            // Records of full pages are on flash, the others from the start of their RAM page.
            let records = state.records as usize;
            let on_flash = records - records % Layout::<S>::RECORDS;
            let number = number as usize;
            result.found = 1;
            result.in_ram = u32::from(number >= on_flash);
            result.offset = (number.checked_sub(on_flash).unwrap_or(number) * RECORD) as u32;
        }
        None => {}
    }
    Ok(result)
}

/// Refusals 1 and 2.
#[inline]
fn judge<const S: usize>(state: State, data: &[u8], spare: &[u8], ram: &[u8]) -> Result<Layout<S>, u32> {
    let layout = Layout::<S>::of_state(state).ok_or(NOT_ALLOWED)?;
    if !layout.holds(data, spare, ram) {
        return Err(TOO_SHORT);
    }
    Ok(layout)
}

/// Refusal 10.
#[inline]
fn idle(ram: &[u8]) -> Result<(), u32> {
    match is_idle(ram) {
        true => Ok(()),
        false => Err(PENDING),
    }
}

/// Refusals 5 and 6.
fn room<const S: usize>(layout: &Layout<S>, state: State, edit: Edit) -> Result<(), u32> {
    if edit.inserted.is_some() && state.records as usize >= layout.record_capacity {
        return Err(RECORDS_FULL);
    }
    if edit.deleted.is_some() && state.deletions as usize >= layout.deletion_capacity {
        return Err(DELETIONS_FULL);
    }
    Ok(())
}

/// The state after a format with these S, R, D and k.
fn fresh_state([sector_size, ra_blocks, da_blocks, hash_count]: [u32; 4]) -> State {
    State {
        sector_size,
        ra_blocks,
        da_blocks,
        hash_count,
        records: 0,
        deletions: 0,
    }
}

fn answer(old: State, result: Result<Progress, u32>) -> CutResult {
    let (refusal, progress) = match result {
        Ok(progress) => (0, progress),
        Err(refusal) => (refusal, Progress::cut(0)),
    };
    CutResult {
        refusal,
        finished: u32::from(progress.state.is_some()),
        steps: progress.steps,
        state: progress.state.unwrap_or(old),
    }
}

/// The answer of a call with enough steps.
fn whole(result: CutResult) -> Change {
    Change {
        refusal: result.refusal,
        state: result.state,
    }
}
