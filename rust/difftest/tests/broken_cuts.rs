//! The test sees broken cuts and restarts: the model with one fault each.

use difftest::counts::Counts;
use difftest::pair::Difference;
use difftest::scenarios;
use model::Operation;
use store::{
    Answer, Call, Change, CutResult, Geometry, Lent, LoadResult, Memory, ModelStore, State, Store,
    HEADER_BYTES,
};

#[derive(Clone, Copy, Debug, PartialEq)]
enum Fault {
    None,
    /// A restart goes on at the first fresh sector of the list, not behind the last programmed one.
    FirstFresh,
    /// A restart does all operations again.
    AllAgain,
    /// A restart goes on with the next sector to be programmed: erases before it are taken for done.
    ErasesLeftOut,
    /// So many ones make a spare byte fresh for a restart.
    FreshOnes(u32),
    /// A finished call leaves its intent, or only the arguments.
    IntentLeft,
    ArgumentsLeft,
    /// The finished RAM is stored before the chip operations.
    RamTouched,
    /// A restart goes by the state handed in.
    StateHandedIn,
    /// 10 is tested before 2.
    TenFirst,
    /// The header follows the pages of the RAM directly.
    HeaderBehindPages,
    /// The intent of a format stores the state handed over too.
    FormatStoresState,
    /// The intent of an update is an insert's.
    UpdateAsInsert,
    /// A call that is cut gives the new state.
    CutGivesNewState,
    /// A call that is cut counts the chip operations only.
    IntentNotCounted,
    /// A budget of 2^32 is none.
    BudgetOf32Bits,
    /// A restart is refused by 7 if a sector of the list is programmed.
    RestartRefusesBySeven,
    /// A refused restart gives the header's state.
    RefusedGivesHeader,
    /// An unknown kind is refused after 1 and 2.
    UnknownKindLast,
    /// A RAM without a header is refused by 1.
    NoHeaderByOne,
    /// A restart refuses a pending format by the header's state.
    FormatByHeader,
    /// A restart that finds nothing pending gives the state handed in.
    NothingGivesHandedIn,
    /// A lookup does not ask for 10.
    LookupWhilePending,
    /// A load does not ask for 10, only its rows do: a tab without a row is accepted, or draws 9.
    LoadWhilePending,
    /// A restart repeats the erases before the last programmed sector, as those of a deletion's index behind a sector of RA.
    ErasesRepeated,
}

struct Broken(Fault);

/// A call with a budget on the model.
fn model_cut(budget: u64, call: Call, state: State, lent: &mut Lent) -> CutResult {
    ModelStore.call(Some(budget), state, &call, lent).cut()
}

/// The numbers of a header, if there is one.
fn header_of(ram: &[u8]) -> Option<[u32; 16]> {
    let header = ram.last_chunk::<HEADER_BYTES>()?;
    Some(std::array::from_fn(|i| {
        u32::from_le_bytes(std::array::from_fn(|j| header[4 * i + j]))
    }))
}

fn write_header(ram: &mut [u8], first: usize, numbers: &[u32]) {
    let start = ram.len() - HEADER_BYTES + 4 * first;
    for (place, number) in ram[start..].chunks_exact_mut(4).zip(numbers) {
        place.copy_from_slice(&number.to_le_bytes());
    }
}

fn state_of(header: [u32; 16]) -> State {
    State::of_numbers(std::array::from_fn(|i| header[i]))
}

/// The chip operations of a pending insert, update or delete that a restart does not refuse.
fn pending_list(lent: &Lent) -> Option<Vec<Operation>> {
    let header = header_of(lent.ram)?;
    let state = state_of(header);
    let level = model::lookup(state, header[7], lent.data, lent.spare, &cleared(lent.ram));
    let (deletes, inserts) = match (level.refusal, header[6], level.found) {
        (0, 1, 0) | (0, 2, 0) => (false, true),
        (0, 2, 1) => (true, true),
        (0, 3, 1) => (true, false),
        _ => return None,
    };
    Some(model::operations(
        Geometry::of_state(state)?,
        state,
        deletes,
        inserts,
    ))
}

fn is_programmed(operation: &Operation, spare: &[u8]) -> bool {
    matches!(operation, Operation::Program { sector } if spare[*sector].count_ones() < 5)
}

impl Broken {
    fn steps(&self, budget: u64, call: Call, state: State, lent: &mut Lent) -> CutResult {
        let budget = match self.0 {
            Fault::BudgetOf32Bits if budget < u64::MAX => budget & 0xFFFF_FFFF,
            _ => budget,
        };
        if self.0 == Fault::HeaderBehindPages {
            let sector_size = match call {
                Call::Format { sector_size, .. } => sector_size,
                _ => state.sector_size,
            };
            let end = 24 * sector_size.min(1 << 20) as usize + HEADER_BYTES;
            let Lent { data, spare, ram } = lent;
            if let Some(ram) = ram.get_mut(..end) {
                return model_cut(budget, call, state, &mut Lent { data, spare, ram });
            }
        }
        if call == Call::Restart {
            return self.restart(budget, state, lent);
        }
        let before = lent.copy();
        let result = model_cut(budget, call, state, lent);
        self.after_call(budget, call, state, before, result, lent.ram)
    }

    fn after_call(
        &self,
        budget: u64,
        call: Call,
        state: State,
        mut before: Memory,
        result: CutResult,
        ram: &mut [u8],
    ) -> CutResult {
        let is_cut = result.refusal == 0 && result.finished == 0;
        let is_format = matches!(call, Call::Format { .. });
        match self.0 {
            Fault::IntentLeft if result.finished == 1 => {
                model_cut(1, call, state, &mut before.lent());
                let intent = header_of(&before.ram).expect("a header");
                write_header(ram, 6, &intent[6..]);
            }
            Fault::ArgumentsLeft if result.finished == 1 => write_header(ram, 7, &[1]),
            Fault::RamTouched if is_cut && budget > 0 => {
                model_cut(u64::MAX, call, state, &mut before.lent());
                let pages = ram.len() - HEADER_BYTES;
                ram[..pages].copy_from_slice(&before.ram[..pages]);
            }
            Fault::TenFirst
                if result.refusal == 2
                    && !is_format
                    && header_of(ram).is_some_and(|header| header[6] != 0) =>
            {
                return CutResult {
                    refusal: 10,
                    ..result
                };
            }
            Fault::FormatStoresState if is_cut && is_format && budget > 0 => {
                write_header(ram, 0, &state.numbers());
            }
            Fault::UpdateAsInsert if is_cut && matches!(call, Call::Update { .. }) && budget > 0 => {
                write_header(ram, 6, &[1]);
            }
            Fault::CutGivesNewState if is_cut => {
                let whole = model_cut(u64::MAX, call, state, &mut before.lent());
                return CutResult {
                    state: whole.state,
                    ..result
                };
            }
            Fault::IntentNotCounted if is_cut => {
                return CutResult {
                    steps: result.steps.saturating_sub(1),
                    ..result
                };
            }
            _ => {}
        }
        result
    }

    fn restart(&self, budget: u64, state: State, lent: &mut Lent) -> CutResult {
        let refused = |refusal: u32| CutResult {
            refusal,
            state,
            ..CutResult::default()
        };
        let Some(header) = header_of(lent.ram) else {
            return refused(if self.0 == Fault::NoHeaderByOne { 1 } else { 2 });
        };
        let list = pending_list(lent).unwrap_or_default();
        let programmed = list.iter().any(|operation| is_programmed(operation, lent.spare));
        let judged = || {
            let mut idle = idle(lent);
            let answer = ModelStore.call(None, state, &Call::Restart, &mut idle.lent());
            answer.refusal()
        };
        match self.0 {
            Fault::FirstFresh | Fault::AllAgain | Fault::FreshOnes(_) => {
                let taken = self.taken(&list, lent.spare);
                return on_taken(budget, state, lent, taken);
            }
            Fault::ErasesLeftOut => return without_erases(budget, state, lent, &list),
            Fault::ErasesRepeated => return with_erases(budget, state, lent, &list),
            Fault::StateHandedIn if (1..=3).contains(&header[6]) => {
                write_header(lent.ram, 0, &state.numbers());
                let result = model_cut(budget, Call::Restart, state, lent);
                if result.finished == 0 {
                    write_header(lent.ram, 0, &header[..6]);
                }
                return result;
            }
            Fault::RestartRefusesBySeven if programmed => return refused(7),
            Fault::UnknownKindLast if header[6] > 4 => return refused(judged().max(1)),
            Fault::FormatByHeader if header[6] == 4 && judged() != 0 => return refused(judged()),
            _ => {}
        }
        let result = model_cut(budget, Call::Restart, state, lent);
        match self.0 {
            Fault::RefusedGivesHeader if result.refusal != 0 => CutResult {
                state: state_of(header),
                ..result
            },
            Fault::NothingGivesHandedIn if header[6] == 0 => CutResult { state, ..result },
            Fault::IntentLeft if result.finished == 1 => {
                write_header(lent.ram, 6, &header[6..]);
                result
            }
            _ => result,
        }
    }

    fn load(&self, state: State, tab: &[u8], lent: &mut Lent) -> LoadResult {
        let load = |lent: &mut Lent| ModelStore.call(None, state, &Call::Load { tab }, lent).load();
        let result = load(lent);
        if self.0 == Fault::LoadWhilePending && result.refusal == 10 {
            let idle = load(&mut idle(lent).lent());
            if idle.rows == 0 && [0, 9].contains(&idle.refusal) {
                return idle;
            }
        }
        result
    }

    /// The spare bytes as a restart with this fault takes them.
    fn taken(&self, list: &[Operation], spare: &[u8]) -> Vec<u8> {
        let mut taken = spare.to_vec();
        let first_fresh = list.iter().position(
            |operation| matches!(operation, Operation::Program { sector } if spare[*sector].count_ones() >= 5),
        );
        for (i, operation) in list.iter().enumerate() {
            let Operation::Program { sector } = *operation else {
                continue;
            };
            let again = match self.0 {
                Fault::AllAgain => true,
                Fault::FirstFresh => first_fresh.is_some_and(|first| i >= first),
                Fault::FreshOnes(ones) => spare[sector].count_ones() >= ones,
                _ => false,
            };
            if again {
                taken[sector] = 0xFF;
            } else if let Fault::FreshOnes(_) = self.0 {
                taken[sector] = 0x00;
            }
        }
        taken
    }
}

/// A restart on spare bytes as they are taken; those that it does not write stay as they were.
fn on_taken(budget: u64, state: State, lent: &mut Lent, taken: Vec<u8>) -> CutResult {
    let mut after = taken.clone();
    let Lent { data, spare, ram } = lent;
    let on_taken = &mut Lent {
        data,
        spare: &mut after,
        ram,
    };
    let result = model_cut(budget, Call::Restart, state, on_taken);
    for (sector, byte) in spare.iter_mut().enumerate() {
        if after[sector] != taken[sector] {
            *byte = after[sector];
        }
    }
    result
}

/// A restart that leaves out the erases behind the last programmed sector, if sectors are to be programmed behind them.
fn without_erases(budget: u64, state: State, lent: &mut Lent, list: &[Operation]) -> CutResult {
    let last = list
        .iter()
        .rposition(|operation| is_programmed(operation, lent.spare));
    let rest = &list[last.map_or(0, |last| last + 1)..];
    let erases = rest
        .iter()
        .take_while(|operation| matches!(operation, Operation::Erase { .. }))
        .count();
    if erases == rest.len() {
        return model_cut(budget, Call::Restart, state, lent);
    }
    let before = lent.copy();
    let sector_size = header_of(lent.ram).expect("a list")[0] as usize;
    let more = budget.saturating_add(erases as u64);
    let result = model_cut(more, Call::Restart, state, lent);
    for operation in &rest[..erases] {
        if let Operation::Erase { block } = *operation {
            let (main, bytes) = (
                block * 64 * sector_size..(block + 1) * 64 * sector_size,
                block * 64..(block + 1) * 64,
            );
            lent.data[main.clone()].copy_from_slice(&before.data[main]);
            lent.spare[bytes.clone()].copy_from_slice(&before.spare[bytes]);
        }
    }
    CutResult {
        steps: result.steps - erases as u64,
        ..result
    }
}

/// A restart whose first steps are the erases before the last programmed sector.
fn with_erases(budget: u64, state: State, lent: &mut Lent, list: &[Operation]) -> CutResult {
    let last = list
        .iter()
        .rposition(|operation| is_programmed(operation, lent.spare));
    let erases: Vec<usize> = list[..last.unwrap_or(0)]
        .iter()
        .filter_map(|operation| match operation {
            Operation::Erase { block } => Some(*block),
            Operation::Program { .. } => None,
        })
        .take(budget as usize)
        .collect();
    let steps = erases.len() as u64;
    let sector_size = header_of(lent.ram).map_or(0, |header| header[0] as usize);
    let result = model_cut(budget - steps, Call::Restart, state, lent);
    if result.refusal != 0 {
        return result;
    }
    for block in erases {
        lent.data[block * 64 * sector_size..(block + 1) * 64 * sector_size].fill(0xFF);
        lent.spare[block * 64..(block + 1) * 64].fill(0xFF);
    }
    CutResult {
        steps: result.steps + steps,
        ..result
    }
}

/// The RAM without its pending call.
fn cleared(ram: &[u8]) -> Vec<u8> {
    let mut ram = ram.to_vec();
    if header_of(&ram).is_some() {
        write_header(&mut ram, 6, &[0]);
    }
    ram
}

/// A copy of the bytes without their pending call.
fn idle(lent: &Lent) -> Memory {
    let mut copy = lent.copy();
    copy.ram = cleared(&copy.ram);
    copy
}

impl Store for Broken {
    fn name(&self) -> &'static str {
        "broken"
    }

    fn call(&self, budget: Option<u64>, state: State, call: &Call, lent: &mut Lent) -> Answer {
        match (*call, budget) {
            (Call::Lookup { .. }, None) if self.0 == Fault::LookupWhilePending => {
                ModelStore.call(None, state, call, &mut idle(lent).lent())
            }
            (Call::Load { tab }, None) => Answer::Load(self.load(state, tab, lent)),
            (call, Some(budget)) => Answer::Cut(self.steps(budget, call, state, lent)),
            (call, None) if call.has_steps() => {
                let CutResult { refusal, state, .. } = self.steps(u64::MAX, call, state, lent);
                Answer::Change(Change { refusal, state })
            }
            _ => ModelStore.call(budget, state, call, lent),
        }
    }
}

/// Once the scenarios whose name begins with one of these, until the first difference.
fn run(fault: Fault, names: &[&str]) -> Result<Counts, Difference> {
    let mut total = Counts::default();
    for scenario in scenarios::all() {
        if !scenario.long && names.iter().any(|name| scenario.name.starts_with(name)) {
            total.add(&scenario.run(&ModelStore, &Broken(fault), 3)?);
        }
    }
    Ok(total)
}

/// Every cut of calls that fill pages and of one that builds sets of both indexes.
const EVERY_CUT: [&str; 2] = ["cuts-pages", "cuts-both"];
/// Altered bytes, states and lengths.
const ALTERED: [&str; 5] = ["wild", "lengths-16", "damaged-16", "damaged-32", "boundaries-16"];

#[test]
fn the_model_does_not_differ_from_itself() {
    let names = [EVERY_CUT.as_slice(), &ALTERED].concat();
    let counts = run(Fault::None, &names).unwrap_or_else(|difference| panic!("{difference}"));
    assert!(counts.cuts > 0 && counts.restarts > 0 && counts.refusals[10] > 0);
}

#[test]
fn broken_cuts_are_reported() {
    for fault in [
        Fault::FirstFresh,
        Fault::AllAgain,
        Fault::ErasesLeftOut,
        Fault::IntentLeft,
        Fault::ArgumentsLeft,
        Fault::RamTouched,
        Fault::StateHandedIn,
        Fault::HeaderBehindPages,
        Fault::FormatStoresState,
        Fault::UpdateAsInsert,
        Fault::CutGivesNewState,
        Fault::IntentNotCounted,
        Fault::RestartRefusesBySeven,
        Fault::NothingGivesHandedIn,
        Fault::ErasesRepeated,
    ] {
        assert!(run(fault, &EVERY_CUT).is_err(), "{fault:?} is not reported");
    }
}

/// On volumes that nobody alters, and on which no other call is made while one is pending, these do what the model does.
#[test]
fn broken_refusals_and_spare_bytes_are_reported() {
    for fault in [
        Fault::FreshOnes(4),
        Fault::FreshOnes(6),
        Fault::BudgetOf32Bits,
        Fault::TenFirst,
        Fault::RefusedGivesHeader,
        Fault::UnknownKindLast,
        Fault::NoHeaderByOne,
        Fault::FormatByHeader,
        Fault::LookupWhilePending,
        Fault::LoadWhilePending,
    ] {
        assert!(run(fault, &ALTERED).is_err(), "{fault:?} is not reported");
    }
}
