//! The test sees broken stores: the model with one fault each, the likeliest to slip through among them.

use difftest::counts::Counts;
use difftest::pair::Difference;
use difftest::{loads, scenarios};
use model::{positions, Set};
use store::{
    Answer, Call, Change, Geometry, Lent, LoadResult, LookupResult, ModelStore, State, Store, HASH_COUNT_01,
    HEADER_BYTES,
};

#[derive(Clone, Copy, Debug)]
enum Fault {
    None,
    /// Filters of all pages but the first are all ones.
    LaterFiltersAllOnes,
    /// A bit of a set is wrong from set 3 on.
    LaterSetsWrong,
    /// A bit of a full set is wrong.
    FullSetWrong,
    /// Pages are opened, the count is 0.
    CountZero,
    /// Refusal 5 while there is space.
    FullTooEarly,
    MissAlways,
    /// `ok` and nothing written.
    WritesNothing,
    RefuseAlways,
    /// The offset of a record is that of its neighbour.
    WrongOffset,
    /// Deletions are counted twice.
    WrongState,
    /// The spare byte of a programmed sector is not 00.
    WrongSpareByte,
    /// A set leaves its predecessor on the chip.
    NoErase,
    /// A byte of the work page is left.
    WorkPageKept,
    /// A byte behind the volume is erased as well.
    FormatTooLong,
    /// A refusal 7 leaves half a call behind.
    HalfCall,
    /// A refused format hands out the new state.
    RefusedFormatState,
    /// Refusals 3 and 5 in the wrong order.
    WrongOrder,
    /// An update of an absent level is refused by 4.
    AbsentRefused,
    /// An update of an absent level is refused by 6 where deletions are full.
    AbsentNeedsDeletion,
    /// An update of an absent level counts a deletion.
    AbsentCounted,
    /// An update of an absent level writes a deletion that is not counted.
    AbsentDeleted,
    /// The page of deletions is programmed by an update of an absent level that would have filled it.
    AbsentFillsPage,
    /// A deleted entry ends the search.
    StopsAtDeleted,
    /// The lengths of the slices are not looked at closely.
    OneByteShort,
    /// A mark with four ones is fresh.
    FourOnesFresh,
    /// A mark with five ones is programmed.
    SixOnesNeeded,
    /// The marks of a page are joined bit by bit before their ones are counted.
    RunJoined,
    /// A live level of a tab is refused by 3.
    LoadInserts,
    /// A malformed row is left out.
    LoadGoesOn,
    /// The whole tab is read before its first row is loaded.
    LoadReadsFirst,
    /// A refused load hands out the state handed in.
    LoadStateKept,
    /// A refused load gives no number of rows.
    LoadRowsForgotten,
    /// Refusal 9 before 1 and 2.
    LoadNineFirst,
    /// Another tab than the one lent is read.
    LoadReads(Reader),
    /// Another k than the one handed in is used; the state handed out has the right one.
    HashCount(HashCount),
    /// An update hands out document 01's k.
    HashCountLost,
    /// Pages of deletions are opened, their count is 0.
    DeletionCountZero,
    /// However many pages of deletions are opened, one is counted.
    DeletionCountOfOnePage,
    /// The filters of a page of deletions change places.
    HalvesSwapped,
    /// The second filter of a page of deletions is left out.
    SecondHalfMissing,
    /// A byte of the deletions' filters is left in RAM after a flush.
    DeletionFiltersKept,
    /// A bit of a set over deletions is wrong from set 3 on.
    DeletionSetsWrong,
    /// A bit of a full set over deletions is wrong.
    FullDeletionSetWrong,
    /// A set over deletions leaves the sectors of L1 programmed.
    DeletionsNoErase,
    /// All pages of deletions are read, whatever their filters say; the count is the right one.
    DeletionFiltersUnread,
    /// A page of deletions is opened only if both its filters have the bits: its answers, its counts of pages of deletions, or
    /// both are given out.
    BothHalvesNeeded {
        answers: bool,
        counts: bool,
    },
    /// Half a page of deletions has a filter already, so that there are d / (S/2) of them.
    HalfPageFiltered,
    /// A RAM of five pages is enough.
    FivePages,
}

/// The k that is used of the one handed in.
type HashCount = fn(u32) -> u32;

/// Hash counts that are wrong for some k.
const HASH_COUNTS: [(&str, HashCount); 6] = [
    ("always three positions", |k| if is_allowed(k) { 3 } else { k }),
    ("one position too few", |k| {
        if is_allowed(k) {
            (k - 1).max(1)
        } else {
            k
        }
    }),
    ("one position too many", |k| {
        if is_allowed(k) {
            (k + 1).min(8)
        } else {
            k
        }
    }),
    ("nine allowed", |k| if k == 9 { 8 } else { k }),
    ("none allowed", |k| k.max(1)),
    ("the lowest byte counts", |k| k % 256),
];

fn is_allowed(k: u32) -> bool {
    (1..=8).contains(&k)
}

/// The tab that is read of the one lent.
type Reader = fn(&[u8]) -> Vec<u8>;

/// Readers that take more or less than the grammar.
const READERS: [(&str, Reader); 11] = [
    ("capital letters", |tab| tab.to_ascii_lowercase()),
    ("blanks", |tab| without(tab, b" ")),
    ("CR anywhere", |tab| without(tab, b"\r")),
    ("quotes anywhere", |tab| without(tab, b"\"")),
    ("zeros left out", |tab| replaced(tab, "00", "0")),
    ("empty lines", |tab| replaced(tab, "\n\n", "\n")),
    ("9 for no bytes", |tab| {
        if tab.is_empty() {
            b"\n".to_vec()
        } else {
            tab.to_vec()
        }
    }),
    ("only a line end taken for no bytes", |tab| {
        if tab == b"\n" {
            Vec::new()
        } else {
            tab.to_vec()
        }
    }),
    ("a comma behind the row", |tab| replaced(tab, ",\n", "\n")),
    ("numbers of 2^32", |tab| replaced(tab, "4294967296", "0")),
    ("no row without an ending", |tab| {
        let end = tab.iter().rposition(|&byte| byte == b'\n');
        tab[..end.map_or(tab.len(), |end| end + 1)].to_vec()
    }),
];

fn without(tab: &[u8], left_out: &[u8]) -> Vec<u8> {
    tab.iter()
        .copied()
        .filter(|byte| !left_out.contains(byte))
        .collect()
}

/// Byte by byte, so that any bytes can be handled as text.
fn replaced(tab: &[u8], from: &str, to: &str) -> Vec<u8> {
    let text: String = tab.iter().map(|&byte| char::from(byte)).collect();
    text.replace(from, to)
        .chars()
        .map(|letter| letter as u8)
        .collect()
}

struct Broken {
    fault: Fault,
}

impl Broken {
    /// The state with the k that is used.
    fn used(&self, state: State) -> State {
        let hash_count = match self.fault {
            Fault::HashCount(used) => used(state.hash_count),
            _ => state.hash_count,
        };
        State { hash_count, ..state }
    }

    /// The header has the k that was named, so that only what is done with another one is wrong.
    fn name_hash_count(&self, hash_count: u32, ram: &mut [u8]) {
        if let Fault::HashCount(_) = self.fault {
            let start = ram.len() - HEADER_BYTES + 12;
            ram[start..start + 4].copy_from_slice(&hash_count.to_le_bytes());
        }
    }

    /// The marks as a store with this fault takes them: one that it takes for fresh has five ones, one that it takes for programmed four.
    fn taken(&self, records: usize, spare: &[u8]) -> Vec<u8> {
        let ones = |mark: &u8| mark.count_ones();
        let mut taken = spare.to_vec();
        match self.fault {
            Fault::FourOnesFresh => taken
                .iter_mut()
                .filter(|mark| ones(mark) == 4)
                .for_each(|mark| *mark = 0x1F),
            Fault::SixOnesNeeded => taken
                .iter_mut()
                .filter(|mark| ones(mark) == 5)
                .for_each(|mark| *mark = 0x0F),
            Fault::RunJoined => {
                for page in taken[..records.min(spare.len())].chunks_exact_mut(4) {
                    let joined = page.iter().fold(0xFF, |all, mark| all & mark);
                    if page.iter().all(|mark| ones(mark) >= 5) && ones(&joined) < 5 {
                        page.fill(0x0F);
                    }
                }
            }
            _ => {}
        }
        taken
    }

    /// A change by the model with the k that is used, on the marks as they are taken; those that it does not write stay as they were.
    fn on_taken(&self, state: State, call: &Call, lent: &mut Lent) -> Change {
        let Lent { data, spare, ram } = lent;
        let before = self.taken(64 * state.ra_blocks as usize, spare);
        let mut after = before.clone();
        let on_taken = &mut Lent {
            data,
            spare: &mut after,
            ram,
        };
        let answer = ModelStore.call(None, self.used(state), call, on_taken);
        for (sector, mark) in spare.iter_mut().enumerate() {
            if after[sector] != before[sector] {
                *mark = after[sector];
            }
        }
        answer.change()
    }

    fn after_change(&self, before: State, change: Change, lent: &mut Lent) -> Change {
        let Lent { data, spare, ram } = lent;
        let mut change = change;
        change.state.hash_count = before.hash_count;
        if change.refusal == 0 {
            self.name_hash_count(before.hash_count, ram);
        }
        let Some(geometry) = Geometry::of_state(before) else {
            return change;
        };
        let accepted = change.refusal == 0;
        let grown = accepted && change.state.records > before.records;
        let records = change.state.records as usize;
        let entries = geometry.entries_per_page();
        let page = geometry.page_size();
        let block = 64 * geometry.sector_size();
        let set_built = grown && records.is_multiple_of(128 * entries);
        let s = geometry.sector_size();
        let second = geometry.deletion_index();
        let deletions = change.state.deletions as usize;
        let page_deleted = accepted && deletions > before.deletions as usize && deletions.is_multiple_of(s);
        let half_deleted = accepted && deletions > before.deletions as usize && deletions % s == s / 2;
        let deletion_flush = page_deleted && deletions.is_multiple_of(4 * s);
        let deletion_set = page_deleted && deletions.is_multiple_of(64 * s);
        // Where the two filters of the page are in each sector, unless they were flushed.
        let pair_start = (deletions / s).saturating_sub(1) % 4 * (s / 4);
        match self.fault {
            Fault::LaterFiltersAllOnes if grown && records.is_multiple_of(entries) && records > entries => {
                ram[3 * page..4 * page].fill(0xFF);
            }
            Fault::LaterSetsWrong if set_built && records == 2 * 128 * entries => {
                data[geometry.key_index().side_b_first_block() * block + 5] ^= 0x10;
            }
            Fault::FullSetWrong
                if set_built && records.is_multiple_of(geometry.filters_per_cycle() * entries) =>
            {
                data[geometry.key_index().full_sets_first_block() * block + 5] ^= 0x10;
            }
            Fault::WrongState if accepted && change.state.deletions > before.deletions => {
                change.state.deletions += 1;
            }
            Fault::WrongSpareByte if grown && records == entries => spare[0] = 0x01,
            Fault::NoErase if set_built && records == 2 * 128 * entries => {
                spare[geometry.key_index().side_a_first_block() * 64] = 0x00;
            }
            Fault::WorkPageKept if set_built => ram[4 * page] = 1,
            Fault::HalfCall if change.refusal == 7 => {
                let place = before.records as usize % geometry.records_per_page() * 16;
                ram[place] ^= 1;
            }
            Fault::HalvesSwapped if page_deleted => {
                for sector in ram[5 * page..6 * page].chunks_exact_mut(s) {
                    let pair = &mut sector[pair_start..pair_start + s / 4];
                    pair.rotate_left(s / 8);
                }
            }
            Fault::SecondHalfMissing if page_deleted => {
                for sector in ram[5 * page..6 * page].chunks_exact_mut(s) {
                    sector[pair_start + s / 8..pair_start + s / 4].fill(0);
                }
            }
            Fault::HalfPageFiltered if half_deleted => {
                let numbers = ram[2 * page..2 * page + 2 * s].chunks_exact(4);
                let numbers: Vec<[u8; 4]> = numbers
                    .map(|bytes| [bytes[0], bytes[1], bytes[2], bytes[3]])
                    .collect();
                let slot = deletions / (s / 2) - 1;
                for sector in ram[5 * page..6 * page].chunks_exact_mut(s) {
                    sector[slot % 8 * (s / 8)..][..s / 8].fill(0);
                }
                for number in numbers {
                    let k = before.hash_count as usize;
                    for position in positions(s, k, u32::from_le_bytes(number)) {
                        let bit = slot % 8 * s + position % s;
                        ram[5 * page + position / s * s + bit / 8] |= 1 << (bit % 8);
                    }
                }
            }
            Fault::DeletionFiltersKept if deletion_flush => ram[5 * page] = 1,
            Fault::DeletionSetsWrong if deletion_set && deletions == 2 * 64 * s => {
                data[second.side_b_first_block() * block + 5] ^= 0x10;
            }
            Fault::FullDeletionSetWrong if deletion_set && deletions.is_multiple_of(16 * s * s) => {
                data[second.full_sets_first_block() * block + 5] ^= 0x10;
            }
            Fault::DeletionsNoErase if deletion_set => spare[second.l1_sector(15, 0)] = 0x00,
            Fault::WrongOrder if change.refusal == 3 && records == geometry.record_capacity() => {
                change.refusal = 5;
            }
            _ => {}
        }
        change
    }

    fn update_absent(&self, state: State, call: &Call, lent: &mut Lent) -> Change {
        // The level is looked up by now, so that the state is allowed.
        let geometry = Geometry::new(
            state.sector_size,
            state.ra_blocks,
            state.da_blocks,
            state.hash_count,
        )
        .expect("allowed");
        let deletions = state.deletions as usize;
        let has_room = (state.records as usize) < geometry.record_capacity();
        match self.fault {
            Fault::AbsentRefused => return Change { refusal: 4, state },
            Fault::AbsentNeedsDeletion if has_room && deletions == geometry.deletion_capacity() => {
                return Change { refusal: 6, state };
            }
            _ => {}
        }
        let mut change = self.on_taken(state, call, lent);
        let place = deletions % geometry.deletions_per_page();
        let page = geometry.page_size();
        match self.fault {
            Fault::AbsentCounted if change.refusal == 0 => change.state.deletions += 1,
            Fault::AbsentDeleted if change.refusal == 0 => {
                lent.ram[2 * page + 4 * place..][..4].copy_from_slice(&state.records.to_le_bytes());
            }
            Fault::AbsentFillsPage if change.refusal == 0 && place + 1 == geometry.deletions_per_page() => {
                lent.spare[4 * geometry.da_page(deletions / geometry.deletions_per_page())] = 0x00;
            }
            _ => {}
        }
        self.after_change(state, change, lent)
    }

    fn format(&self, old: State, named: State, lent: &mut Lent) -> Change {
        let call = Call::Format {
            sector_size: named.sector_size,
            ra_blocks: named.ra_blocks,
            da_blocks: named.da_blocks,
            hash_count: self.used(named).hash_count,
        };
        let mut change = ModelStore.call(None, old, &call, lent).change();
        if change.refusal == 0 {
            change.state.hash_count = named.hash_count;
            self.name_hash_count(named.hash_count, lent.ram);
        }
        match self.fault {
            Fault::FormatTooLong if change.refusal == 0 => {
                if let Some(geometry) = Geometry::of_state(change.state) {
                    if let Some(byte) = lent.data.get_mut(geometry.data_bytes()) {
                        *byte = 0xFF;
                    }
                }
            }
            Fault::RefusedFormatState if change.refusal != 0 => {
                change.state.sector_size = named.sector_size;
            }
            _ => {}
        }
        change
    }

    fn insert(&self, state: State, call: &Call, lent: &mut Lent) -> Change {
        match self.fault {
            Fault::RefuseAlways => return Change { refusal: 1, state },
            Fault::WritesNothing => {
                return ModelStore
                    .call(None, state, call, &mut lent.copy().lent())
                    .change();
            }
            _ => {}
        }
        let change = self.on_taken(state, call, lent);
        if let (Fault::FullTooEarly, 0) = (self.fault, change.refusal) {
            // Accepted, so that the product is small.
            if change.state.records == 4 * state.sector_size * state.ra_blocks {
                return Change { refusal: 5, state };
            }
        }
        self.after_change(state, change, lent)
    }

    fn update(&self, state: State, key: u32, call: &Call, lent: &mut Lent) -> Change {
        let level = model::lookup(state, key, lent.data, lent.spare, lent.ram);
        let mut change = if level.refusal == 0 && level.found == 0 {
            self.update_absent(state, call, lent)
        } else {
            self.delete(state, call, lent)
        };
        if let (Fault::HashCountLost, 0) = (self.fault, change.refusal) {
            change.state.hash_count = HASH_COUNT_01;
        }
        change
    }

    /// Or an update of a live level.
    fn delete(&self, state: State, call: &Call, lent: &mut Lent) -> Change {
        let change = self.on_taken(state, call, lent);
        self.after_change(state, change, lent)
    }

    fn lookup(&self, state: State, key: u32, lent: &Lent) -> LookupResult {
        let (data, spare, ram) = (&*lent.data, &*lent.spare, &*lent.ram);
        let result = model::lookup(self.used(state), key, data, spare, ram);
        match self.fault {
            Fault::CountZero => LookupResult { count: 0, ..result },
            Fault::MissAlways => LookupResult {
                found: 0,
                in_ram: 0,
                offset: 0,
                ..result
            },
            Fault::DeletionCountZero => LookupResult {
                deletion_count: 0,
                ..result
            },
            Fault::DeletionCountOfOnePage => LookupResult {
                deletion_count: result.deletion_count.min(1),
                ..result
            },
            Fault::DeletionFiltersUnread if result.refusal == 0 => {
                let (mut open, mut open_ram) = (data.to_vec(), ram.to_vec());
                let geometry = Geometry::of_state(state).expect("allowed");
                let start = geometry.deletion_index().l1_block() * 64 * geometry.sector_size();
                open[start..geometry.data_bytes()].fill(0xFF);
                open_ram[20 * geometry.sector_size()..geometry.ram_page_bytes()].fill(0xFF);
                LookupResult {
                    deletion_count: result.deletion_count,
                    ..model::lookup(state, key, &open, spare, &open_ram)
                }
            }
            Fault::BothHalvesNeeded { answers, counts } if result.refusal == 0 => {
                let (joined, joined_ram) = halves_joined(state, data, ram);
                let wrong = model::lookup(state, key, &joined, spare, &joined_ram);
                let deletion_count = [result.deletion_count, wrong.deletion_count][usize::from(counts)];
                LookupResult {
                    deletion_count,
                    ..if answers { wrong } else { result }
                }
            }
            Fault::FivePages
                if result.refusal == 2 && ram.len() >= 20 * state.sector_size as usize + HEADER_BYTES =>
            {
                let (pages, header) = ram.split_at(ram.len() - HEADER_BYTES);
                let mut longer = pages.to_vec();
                longer.resize(24 * state.sector_size as usize, 0);
                longer.extend_from_slice(header);
                model::lookup(state, key, data, spare, &longer)
            }
            Fault::WrongOffset if result.found == 1 => LookupResult {
                offset: result.offset ^ 16,
                ..result
            },
            Fault::StopsAtDeleted if result.refusal == 0 && result.found == 0 && state.deletions > 0 => {
                LookupResult {
                    count: result.count.min(1),
                    ..result
                }
            }
            Fault::OneByteShort if result.refusal == 2 => {
                let longer = [&[0], ram].concat();
                model::lookup(state, key, data, spare, &longer)
            }
            _ => result,
        }
    }

    fn load(&self, state: State, tab: &[u8], lent: &mut Lent) -> LoadResult {
        let load = |state, tab: &[u8], lent: &mut Lent| {
            ModelStore.call(None, state, &Call::Load { tab }, lent).load()
        };
        if let Fault::LoadReads(read) = self.fault {
            return load(state, &read(tab), lent);
        }
        let before = lent.copy();
        let mut result = load(self.used(state), tab, lent);
        result.state.hash_count = state.hash_count;
        if result.rows > 0 {
            self.name_hash_count(state.hash_count, lent.ram);
        }
        let refused = result.refusal != 0;
        match self.fault {
            Fault::LoadInserts if result.state.deletions > state.deletions => {
                LoadResult { refusal: 3, ..result }
            }
            Fault::LoadGoesOn if result.refusal == 9 => {
                let second = load(result.state, &behind(tab, result.rows), lent);
                LoadResult {
                    rows: result.rows + second.rows,
                    ..second
                }
            }
            Fault::LoadReadsFirst if result.refusal == 9 => {
                lent.data.copy_from_slice(&before.data);
                lent.spare.copy_from_slice(&before.spare);
                lent.ram.copy_from_slice(&before.ram);
                LoadResult {
                    rows: 0,
                    state,
                    ..result
                }
            }
            Fault::LoadStateKept if refused => LoadResult { state, ..result },
            Fault::LoadRowsForgotten if refused => LoadResult { rows: 0, ..result },
            Fault::LoadNineFirst if result.refusal <= 2 && !tab.starts_with(b"level") => {
                LoadResult { refusal: 9, ..result }
            }
            _ => result,
        }
    }
}

/// The tab without its first rows and the malformed one behind them.
fn behind(tab: &[u8], rows: u32) -> Vec<u8> {
    let mut lines = tab.split_inclusive(|&byte| byte == b'\n');
    let header = lines.next().unwrap_or(b"");
    let rest: Vec<&[u8]> = lines.skip(rows as usize + 1).collect();
    [header, &rest.concat()].concat()
}

impl Store for Broken {
    fn name(&self) -> &'static str {
        "broken"
    }

    fn call(&self, budget: Option<u64>, state: State, call: &Call, lent: &mut Lent) -> Answer {
        match *call {
            // Faults of these are in `broken_cuts`.
            _ if budget.is_some() => ModelStore.call(budget, state, call, lent),
            Call::Restart => ModelStore.call(budget, state, call, lent),
            Call::Format {
                sector_size,
                ra_blocks,
                da_blocks,
                hash_count,
            } => {
                let named = State::of_numbers([sector_size, ra_blocks, da_blocks, hash_count, 0, 0]);
                Answer::Change(self.format(state, named, lent))
            }
            Call::Insert { .. } => Answer::Change(self.insert(state, call, lent)),
            Call::Update { key, .. } => Answer::Change(self.update(state, key, call, lent)),
            Call::Delete { .. } => Answer::Change(self.delete(state, call, lent)),
            Call::Lookup { key } => Answer::Lookup(self.lookup(state, key, lent)),
            Call::Load { tab } => Answer::Load(self.load(state, tab, lent)),
        }
    }
}

/// The bytes with both filters of each page of deletions having the bits that the two have in common.
fn halves_joined(state: State, data: &[u8], ram: &[u8]) -> (Vec<u8>, Vec<u8>) {
    let geometry = Geometry::of_state(state).expect("allowed");
    let index = geometry.deletion_index();
    let (s, block) = (geometry.sector_size(), 64 * geometry.sector_size());
    let (mut data, mut ram) = (data.to_vec(), ram.to_vec());
    join_pairs(&mut ram[20 * s..24 * s], s);
    join_pairs(&mut data[index.l1_block() * block..][..block], s);
    // The newest set of a cycle is on a side, the full ones have single bits of each filter.
    let rounds = state.deletions as usize / (64 * s) % geometry.rounds_per_cycle();
    if rounds > 0 {
        let set = Set {
            number: rounds + 1,
            full_sets: 0,
        };
        let start = set.first_block(index) * block;
        join_pairs(
            &mut data[start..start + set.block_count() * block],
            set.width(geometry),
        );
    }
    join_pairs(
        &mut data[index.full_sets_first_block() * block..geometry.data_bytes()],
        1,
    );
    (data, ram)
}

/// Rows of parts of so many bits, a power of two: each bit and the one at its place in the other part of the pair.
fn join_pairs(bytes: &mut [u8], width: usize) {
    let before = bytes.to_vec();
    let bit = |i: usize| before[i / 8] >> (i % 8) & 1;
    for (i, byte) in bytes.iter_mut().enumerate() {
        *byte = (0..8).fold(0, |joined, j| {
            joined | (bit(8 * i + j) & bit((8 * i + j) ^ width)) << j
        });
    }
}

/// Once the scenarios that have one of these in their name, until the first difference.
fn run(fault: Fault, parts: &[&str]) -> Result<Counts, Difference> {
    let broken = Broken { fault };
    let mut total = Counts::default();
    for scenario in scenarios::all().into_iter().chain([loads::strings(5_000)]) {
        let chosen = parts.iter().any(|part| scenario.name.contains(part));
        if chosen && !scenario.long && !scenario.once {
            total.add(&scenario.run(&ModelStore, &broken, 7)?);
        }
    }
    Ok(total)
}

/// The scenarios of S = 16 and 32.
const SMALL: [&str; 3] = ["-16", "-32", "wild"];
/// Those with deletions enough for sets of their own, and some that alter filters and lengths.
const DELETIONS: [&str; 4] = [
    "deletions-16",
    "damaged-16-20",
    "lengths-16",
    "boundaries-16-140-34",
];
/// Those that alter spare bytes.
const WORN: [&str; 2] = ["damaged-16", "boundaries-16"];
/// Those of loads.
const LOADS: [&str; 1] = ["tab"];

fn assert_reported(name: &str, fault: Fault, parts: &[&str]) {
    match run(fault, parts) {
        Ok(_) => panic!("{name} is not reported"),
        Err(difference) => {
            assert!(difference.number > 0);
            assert!(difference.to_string().contains(&difference.what));
        }
    }
}

#[test]
fn the_model_does_not_differ_from_itself() {
    let parts = [SMALL.as_slice(), &LOADS].concat();
    let counts = run(Fault::None, &parts).unwrap_or_else(|difference| panic!("{difference}"));
    // Every answer occurs, and sets of all kinds are built.
    assert!(counts.accepted > 0 && counts.hits > 0 && counts.misses > 0 && counts.rows > 0);
    for number in 1..=10 {
        assert!(counts.refusals[number] > 0, "no refusal {number}");
    }
    assert!(counts.sets > counts.full_sets && counts.full_sets > 0);
    assert!(counts.deletion_sets > counts.full_deletion_sets && counts.full_deletion_sets > 0);
    assert!(counts.deletion_pages > 0);
    assert!(counts.cuts > 0 && counts.restarts > 0);
    for k in 1..=8 {
        assert!(counts.hash_counts[k] > 0, "nothing done with k = {k}");
    }
}

#[test]
fn broken_stores_are_reported() {
    for fault in [
        Fault::LaterFiltersAllOnes,
        Fault::LaterSetsWrong,
        Fault::FullSetWrong,
        Fault::CountZero,
        Fault::FullTooEarly,
        Fault::MissAlways,
        Fault::WritesNothing,
        Fault::RefuseAlways,
        Fault::WrongOffset,
        Fault::WrongState,
        Fault::WrongSpareByte,
        Fault::NoErase,
        Fault::WorkPageKept,
        Fault::FormatTooLong,
        Fault::HalfCall,
        Fault::RefusedFormatState,
        Fault::WrongOrder,
        Fault::AbsentRefused,
        Fault::AbsentNeedsDeletion,
        Fault::AbsentCounted,
        Fault::AbsentDeleted,
        Fault::AbsentFillsPage,
        Fault::StopsAtDeleted,
        Fault::OneByteShort,
    ] {
        assert_reported(&format!("{fault:?}"), fault, &SMALL);
    }
}

/// On a sound chip these are not wrong.
#[test]
fn wrong_freshness_is_reported() {
    for fault in [Fault::FourOnesFresh, Fault::SixOnesNeeded, Fault::RunJoined] {
        assert_reported(&format!("{fault:?}"), fault, &WORN);
    }
}

#[test]
fn wrong_filters_over_deletions_are_reported() {
    for fault in [
        Fault::DeletionCountZero,
        Fault::DeletionCountOfOnePage,
        Fault::HalvesSwapped,
        Fault::SecondHalfMissing,
        Fault::DeletionFiltersKept,
        Fault::DeletionSetsWrong,
        Fault::FullDeletionSetWrong,
        Fault::DeletionsNoErase,
        Fault::DeletionFiltersUnread,
        Fault::BothHalvesNeeded {
            answers: true,
            counts: true,
        },
        Fault::BothHalvesNeeded {
            answers: true,
            counts: false,
        },
        Fault::BothHalvesNeeded {
            answers: false,
            counts: true,
        },
        Fault::HalfPageFiltered,
        Fault::FivePages,
    ] {
        assert_reported(&format!("{fault:?}"), fault, &DELETIONS);
    }
}

#[test]
fn wrong_hash_counts_are_reported() {
    for (name, used) in HASH_COUNTS {
        assert_reported(name, Fault::HashCount(used), &SMALL);
    }
    assert_reported("k lost by an update", Fault::HashCountLost, &SMALL);
}

#[test]
fn broken_loads_are_reported() {
    for fault in [
        Fault::LoadInserts,
        Fault::LoadGoesOn,
        Fault::LoadReadsFirst,
        Fault::LoadStateKept,
        Fault::LoadRowsForgotten,
        Fault::LoadNineFirst,
    ] {
        assert_reported(&format!("{fault:?}"), fault, &LOADS);
    }
    for (name, reader) in READERS {
        assert_reported(name, Fault::LoadReads(reader), &LOADS);
    }
}
