//! A season: a list of calls that the seed gives, each accepted, and what a volume has after each of them.

use difftest::random::Random;
use store::{Call, Geometry, Lent, State, Store, HEADER_BYTES};

const SECTOR_SIZE: u32 = 16;
const RA_BLOCKS: u32 = 40;
const DA_BLOCKS: u32 = 10;
/// Records, and deletions, between two sets: there is one of 128 filters, and then one of 256 out of it.
const PER_SET: u32 = 1024;
const LAST: u32 = 2 * PER_SET + 12;
const LEVELS: usize = 160;

/// Bytes lent beyond the volume; so the header is not at the end of the pages.
const BEYOND: [usize; 3] = [5, 3, 7];
/// What lies in the memory before the format.
const UNUSED: u8 = 0x5A;

/// A call, and the counts after it.
pub struct Event {
    pub call: Call<'static>,
    pub records: u32,
    pub deletions: u32,
}

pub struct Season {
    hash_count: u32,
    pub keys: Vec<u32>,
    pub events: Vec<Event>,
}

impl Season {
    pub fn new(seed: u64) -> Season {
        let mut random = Random::new(seed);
        let keys: Vec<u32> = (0..LEVELS).map(|_| random.next_u32()).collect();
        let mut live = [false; LEVELS];
        let (mut records, mut deletions) = (0, 0);
        let mut events = Vec::new();
        while records < LAST || deletions < LAST {
            let level = random.below(LEVELS);
            let key = keys[level];
            let [moves, goal, word] = [random.next_u32(), random.next_u32(), random.next_u32()];
            let call = match (live[level], random.chance(1, 8)) {
                (true, true) => Call::Delete { key },
                (false, true) => Call::Insert {
                    key,
                    moves,
                    goal,
                    word,
                },
                (_, false) => Call::Update {
                    key,
                    moves,
                    goal,
                    word,
                },
            };
            deletions += u32::from(live[level]);
            live[level] = !matches!(call, Call::Delete { .. });
            records += u32::from(live[level]);
            events.push(Event {
                call,
                records,
                deletions,
            });
        }
        Season {
            hash_count: 1 + (seed % 8) as u32,
            keys,
            events,
        }
    }

    /// Before the calls.
    pub fn format(&self) -> Call<'static> {
        Call::Format {
            sector_size: SECTOR_SIZE,
            ra_blocks: RA_BLOCKS,
            da_blocks: DA_BLOCKS,
            hash_count: self.hash_count,
        }
    }

    /// How many of the calls are done, by the state alone: each raises n or d.
    pub fn done(&self, state: State) -> Option<usize> {
        let sum = state.records + state.deletions;
        let done = self
            .events
            .partition_point(|event| event.records + event.deletions <= sum);
        (self.state_after(done) == state).then_some(done)
    }

    pub fn state_after(&self, done: usize) -> State {
        let last = self.events[..done].last();
        State {
            sector_size: SECTOR_SIZE,
            ra_blocks: RA_BLOCKS,
            da_blocks: DA_BLOCKS,
            hash_count: self.hash_count,
            records: last.map_or(0, |event| event.records),
            deletions: last.map_or(0, |event| event.deletions),
        }
    }

    /// Does a call build a set of keys or of deletions?
    pub fn builds_set(&self, i: usize) -> bool {
        let (before, after) = (self.state_after(i), self.state_after(i + 1));
        before.records / PER_SET < after.records / PER_SET
            || before.deletions / PER_SET < after.deletions / PER_SET
    }

    /// A level's moves, goal and word after so many calls.
    pub fn values(&self, done: usize, level: u32) -> Option<[u32; 3]> {
        self.events[..done]
            .iter()
            .rev()
            .find_map(|event| match event.call {
                Call::Insert {
                    key,
                    moves,
                    goal,
                    word,
                }
                | Call::Update {
                    key,
                    moves,
                    goal,
                    word,
                } if key == level => Some(Some([moves, goal, word])),
                Call::Delete { key } if key == level => Some(None),
                _ => None,
            })?
    }
}

fn lengths() -> [usize; 3] {
    let geometry = Geometry::new(SECTOR_SIZE, RA_BLOCKS, DA_BLOCKS, 1).expect("allowed");
    [
        geometry.data_bytes() + BEYOND[0],
        geometry.spare_bytes() + BEYOND[1],
        geometry.ram_bytes() + BEYOND[2],
    ]
}

/// Memory in which nothing was stored yet.
pub fn unused() -> Vec<u8> {
    vec![UNUSED; lengths().iter().sum()]
}

/// Was no call begun yet?
pub fn is_unused(volume: &Lent) -> bool {
    volume.ram.iter().all(|&byte| byte == UNUSED)
}

/// The bytes of a volume, one slice behind the other.
pub fn lent(bytes: &mut [u8]) -> Lent<'_> {
    let [data_len, spare_len, _] = lengths();
    let (data, rest) = bytes.split_at_mut(data_len);
    let (spare, ram) = rest.split_at_mut(spare_len);
    Lent { data, spare, ram }
}

/// How many steps a call has: tried on copies.
pub fn steps(store: &dyn Store, state: State, call: &Call, volume: &Lent) -> u64 {
    let enough = Some(u64::MAX);
    store
        .call(enough, state, call, &mut volume.copy().lent())
        .cut()
        .steps
}

/// A level's moves, goal and word; a refusal is an error.
pub fn values(store: &dyn Store, state: State, key: u32, volume: &mut Lent) -> Result<Option<[u32; 3]>, u32> {
    let result = store.call(None, state, &Call::Lookup { key }, volume).lookup();
    if result.refusal != 0 {
        return Err(result.refusal);
    }
    if result.found == 0 {
        return Ok(None);
    }
    let bytes = if result.in_ram == 1 {
        &*volume.ram
    } else {
        &*volume.data
    };
    let record = &bytes[result.offset as usize..];
    let number = |at: usize| u32::from_le_bytes([record[at], record[at + 1], record[at + 2], record[at + 3]]);
    Ok(Some([number(4), number(8), number(12)]))
}

/// The header, the last of a volume's bytes, if a call is pending.
pub fn pending_header(bytes: &[u8]) -> Option<[u8; HEADER_BYTES]> {
    let header = bytes.last_chunk::<HEADER_BYTES>()?;
    let kind = u32::from_le_bytes([header[24], header[25], header[26], header[27]]);
    // Before the format there is none.
    (1..=4).contains(&kind).then_some(*header)
}
