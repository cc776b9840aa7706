//! Request 8: "a header in the last 64 bytes lent: S, R, D, k, n, d, then the pending call".

use crate::change::Record;
use crate::flash::read_number;
use crate::steps::Step;
use crate::State;

pub const HEADER_BYTES: usize = 64;
/// Of the pending call's kind, behind the six numbers of the state; "4 bytes each".
const KIND_OFFSET: usize = 24;
/// "Without one, zeros."
const NONE_PENDING: u32 = 0;

/// A changing call and its arguments.
#[derive(Clone, Copy)]
pub enum Call {
    Insert(Record),
    Update(Record),
    Delete {
        key: u32,
    },
    /// With the state that it gives.
    Format(State),
}

impl Call {
    /// "Kind (1 insert, 2 update, 3 delete, 4 format) and arguments (record; key to delete; or new S, R, D, k)."
    fn numbers(self) -> Vec<u32> {
        let record = |kind, record: Record| vec![kind, record.key, record.moves, record.goal, record.word];
        match self {
            Call::Insert(inserted) => record(1, inserted),
            Call::Update(inserted) => record(2, inserted),
            Call::Delete { key } => vec![3, key],
            Call::Format(new) => vec![4, new.sector_size, new.ra_blocks, new.da_blocks, new.hash_count],
        }
    }
}

/// What a header says of a pending call.
pub enum Pending {
    Nothing,
    Call(Call),
    UnknownKind,
}

pub struct Header {
    pub state: State,
    pub pending: Pending,
}

/// The header of a RAM; nothing if the RAM is shorter.
pub fn read_header(ram: &[u8]) -> Option<Header> {
    let bytes = &ram[ram.len().checked_sub(HEADER_BYTES)?..];
    let number = |i: usize| read_number(bytes, 4 * i);
    let record = Record {
        key: number(7),
        moves: number(8),
        goal: number(9),
        word: number(10),
    };
    let pending = match number(6) {
        NONE_PENDING => Pending::Nothing,
        1 => Pending::Call(Call::Insert(record)),
        2 => Pending::Call(Call::Update(record)),
        3 => Pending::Call(Call::Delete { key: number(7) }),
        4 => Pending::Call(Call::Format(State {
            sector_size: number(7),
            ra_blocks: number(8),
            da_blocks: number(9),
            hash_count: number(10),
            records: 0,
            deletions: 0,
        })),
        _ => Pending::UnknownKind,
    };
    let state = State::of_numbers(std::array::from_fn(number));
    Some(Header { state, pending })
}

/// "An accepted changing call first stores its intent and, format aside, the state handed over."
pub fn store_intent(call: Call, state: State, ram: &[u8]) -> Step {
    let start = ram.len() - HEADER_BYTES;
    let intent = call.numbers();
    match call {
        Call::Format(_) => Step::Store {
            offset: start + KIND_OFFSET,
            bytes: bytes_of(&intent, HEADER_BYTES - KIND_OFFSET),
        },
        _ => Step::Store {
            offset: start,
            bytes: header_bytes(state, &intent),
        },
    }
}

/// "Then stores the finished desk with the new state and the intent cleared": of this RAM the header alone is not finished.
pub fn store_finished(mut ram: Vec<u8>, state: State) -> Step {
    let start = ram.len() - HEADER_BYTES;
    ram[start..].copy_from_slice(&header_bytes(state, &[NONE_PENDING]));
    Step::Store {
        offset: 0,
        bytes: ram,
    }
}

fn header_bytes(state: State, intent: &[u32]) -> Vec<u8> {
    bytes_of(&[&state.numbers(), intent].concat(), HEADER_BYTES)
}

/// The numbers, "4 bytes each, zeros after".
fn bytes_of(numbers: &[u32], len: usize) -> Vec<u8> {
    let mut bytes: Vec<u8> = numbers.iter().flat_map(|number| number.to_le_bytes()).collect();
    bytes.resize(len, 0);
    bytes
}
