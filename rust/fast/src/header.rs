//! The header, the last 64 bytes of the RAM: the state and the pending call, numbers of four bytes each.

use model::State;

pub const HEADER: usize = 64;

const WORDS: usize = HEADER / 4;
const STATE_WORDS: usize = 6;
/// Place of the kind among the words; the arguments follow it.
const KIND: usize = STATE_WORDS;
const ARGUMENTS: usize = 4;

/// Kinds of a pending call.
pub const NONE: u32 = 0;
pub const INSERT: u32 = 1;
pub const UPDATE: u32 = 2;
pub const DELETE: u32 = 3;
pub const FORMAT: u32 = 4;

/// A call to come: its kind and arguments.
#[derive(Clone, Copy)]
pub struct Intent {
    pub kind: u32,
    pub arguments: [u32; ARGUMENTS],
}

/// What a header says.
pub struct Header {
    pub state: State,
    pub intent: Intent,
}

impl Header {
    /// Nothing if the RAM has no room for one.
    pub fn read(ram: &[u8]) -> Option<Header> {
        let header: &[u8; HEADER] = ram.last_chunk()?;
        let (words, _) = header.as_chunks();
        let word = |at: usize| u32::from_le_bytes(words[at]);
        Some(Header {
            state: State::of_numbers(std::array::from_fn(word)),
            intent: Intent {
                kind: word(KIND),
                arguments: std::array::from_fn(|i| word(KIND + 1 + i)),
            },
        })
    }
}

/// Is there no pending call? The RAM is long enough.
#[inline]
pub fn is_idle(ram: &[u8]) -> bool {
    ram[ram.len() - HEADER + 4 * KIND..][..4] == NONE.to_le_bytes()
}

/// Stores the state handed over and the intent of a call.
#[inline]
pub fn store_intent(state: State, intent: Intent, ram: &mut [u8]) {
    let mut words = words_of(state);
    words[KIND] = intent.kind;
    words[KIND + 1..][..ARGUMENTS].copy_from_slice(&intent.arguments);
    store(words, ram);
}

/// Stores the intent of a format, which keeps the state's words.
pub fn store_format_intent(new: State, ram: &mut [u8]) {
    let start = ram.len() - HEADER;
    let (words, _) = ram[start + 4 * KIND..].as_chunks_mut();
    let intent = [
        FORMAT,
        new.sector_size,
        new.ra_blocks,
        new.da_blocks,
        new.hash_count,
    ];
    words.fill([0; 4]);
    for (word, number) in words.iter_mut().zip(intent) {
        *word = number.to_le_bytes();
    }
}

/// Stores the state after a call, and no intent.
#[inline]
pub fn store_state(state: State, ram: &mut [u8]) {
    store(words_of(state), ram);
}

#[inline(always)]
fn words_of(state: State) -> [u32; WORDS] {
    let mut words = [0; WORDS];
    words[..STATE_WORDS].copy_from_slice(&state.numbers());
    words
}

#[inline(always)]
fn store(words: [u32; WORDS], ram: &mut [u8]) {
    let start = ram.len() - HEADER;
    let (places, _) = ram[start..].as_chunks_mut();
    for (place, word) in places.iter_mut().zip(words) {
        *place = word.to_le_bytes();
    }
}
