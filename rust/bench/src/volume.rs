//! Volumes with a known history: inserts, with updates evenly among them; where nothing else is said, d = n/10.

use difftest::random::Random;
use store::{Call, FastStore, Geometry, Memory, State, Store, HASH_COUNT_01};

/// Changes in a round, and room for them in a volume.
pub const ROOM: usize = 64;

/// S and k of a volume, and how many of its records are updates; R and D follow from its records.
#[derive(Clone, Copy, Debug, PartialEq, Eq)]
pub struct Kind {
    pub sector_size: u32,
    pub hash_count: u32,
    pub deletions: Deletions,
}

impl Kind {
    /// Document 01's k, d = n/10.
    pub const fn of(sector_size: u32) -> Kind {
        Kind {
            sector_size,
            hash_count: HASH_COUNT_01,
            deletions: Deletions::Tenth,
        }
    }

    /// d of a volume with `n` records.
    fn deletions_of(self, n: usize) -> usize {
        match self.deletions {
            Deletions::OnePage => (self.sector_size as usize + 1).min(n / 2),
            Deletions::Tenth => n / 10,
            Deletions::Half => n / 2,
        }
    }
}

/// How many records of a volume are updates.
#[derive(Clone, Copy, Debug, PartialEq, Eq)]
pub enum Deletions {
    /// A full page and one more in RAM: d = S + 1.
    OnePage,
    /// d = n/10.
    Tenth,
    /// d = n/2.
    Half,
}

/// Which keys are inserted.
#[derive(Clone, Copy, Debug, PartialEq, Eq)]
pub enum Keys {
    Random,
    /// 1, 2, 3 and so on.
    InOrder,
}

impl Keys {
    /// Key number `i`; all differ.
    pub fn key(self, i: usize) -> u32 {
        match self {
            Keys::Random => mixed(i as u32),
            Keys::InOrder => i as u32 + 1,
        }
    }
}

/// A permutation of the numbers of 32 bits without a visible order.
fn mixed(i: u32) -> u32 {
    let mut x = i ^ 0x5EED;
    x = (x ^ x >> 16).wrapping_mul(0x7FEB_352D);
    x = (x ^ x >> 15).wrapping_mul(0x846C_A68B);
    x ^ x >> 16
}

/// A state with the bytes that it needs, and the keys in it.
pub struct Volume {
    pub state: State,
    pub memory: Memory,
    pub keys: Keys,
    /// Record number of each key; key number i is live if i is below the length.
    newest: Vec<u32>,
}

/// Blocks of RA and DA for `n` records and so many changes more; nothing if they are too many.
pub fn geometry(kind: Kind, n: usize, room: usize) -> Option<(u32, u32)> {
    let s = kind.sector_size as usize;
    let ra_blocks = (n + room).div_ceil(4 * s) as u32;
    let da_blocks = (kind.deletions_of(n) + room).div_ceil(16 * s).max(1) as u32;
    Geometry::new(kind.sector_size, ra_blocks, da_blocks, HASH_COUNT_01).map(|_| (ra_blocks, da_blocks))
}

impl Volume {
    /// A volume with `n` records. The history is known to be accepted, so its changes need no search.
    pub fn filled(kind: Kind, n: usize, room: usize, keys: Keys) -> Option<Volume> {
        let mut volume = Volume::formatted(kind, n, room, keys)?;
        let mut random = Random::new(0xF111);
        for number in 0..n {
            let (i, deleted) = volume.next_record(kind, number, n, &mut random);
            let record = [keys.key(i), number as u32, 1, 0];
            let Memory { data, spare, ram } = &mut volume.memory;
            let change = fast::append(volume.state, deleted, record, data, spare, ram);
            assert_eq!(change.refusal, 0, "record {number}");
            volume.state = change.state;
        }
        Some(volume)
    }

    /// An empty volume with room for `n` records and so many changes more.
    pub fn formatted(kind: Kind, n: usize, room: usize, keys: Keys) -> Option<Volume> {
        let (ra_blocks, da_blocks) = geometry(kind, n, room)?;
        let geometry = Geometry::new(kind.sector_size, ra_blocks, da_blocks, kind.hash_count)?;
        let lengths = [
            geometry.data_bytes(),
            geometry.spare_bytes(),
            geometry.ram_bytes(),
        ];
        let mut memory = Memory::filled(0, lengths);
        let format = Call::Format {
            sector_size: kind.sector_size,
            ra_blocks,
            da_blocks,
            hash_count: kind.hash_count,
        };
        let answer = FastStore.call(None, State::default(), &format, &mut memory.lent());
        let change = answer.change();
        assert_eq!(change.refusal, 0, "format");
        Some(Volume {
            state: change.state,
            memory,
            keys,
            newest: Vec::new(),
        })
    }

    /// The key's number of the next one of `n` records, and the record that it deletes.
    fn next_record(
        &mut self,
        kind: Kind,
        number: usize,
        n: usize,
        random: &mut Random,
    ) -> (usize, Option<u32>) {
        let updates = |records: usize| records * kind.deletions_of(n) / n;
        if updates(number + 1) > updates(number) {
            let i = random.below(self.newest.len());
            (i, Some(std::mem::replace(&mut self.newest[i], number as u32)))
        } else {
            self.newest.push(number as u32);
            (self.newest.len() - 1, None)
        }
    }

    /// Keys 0 to this, not included, are live.
    pub fn live(&self) -> usize {
        self.newest.len()
    }

    /// Takes over state and bytes of another volume of the same size, in the memory that is there.
    pub fn restore(&mut self, from: &Volume) {
        self.state = from.state;
        self.memory.data.copy_from_slice(&from.memory.data);
        self.memory.spare.copy_from_slice(&from.memory.spare);
        self.memory.ram.copy_from_slice(&from.memory.ram);
    }

    pub fn copy(&self) -> Volume {
        Volume {
            state: self.state,
            memory: self.memory.clone(),
            keys: self.keys,
            newest: Vec::new(),
        }
    }

    pub fn same(&self, other: &Volume) -> bool {
        self.state == other.state && self.memory == other.memory
    }
}

#[cfg(test)]
mod tests {
    use super::*;
    use store::ModelStore;

    /// The same history by calls of the model.
    fn by_calls(kind: Kind, n: usize, keys: Keys) -> Volume {
        let mut volume = Volume::formatted(kind, n, 0, keys).expect("allowed");
        let mut random = Random::new(0xF111);
        for number in 0..n {
            let (i, deleted) = volume.next_record(kind, number, n, &mut random);
            let (key, moves) = (keys.key(i), number as u32);
            let [goal, word] = [1, 0];
            let call = match deleted {
                None => Call::Insert {
                    key,
                    moves,
                    goal,
                    word,
                },
                Some(_) => Call::Update {
                    key,
                    moves,
                    goal,
                    word,
                },
            };
            let lent = &mut volume.memory.lent();
            let change = ModelStore.call(None, volume.state, &call, lent).change();
            assert_eq!(change.refusal, 0, "record {number}");
            volume.state = change.state;
        }
        volume
    }

    #[test]
    fn volumes_of_the_calls() {
        for (sector_size, hash_count, n, deletions, d, keys) in [
            (16, 3, 5000, Deletions::Tenth, 500, Keys::Random),
            (16, 3, 5000, Deletions::Half, 2500, Keys::InOrder),
            (16, 3, 5001, Deletions::OnePage, 17, Keys::InOrder),
            (16, 8, 5000, Deletions::Half, 2500, Keys::Random),
            (64, 3, 8300, Deletions::Half, 4150, Keys::Random),
            (64, 1, 4200, Deletions::Tenth, 420, Keys::Random),
            (512, 3, 2500, Deletions::OnePage, 513, Keys::Random),
        ] {
            let kind = Kind {
                sector_size,
                hash_count,
                deletions,
            };
            let filled = Volume::filled(kind, n, 0, keys).expect("allowed");
            assert_eq!(filled.state.deletions, d);
            assert_eq!(filled.state.hash_count, hash_count);
            assert!(filled.same(&by_calls(kind, n, keys)), "{kind:?}");
        }
    }
}
