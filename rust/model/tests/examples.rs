//! The examples of document 01, the published hash vectors, request 2's k, and request 5's filters over deletions.

use model::{
    delete, fnv1a, format, insert, operations, positions, set_page_count, update, Geometry, Operation, State,
    HASH_COUNT_01,
};

#[test]
fn published_hash_vectors() {
    let path = concat!(env!("CARGO_MANIFEST_DIR"), "/../../tests/vectors/fnv1a32.txt");
    let text = std::fs::read_to_string(path).expect("the published vectors");
    let mut lines = 0;
    for line in text.lines().filter(|line| !line.starts_with('#')) {
        let (bytes, hash) = line.split_once(' ').expect("bytes, then hash");
        let digits = if bytes == "-" { "" } else { bytes };
        let bytes: Vec<u8> = (0..digits.len() / 2)
            .map(|i| u8::from_str_radix(&digits[2 * i..2 * i + 2], 16).expect("a byte"))
            .collect();
        assert_eq!(format!("{:08x}", fnv1a(&bytes)), hash, "{line}");
        lines += 1;
    }
    assert!(lines >= 28);
}

fn geometry(s: u32, r: u32, d: u32) -> Geometry {
    Geometry::new(s, r, d, HASH_COUNT_01).expect("allowed")
}

#[test]
fn block_counts() {
    for (s, r, d, blocks) in [
        (16, 1, 1, 21),
        (16, 32, 1, 67),
        (16, 63, 1, 114),
        (16, 64, 1, 119),
        (512, 2048, 1, 3715),
    ] {
        assert_eq!(geometry(s, r, d).blocks(), blocks);
    }
    assert_eq!(geometry(16, 1, 1).record_capacity(), 64);
    assert_eq!(geometry(512, 4096, 4096).blocks(), 12034);
    assert_eq!(geometry(16, 1, 1).ram_bytes(), 24 * 16 + 64);
    assert_eq!(Geometry::new(24, 1, 1, HASH_COUNT_01), None);
    assert_eq!(Geometry::new(16, 0, 1, HASH_COUNT_01), None);
    assert_eq!(Geometry::new(16, 1, 4097, HASH_COUNT_01), None);
}

#[test]
fn pages_of_sets() {
    let pages: Vec<usize> = (2..=6).map(set_page_count).collect();
    assert_eq!(pages, [16, 32, 64, 64, 128]);
}

#[test]
fn flush_sector() {
    let geometry = geometry(16, 1, 1);
    for index in [geometry.key_index(), geometry.deletion_index()] {
        assert_eq!(index.l1_sector(6, 2) - index.l1_block() * 64, 9 * 4 + 2);
    }
}

struct Volume {
    state: State,
    data: Vec<u8>,
    spare: Vec<u8>,
    ram: Vec<u8>,
}

impl Volume {
    fn new(s: u32, r: u32, d: u32) -> Volume {
        let geometry = geometry(s, r, d);
        let mut volume = Volume {
            state: State::default(),
            data: vec![0x5A; geometry.data_bytes()],
            spare: vec![0x5A; geometry.spare_bytes()],
            ram: vec![0x5A; geometry.ram_bytes()],
        };
        let change = format(
            volume.state,
            s,
            r,
            d,
            HASH_COUNT_01,
            &mut volume.data,
            &mut volume.spare,
            &mut volume.ram,
        );
        assert_eq!(change.refusal, 0);
        volume.state = change.state;
        volume
    }

    fn insert(&mut self, key: u32) -> u32 {
        let change = insert(
            self.state,
            key,
            key,
            0,
            0,
            &mut self.data,
            &mut self.spare,
            &mut self.ram,
        );
        self.state = change.state;
        change.refusal
    }

    fn update(&mut self, key: u32) -> u32 {
        let change = update(
            self.state,
            key,
            key,
            0,
            0,
            &mut self.data,
            &mut self.spare,
            &mut self.ram,
        );
        self.state = change.state;
        change.refusal
    }

    fn delete(&mut self, key: u32) -> u32 {
        let change = delete(self.state, key, &mut self.data, &mut self.spare, &mut self.ram);
        self.state = change.state;
        change.refusal
    }

    fn lookup(&self, key: u32) -> model::LookupResult {
        model::lookup(self.state, key, &self.data, &self.spare, &self.ram)
    }
}

#[test]
fn places_of_records() {
    let mut volume = Volume::new(16, 1, 1);
    for key in 0..5 {
        assert_eq!(volume.insert(key), 0);
    }
    let third = volume.lookup(3);
    assert_eq!((third.found, third.in_ram, third.offset), (1, 0, 48));
    let fourth = volume.lookup(4);
    assert_eq!((fourth.found, fourth.in_ram, fourth.offset), (1, 1, 0));
}

#[test]
fn capacity() {
    let mut volume = Volume::new(16, 1, 1);
    for key in 0..64 {
        assert_eq!(volume.insert(key), 0);
    }
    assert_eq!(volume.insert(64), 5);
    assert_eq!(volume.insert(7), 3);
}

#[test]
fn deletion_capacity() {
    let mut volume = Volume::new(16, 5, 1);
    for key in 0..257 {
        assert_eq!(volume.insert(key), 0);
    }
    for key in 0..256 {
        assert_eq!(volume.delete(key), 0);
    }
    assert_eq!(volume.delete(256), 6);
    assert_eq!(volume.delete(0), 4);
}

/// Sectors that are programmed.
fn programmed(range: std::ops::Range<usize>, volume: &Volume) -> usize {
    range.filter(|&sector| volume.spare[sector] == 0).count()
}

#[test]
fn first_set() {
    let mut volume = Volume::new(16, 16, 1);
    let geometry = geometry(16, 16, 1);
    for key in 0..1023 {
        assert_eq!(volume.insert(key), 0);
    }
    let l1 = geometry.key_index().l1_block() * 64;
    let side_a = geometry.key_index().side_a_first_block() * 64;
    assert_eq!(programmed(l1..l1 + 64, &volume), 15 * 4);
    assert_eq!(programmed(side_a..side_a + 64, &volume), 0);
    assert_eq!(volume.insert(1023), 0);
    assert_eq!(programmed(l1..l1 + 64, &volume), 0);
    assert_eq!(programmed(side_a..side_a + 64, &volume), 64);
    assert!(volume.ram[..24 * 16].iter().all(|&byte| byte == 0));
}

/// Request 5: the call that fills the 64th DA page flushes, builds set 2 of the index over DA and erases its L1.
#[test]
fn first_set_over_deletions() {
    let mut volume = Volume::new(16, 17, 4);
    let index = geometry(16, 17, 4).deletion_index();
    for key in 0..1025 {
        assert_eq!(volume.insert(key), 0);
    }
    let (l1, side_a) = (index.l1_block() * 64, index.side_a_first_block() * 64);
    for key in 0..1023 {
        assert_eq!(volume.delete(key), 0);
        // Four pages of sixteen deletions have eight filters, a flush.
        let flushes = (key as usize + 1) / 64;
        assert_eq!(programmed(l1..l1 + 64, &volume), 4 * flushes, "deletion {key}");
        let waits = volume.ram[20 * 16..24 * 16].iter().any(|&byte| byte != 0);
        assert_eq!(waits, (key + 1) % 64 >= 16, "deletion {key}");
    }
    assert_eq!(programmed(side_a..side_a + 64, &volume), 0);
    assert_eq!(volume.delete(1023), 0);
    assert_eq!(programmed(l1..l1 + 64, &volume), 0);
    assert_eq!(programmed(side_a..side_a + 64, &volume), 64);
    assert!(volume.ram[20 * 16..24 * 16].iter().all(|&byte| byte == 0));
}

/// Numbers of a DA page whose two filters stand in the definitions, as `Checks.pairPage`.
const PAIR: [u32; 16] = [1, 2, 3, 4, 17, 18, 19, 20, 9, 10, 11, 12, 25, 26, 27, 28];

/// Where the filters of `PAIR` are in RAM: two bytes for each half in each sector, first half first.
fn pair_page() -> [u8; 64] {
    let mut page = [0; 64];
    let sectors = [
        [66, 128, 128, 66],
        [129, 64, 64, 129],
        [24, 32, 32, 24],
        [66, 1, 1, 66],
    ];
    for (i, sector) in sectors.into_iter().enumerate() {
        page[16 * i..16 * i + 4].copy_from_slice(&sector);
    }
    page
}

#[test]
fn filters_of_a_page_of_deletions() {
    let mut volume = Volume::new(16, 1, 1);
    for key in 0..32 {
        assert_eq!(volume.insert(key), 0);
    }
    for key in PAIR {
        assert_eq!(volume.ram[20 * 16..24 * 16], [0; 64]);
        assert_eq!(volume.delete(key), 0);
    }
    assert_eq!(volume.ram[20 * 16..24 * 16], pair_page());
    assert_eq!(volume.ram[8 * 16..12 * 16], [0; 64]);
}

/// The definitions' `Checks.da-pages`: the entries of key 7 have the numbers 0, 12, 5 and 3, of which 12 and 3 are deleted on the
/// page and 5 in RAM. Two tests open the page; that of 0 finds its filters shut.
#[test]
fn deletion_pages_of_a_search() {
    let mut volume = Volume::new(16, 1, 1);
    let words = |numbers: &[u32]| -> Vec<u8> { numbers.iter().flat_map(|n| n.to_le_bytes()).collect() };
    volume.state.records = 20;
    volume.state.deletions = 17;
    volume.data[2048..2048 + 64].copy_from_slice(&words(&PAIR));
    volume.ram[64..64 + 32].copy_from_slice(&words(&[7, 0, 7, 12, 7, 5, 7, 3]));
    volume.ram[128..128 + 4].copy_from_slice(&words(&[5]));
    volume.ram[320..384].copy_from_slice(&pair_page());
    let hit = volume.lookup(7);
    assert_eq!((hit.refusal, hit.found, hit.in_ram, hit.offset), (0, 1, 0, 0));
    assert_eq!((hit.count, hit.deletion_count), (0, 2));
    // Refused by 8 after a test that opens the page: both counts are 0.
    volume.ram[64 + 16 + 4] = 20;
    let refused = volume.lookup(7);
    assert_eq!(refused.refusal, 8);
    assert_eq!((refused.count, refused.deletion_count), (0, 0));
}

/// An update that builds set 2 of both indexes: `Checks.update-order` has the same numbers.
#[test]
fn operations_of_both_indexes() {
    let state = State {
        sector_size: 16,
        ra_blocks: 16,
        da_blocks: 4,
        hash_count: 3,
        records: 1023,
        deletions: 1023,
    };
    let list = operations(geometry(16, 16, 4), state, true, true);
    let before_erase = list.iter().take_while(|operation| sector_of(operation).is_some());
    assert_eq!(before_erase.count(), 72);
    let sectors: Vec<usize> = list.iter().filter_map(sector_of).collect();
    let blocks: Vec<usize> = list.iter().filter_map(block_of).collect();
    assert_eq!(sectors.len(), 148);
    assert_eq!(
        [0, 4, 8, 72, 76, 80, 84].map(|i| sectors[i]),
        [
            24 * 64 + 252,
            37 * 64 + 15,
            38 * 64,
            1020,
            16 * 64 + 508,
            28 * 64 + 15,
            29 * 64
        ]
    );
    assert_eq!(blocks, [37, 28]);
}

fn sector_of(operation: &Operation) -> Option<usize> {
    match *operation {
        Operation::Program { sector } => Some(sector),
        Operation::Erase { .. } => None,
    }
}

fn block_of(operation: &Operation) -> Option<usize> {
    match *operation {
        Operation::Program { .. } => None,
        Operation::Erase { block } => Some(block),
    }
}

/// Each test of a record number counts the DA pages that it opens; one in RAM counts none.
#[test]
fn deletion_pages_opened() {
    let mut volume = Volume::new(16, 4, 4);
    // One key's records, all deleted but the last.
    for _ in 0..40 {
        assert_eq!(volume.insert(7), 0);
        assert_eq!(volume.delete(7), 0);
    }
    // 32 deletions are on two pages. A number of the newest page is met where it is opened first, one of the older page after the newest
    // one, if that is opened, and the eight of RAM at once.
    let miss = volume.lookup(7);
    assert_eq!((miss.refusal, miss.found), (0, 0));
    assert!(
        (32..=48).contains(&miss.deletion_count),
        "{}",
        miss.deletion_count
    );
    // The filters of the newest page shut: its numbers are no longer met, so that the newest of them counts as live.
    let mut shut = volume;
    for sector in shut.ram[20 * 16..24 * 16].chunks_exact_mut(16) {
        sector[4..8].fill(0);
    }
    let hit = shut.lookup(7);
    assert_eq!((hit.found, hit.offset, hit.in_ram), (1, 31 * 16, 0));
    assert!(hit.deletion_count <= 1);
    // One of them is enough.
    for sector in shut.ram[20 * 16..24 * 16].chunks_exact_mut(16) {
        sector[4..6].fill(0xFF);
    }
    assert_eq!(shut.lookup(7).found, 0);
}

/// Refusal 7 by a sector of the second index, before a byte moves.
#[test]
fn deletion_filters_need_fresh_sectors() {
    for sector in 0..4 {
        let mut volume = Volume::new(16, 2, 1);
        let index = geometry(16, 2, 1).deletion_index();
        for key in 0..64 {
            assert_eq!(volume.insert(key), 0);
        }
        for key in 0..63 {
            assert_eq!(volume.delete(key), 0);
        }
        volume.spare[index.l1_sector(0, sector)] = 0;
        let before = (volume.data.clone(), volume.spare.clone(), volume.ram.clone());
        assert_eq!(volume.delete(63), 7);
        assert_eq!(before, (volume.data, volume.spare, volume.ram));
    }
}

#[test]
fn sector_not_fresh() {
    let mut volume = Volume::new(16, 1, 1);
    volume.spare[0] = 0;
    for key in 0..3 {
        assert_eq!(volume.insert(key), 0);
    }
    let before = (volume.data.clone(), volume.spare.clone(), volume.ram.clone());
    assert_eq!(volume.insert(3), 7);
    assert_eq!(before, (volume.data, volume.spare, volume.ram));
}

/// A mark is fresh if five or more of its bits are one. It is left as it is unless its sector is programmed.
#[test]
fn fresh_by_ones() {
    for (mark, refusal) in [
        (0xFF, 0),
        (0xFE, 0),
        (0x1F, 0),
        (0xF8, 0),
        (0x0F, 7),
        (0xF0, 7),
        (0xAA, 7),
        (0x00, 7),
    ] {
        let mut volume = Volume::new(16, 1, 1);
        volume.spare[3] = mark;
        for key in 0..3 {
            assert_eq!(volume.insert(key), 0);
        }
        assert_eq!(volume.insert(3), refusal, "{mark:02X}");
        assert_eq!(volume.spare[3], if refusal == 0 { 0x00 } else { mark });
    }
}

/// Up to three bits of a mark, at any places.
fn wrong_bits(i: usize) -> u8 {
    let bit = |k: usize| 1u8 << (i / k % 8);
    [0, bit(1), bit(1) | bit(3), bit(1) | bit(5) | bit(11)][i % 4]
}

/// Marks with up to three wrong bits each, others before every call: the same answers, the same bytes but those marks that no
/// operation has written since, through a set that is built.
#[test]
fn worn_spare_decides_alike() {
    let mut sound = Volume::new(16, 20, 1);
    let mut worn = Volume::new(16, 20, 1);
    for call in 0..1200 {
        for (sector, mark) in worn.spare.iter_mut().enumerate() {
            *mark = sound.spare[sector] ^ wrong_bits(sector * 31 + call as usize * 7);
        }
        let before = (sound.spare.clone(), worn.spare.clone());
        let (expected, got) = match call % 11 {
            10 => (sound.delete(call - 3), worn.delete(call - 3)),
            _ => (sound.insert(call), worn.insert(call)),
        };
        assert_eq!((expected, got), (0, 0));
        assert!(sound.state == worn.state && sound.data == worn.data && sound.ram == worn.ram);
        for sector in 0..worn.spare.len() {
            let kept = sound.spare[sector] == before.0[sector] && worn.spare[sector] == before.1[sector];
            assert!(kept || worn.spare[sector] == sound.spare[sector]);
        }
    }
    assert_eq!(sound.state.records, 1091);
}

#[test]
fn wrong_record_number() {
    let mut volume = Volume::new(16, 1, 1);
    assert_eq!(volume.insert(7), 0);
    // The entry's record number is at byte 4 of the KA page.
    volume.ram[64 + 4] = 9;
    assert_eq!(volume.lookup(7).refusal, 8);
    assert_eq!(volume.insert(7), 8);
    assert_eq!(volume.delete(7), 8);
}

#[test]
fn wild_states_are_refused() {
    let mut bytes = [[0u8; 64]; 3];
    let [data, spare, ram] = &mut bytes;
    let wild = [0, 1, 16, 512, 4096, 4097, u32::MAX];
    for sector_size in wild {
        for ra_blocks in wild {
            for da_blocks in wild {
                for records in wild {
                    for deletions in wild {
                        let state = State {
                            sector_size,
                            ra_blocks,
                            da_blocks,
                            hash_count: HASH_COUNT_01,
                            records,
                            deletions,
                        };
                        let change = insert(state, 7, 1, 2, 3, data, spare, ram);
                        assert!(change.refusal == 1 || change.refusal == 2);
                        assert_eq!(change.state, state);
                        assert_eq!(model::lookup(state, 7, data, spare, ram).refusal, change.refusal);
                    }
                }
                let old = State {
                    records: 9,
                    ..State::default()
                };
                let change = format(
                    old,
                    sector_size,
                    ra_blocks,
                    da_blocks,
                    HASH_COUNT_01,
                    data,
                    spare,
                    ram,
                );
                assert!(change.refusal == 1 || change.refusal == 2);
                assert_eq!(change.state, old);
            }
        }
    }
}

/// k positions, each beside the key's others in one group of S; fewer are the first of more.
#[test]
fn positions_of_a_key() {
    for sector_size in [16, 32, 512] {
        for key in [0, 7, 255, 256, 65_536, u32::MAX] {
            let all = positions(sector_size, 8, key);
            let group = fnv1a(&[&[0], key.to_le_bytes().as_slice()].concat()) as usize % 4;
            for k in 1..=8 {
                assert_eq!(positions(sector_size, k, key), all[..k]);
                let hash = fnv1a(&[&[k as u8], key.to_le_bytes().as_slice()].concat()) as usize;
                assert_eq!(all[k - 1], group * sector_size + hash % sector_size);
            }
        }
    }
    assert_eq!(positions(16, 8, 7), [11, 2, 5, 4, 7, 14, 1, 0]);
    assert_eq!(positions(512, 8, 7), [315, 98, 261, 20, 183, 478, 369, 176]);
}

#[test]
fn hash_counts_that_are_allowed() {
    let volume = Volume::new(16, 1, 1);
    let Volume {
        state,
        mut data,
        mut spare,
        mut ram,
    } = volume;
    for k in [0, 9, 10, 16, 255, 256, 259, 1 << 31, u32::MAX] {
        assert_eq!(Geometry::new(16, 1, 1, k), None);
        let before = (data.clone(), spare.clone(), ram.clone());
        let change = format(state, 16, 1, 1, k, &mut data, &mut spare, &mut ram);
        assert_eq!((change.refusal, change.state), (1, state));
        let handed_in = State {
            hash_count: k,
            ..state
        };
        let change = insert(handed_in, 7, 1, 2, 3, &mut data, &mut spare, &mut ram);
        assert_eq!((change.refusal, change.state), (1, handed_in));
        assert_eq!(model::lookup(handed_in, 7, &data, &spare, &ram).refusal, 1);
        assert_eq!(before, (data.clone(), spare.clone(), ram.clone()));
        // Before the lengths are looked at.
        assert_eq!(model::lookup(handed_in, 7, &[], &[], &[]).refusal, 1);
    }
    for k in 1..=8 {
        let change = format(state, 16, 1, 1, k, &mut data, &mut spare, &mut ram);
        let formatted = State {
            hash_count: k,
            ..state
        };
        assert_eq!((change.refusal, change.state), (0, formatted));
    }
}

/// Inserts through sets and a full set of the index over KA.
#[test]
fn operations_of_inserts() {
    let mut volume = Volume::new(16, 80, 1);
    let mut seen = Seen::default();
    for key in 0..4 * 1024 {
        seen.call(&mut volume, |volume| volume.insert(key));
    }
    assert_eq!((seen.flushes, seen.sets), ([0, 64], [0, 4]));
}

/// Deletes through sets and a full set of the index over DA.
#[test]
fn operations_of_deletes() {
    let mut volume = Volume::new(16, 80, 17);
    for key in 0..4 * 1024 + 1 {
        assert_eq!(volume.insert(key), 0);
    }
    let mut seen = Seen::default();
    for key in 0..4 * 1024 {
        seen.call(&mut volume, |volume| volume.delete(key));
    }
    assert_eq!((seen.flushes, seen.sets), ([64, 0], [4, 0]));
}

/// Updates of 1024 levels, so that a call that builds a set builds one of both indexes, through a full set of each.
#[test]
fn operations_of_updates() {
    let mut random = Random(5);
    let mut volume = Volume::new(16, 96, 20);
    for key in 0..1024 {
        assert_eq!(volume.insert(key), 0);
    }
    let mut seen = Seen::default();
    for _ in 0..5 * 1024 {
        seen.call(&mut volume, |volume| volume.update(random.below(1024)));
    }
    assert_eq!((seen.sets, seen.both_sets), ([5, 5], 5));
    assert_eq!((seen.flushes, seen.both_flushes), ([80, 80], 80));
}

/// Inserts, updates and deletes; about seven of eight levels are live. Flushes of the indexes fall together where these are 64 or 128.
#[test]
fn operations_of_histories() {
    let mut seen = Seen::default();
    for (levels, seed) in [(73, 1), (146, 2), (700, 3)] {
        let mut random = Random(seed);
        let mut volume = Volume::new(16, 48, 12);
        for _ in 0..4200 {
            let (key, choice) = (random.below(levels), random.below(8));
            seen.call(&mut volume, |volume| match choice {
                0 => volume.delete(key),
                1 => volume.insert(key),
                _ => volume.update(key),
            });
        }
    }
    let Seen {
        refused,
        flushes,
        sets,
        both_flushes,
        both_sets,
    } = seen;
    assert!(
        refused > 0
            && flushes.into_iter().all(|count| count > 100)
            && sets.into_iter().all(|count| count > 5)
    );
    assert!(both_flushes > 0 && both_flushes < flushes[0] && both_sets < sets[0]);
}

struct Random(u64);

impl Random {
    fn below(&mut self, bound: u32) -> u32 {
        self.0 ^= self.0 << 13;
        self.0 ^= self.0 >> 7;
        self.0 ^= self.0 << 17;
        ((self.0 >> 32) % u64::from(bound)) as u32
    }
}

/// What the calls had among their operations; of two, those of the index over DA are the first.
#[derive(Debug, Default)]
struct Seen {
    refused: usize,
    flushes: [usize; 2],
    sets: [usize; 2],
    both_flushes: usize,
    both_sets: usize,
}

/// Parts of a call's operations, in the order that document 01 and request 5 give them.
#[derive(Clone, Copy, Debug, PartialEq, Eq, PartialOrd, Ord)]
enum Part {
    Da,
    DeletionFlush,
    DeletionSet,
    DeletionErases,
    Ra,
    Ka,
    KeyFlush,
    KeySet,
    KeyErases,
}

/// The part of an operation, by its kind and its block.
fn part_of(geometry: Geometry, operation: &Operation) -> Part {
    let (block, erases) = match *operation {
        Operation::Program { sector } => (sector / 64, false),
        Operation::Erase { block } => (block, true),
    };
    let (keys, deletions) = (
        geometry.key_index().l1_block(),
        geometry.deletion_index().l1_block(),
    );
    assert!(block < geometry.blocks() && !(erases && block < keys));
    match block {
        _ if erases && block < deletions => Part::KeyErases,
        _ if erases => Part::DeletionErases,
        _ if block < geometry.ka_first_block() => Part::Ra,
        _ if block < geometry.da_first_block() => Part::Ka,
        _ if block < keys => Part::Da,
        _ if block == keys => Part::KeyFlush,
        _ if block < deletions => Part::KeySet,
        _ if block == deletions => Part::DeletionFlush,
        _ => Part::DeletionSet,
    }
}

impl Seen {
    /// A call at S = 16: the order of its operations, how many there are of each part, and the marks that they leave.
    fn call(&mut self, volume: &mut Volume, call: impl FnOnce(&mut Volume) -> u32) {
        let (state, mut spare) = (volume.state, volume.spare.clone());
        if call(volume) != 0 {
            assert!(volume.spare == spare);
            self.refused += 1;
            return;
        }
        let geometry = Geometry::of_state(state).expect("allowed");
        let deletes = volume.state.deletions > state.deletions;
        let inserts = volume.state.records > state.records;
        let list = operations(geometry, state, deletes, inserts);

        assert!(
            list.is_sorted_by_key(|operation| part_of(geometry, operation)),
            "{list:?}"
        );
        let sectors = |part: Part| -> Vec<usize> {
            let of_part = list
                .iter()
                .filter(|&operation| part_of(geometry, operation) == part);
            of_part.filter_map(sector_of).collect()
        };
        let blocks = |part: Part| -> Vec<usize> {
            let of_part = list
                .iter()
                .filter(|&operation| part_of(geometry, operation) == part);
            of_part.filter_map(block_of).collect()
        };
        let (n, d) = (volume.state.records as usize, volume.state.deletions as usize);
        let page = |first_block: usize, page: usize| -> Vec<usize> {
            (0..4).map(|i| 64 * first_block + 4 * page + i).collect()
        };
        let due = |fills: bool, sectors: Vec<usize>| if fills { sectors } else { Vec::new() };
        let da = deletes && d.is_multiple_of(16);
        let ra = inserts && n.is_multiple_of(4);
        let ka = inserts && n.is_multiple_of(8);
        let page_before = |items: usize, per_page: usize| (items / per_page).saturating_sub(1);
        assert_eq!(
            sectors(Part::Da),
            due(da, page(geometry.da_first_block(), page_before(d, 16)))
        );
        assert_eq!(sectors(Part::Ra), due(ra, page(0, page_before(n, 4))));
        assert_eq!(
            sectors(Part::Ka),
            due(ka, page(geometry.ka_first_block(), page_before(n, 8)))
        );

        // Eight filters are a flush: those of 4 DA pages of 16, and of 8 KA pages of 8.
        let indexes = [
            (
                geometry.deletion_index(),
                deletes,
                d,
                [Part::DeletionFlush, Part::DeletionSet, Part::DeletionErases],
            ),
            (
                geometry.key_index(),
                inserts,
                n,
                [Part::KeyFlush, Part::KeySet, Part::KeyErases],
            ),
        ];
        let (mut flushed, mut built) = ([false; 2], [false; 2]);
        for (i, (index, appends, items, [flush, set, erases])) in indexes.into_iter().enumerate() {
            let l1 = index.l1_block();
            flushed[i] = appends && items.is_multiple_of(64);
            built[i] = appends && items.is_multiple_of(1024);
            let t = (items / 64 + 15) % 16;
            let slices = (0..4).map(|i| 64 * l1 + 4 * (4 * i + t / 4) + t % 4).collect();
            assert_eq!(sectors(flush), due(flushed[i], slices));

            // Sets 2 to 5 of a cycle, "an even i goes to side A, an odd one to side B"; 5 is full.
            let (number, cycle) = ((items / 1024 + 3) % 4 + 2, (items / 1024).saturating_sub(1) / 4);
            let side = |number: usize| l1 + 1 + [0, 4][number % 2];
            let first = if number == 5 {
                l1 + 9 + 4 * cycle
            } else {
                side(number)
            };
            let pages = (64 * first..64 * first + 4 * set_page_count(number)).collect();
            assert_eq!(sectors(set), due(built[i], pages));
            // L1, and what is on the sides before the call.
            let on_sides = (l1 + 1..l1 + 9).filter(|&block| spare[64 * block..64 * block + 64].contains(&0));
            let freed = [l1].into_iter().chain(on_sides).collect();
            assert_eq!(blocks(erases), due(built[i], freed));
            self.flushes[i] += usize::from(flushed[i]);
            self.sets[i] += usize::from(built[i]);
        }
        self.both_flushes += usize::from(flushed == [true; 2]);
        self.both_sets += usize::from(built == [true; 2]);

        let mut erased = Vec::new();
        for operation in list {
            match operation {
                Operation::Program { sector } => {
                    assert!(spare[sector] == 0xFF && !erased.contains(&(sector / 64)));
                    spare[sector] = 0;
                }
                Operation::Erase { block } => {
                    spare[64 * block..64 * block + 64].fill(0xFF);
                    erased.push(block);
                }
            }
        }
        assert!(volume.spare == spare, "{state:?}");
    }
}
