//! Histories from a format against document 01's map: answers, record bytes and state.
//! Beside it, the discipline of the chip: no sector is programmed twice between erases,
//! and none ahead of an earlier sector of its page.

use model::{delete, format, insert, lookup, update, Geometry, State};
use std::collections::HashMap;

struct Random(u64);

impl Random {
    fn below(&mut self, bound: u32) -> u32 {
        self.0 ^= self.0 << 13;
        self.0 ^= self.0 >> 7;
        self.0 ^= self.0 << 17;
        ((self.0 >> 32) % u64::from(bound)) as u32
    }
}

fn record_bytes(numbers: [u32; 4]) -> Vec<u8> {
    numbers.iter().flat_map(|n| n.to_le_bytes()).collect()
}

/// Programmed sectors of each page form a prefix of the page.
fn pages_fill_in_order(spare: &[u8]) -> bool {
    spare
        .chunks_exact(4)
        .all(|page| page.windows(2).all(|pair| !(pair[0] == 0xFF && pair[1] == 0)))
}

fn run([s, r, d]: [u32; 3], k: u32, keys: u32, calls: u32, seed: u64) {
    let geometry = Geometry::new(s, r, d, k).expect("allowed");
    let mut random = Random(seed);
    let mut data = vec![0x5A; geometry.data_bytes()];
    let mut spare = vec![0x5A; geometry.spare_bytes()];
    let mut ram = vec![0x5A; geometry.ram_bytes()];
    let start = format(State::default(), s, r, d, k, &mut data, &mut spare, &mut ram);
    assert_eq!(start.refusal, 0);
    let mut state = start.state;

    let mut map: HashMap<u32, [u32; 4]> = HashMap::new();
    let (mut n, mut deletions) = (0, 0);
    for _ in 0..calls {
        let key = random.below(keys);
        let (moves, goal, word) = (random.below(1000), random.below(1000), random.below(1000));
        let full = n == geometry.record_capacity();
        let deletions_full = deletions == geometry.deletion_capacity();
        let present = map.contains_key(&key);
        let (got, expected) = match random.below(10) {
            0..=4 => {
                let got = insert(state, key, moves, goal, word, &mut data, &mut spare, &mut ram);
                let expected = if present {
                    3
                } else if full {
                    5
                } else {
                    map.insert(key, [key, moves, goal, word]);
                    n += 1;
                    0
                };
                (got, expected)
            }
            5 | 6 => {
                let got = update(state, key, moves, goal, word, &mut data, &mut spare, &mut ram);
                // Request 4: "setting a key, present or absent".
                let expected = if full {
                    5
                } else if present && deletions_full {
                    6
                } else {
                    map.insert(key, [key, moves, goal, word]);
                    n += 1;
                    deletions += usize::from(present);
                    0
                };
                (got, expected)
            }
            7 => {
                let got = delete(state, key, &mut data, &mut spare, &mut ram);
                let expected = if !present {
                    4
                } else if deletions_full {
                    6
                } else {
                    map.remove(&key);
                    deletions += 1;
                    0
                };
                (got, expected)
            }
            _ => {
                let got = lookup(state, key, &data, &spare, &ram);
                assert_eq!(got.refusal, 0);
                assert!(got.count as usize <= n / geometry.entries_per_page());
                // Each record of the key is tested once, by all pages at most.
                assert!(got.deletion_count as usize <= n * (deletions / geometry.deletions_per_page()));
                assert_eq!(got.found == 1, present);
                if let Some(&record) = map.get(&key) {
                    let from = if got.in_ram == 1 { &ram } else { &data };
                    let offset = got.offset as usize;
                    assert_eq!(from[offset..offset + 16], record_bytes(record));
                }
                continue;
            }
        };
        assert_eq!(got.refusal, expected);
        state = got.state;
        let expected_state = State {
            sector_size: s,
            ra_blocks: r,
            da_blocks: d,
            hash_count: k,
            records: n as u32,
            deletions: deletions as u32,
        };
        assert_eq!(state, expected_state);
        assert_eq!(n - deletions, map.len());
        assert!(pages_fill_in_order(&spare));
    }
}

#[test]
fn histories_agree_with_the_map() {
    run([16, 1, 1], 3, 40, 1000, 1);
    run([16, 6, 1], 3, 200, 3000, 2);
    run([16, 20, 2], 3, 1500, 4000, 3);
    run([16, 80, 20], 3, 5000, 12000, 4);
    run([32, 3, 1], 3, 300, 2000, 5);
    run([64, 2, 1], 3, 400, 2000, 6);
    run([128, 1, 1], 3, 400, 1500, 7);
    run([256, 1, 1], 3, 800, 2000, 8);
}

/// Few keys, so that most changes delete: sets over deletions, a full one too.
#[test]
fn histories_with_many_deletions_agree() {
    run([16, 40, 30], 3, 60, 5000, 12);
    run([16, 90, 20], 4, 60, 14_000, 13);
    run([32, 20, 10], 3, 60, 5000, 14);
}

#[test]
fn histories_agree_for_every_hash_count() {
    for k in 1..=8 {
        run([16, 6, 1], k, 200, 2000, 9);
        run([16, 20, 2], k, 1500, 3000, 10);
        run([64, 2, 1], k, 400, 1500, 11);
    }
}
