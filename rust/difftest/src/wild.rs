//! Any numbers for states and formats, and slices of any length.

use crate::cuts;
use crate::mixes::{call_some, Keys, MANY_INSERTS};
use crate::pair::Difference;
use crate::random::Random;
use crate::scenarios::{clear_intent, geometry, hash_count, Scenario, Test};
use store::{Call, Geometry, State, HASH_COUNT_01, SECTOR_SIZES};

/// All of them.
pub fn all() -> Vec<Scenario> {
    let mut list = Vec::new();
    let mut add = |scenario: Scenario| list.push(scenario);
    add(Scenario::new("wild-states".into(), false, wild_states));
    for s in SECTOR_SIZES {
        add(Scenario::new(format!("lengths-{s}"), false, move |test| {
            lengths(test, s)
        }));
    }
    list
}

const WILD_NUMBERS: [u32; 16] = [
    0,
    1,
    2,
    15,
    16,
    17,
    32,
    64,
    512,
    513,
    4096,
    4097,
    0x0080_0000,
    0x0100_0000,
    0x8000_0000,
    0xFFFF_FFFF,
];

pub(crate) fn wild_number(random: &mut Random) -> u32 {
    match random.below(3) {
        0 => random.next_u32(),
        _ => random.pick(&WILD_NUMBERS),
    }
}

fn wild_sector_size(random: &mut Random) -> u32 {
    match random.below(3) {
        0 => wild_number(random),
        _ => random.pick(&SECTOR_SIZES),
    }
}

fn wild_blocks(random: &mut Random) -> u32 {
    match random.below(4) {
        0 => wild_number(random),
        1 => random.pick(&[4095, 4096, 4097]),
        _ => 1 + random.below_u32(8),
    }
}

pub(crate) fn wild_hash_count(random: &mut Random) -> u32 {
    match random.below(6) {
        0 => wild_number(random),
        1 => random.pick(&[0, 9, 256 + HASH_COUNT_01]),
        _ => hash_count(random),
    }
}

/// Any numbers, with those at the edges of what is allowed more often.
pub(crate) fn wild_state(random: &mut Random) -> State {
    let sector_size = wild_sector_size(random);
    let ra_blocks = wild_blocks(random);
    let da_blocks = wild_blocks(random);
    let hash_count = wild_hash_count(random);
    let (mut records, mut deletions) = (wild_number(random), wild_number(random));
    if let Some(geometry) = Geometry::new(sector_size, ra_blocks, da_blocks, HASH_COUNT_01) {
        let near = |random: &mut Random, capacity: usize| match random.below(4) {
            0 => wild_number(random),
            1 => (capacity as u32 + 1).saturating_sub(random.below_u32(4)),
            _ => random.below_u32(capacity as u32 + 1),
        };
        records = near(random, geometry.record_capacity());
        deletions = match random.below(3) {
            0 => records.wrapping_add(random.below_u32(3)).wrapping_sub(1),
            1 => near(random, geometry.deletion_capacity()),
            _ => random.below_u32(records.saturating_add(1)),
        };
    }
    State::of_numbers([sector_size, ra_blocks, da_blocks, hash_count, records, deletions])
}

/// Any states and any numbers for a format, on bytes that serve small volumes.
fn wild_states(test: &mut Test) -> Result<(), Difference> {
    for _ in 0..60 {
        let random = &mut test.random;
        let lengths = match random.below(5) {
            0 => [0, 0, 0],
            1 => [random.below(3), random.below(3), random.below(3)],
            2 => [random.below(70_000), random.below(6_000), random.below(2_000)],
            _ => [65_536, 4_096, 1_280],
        };
        let shift = random.below(16);
        test.pair.lend(lengths, shift);
        test.pair.fill(|data, spare, ram| {
            random.fill(data);
            spare.fill(0xFF);
            random.fill(ram);
            clear_intent(ram);
        });
        for _ in 0..120 {
            let random = &mut test.random;
            if random.chance(3, 4) {
                test.pair.state = wild_state(random);
            }
            if random.chance(1, 6) {
                let call = Call::Format {
                    sector_size: wild_sector_size(random),
                    ra_blocks: wild_blocks(random),
                    da_blocks: wild_blocks(random),
                    hash_count: wild_hash_count(random),
                };
                cuts::call(test, call)?;
            } else if random.chance(1, 6) {
                let state = wild_state(random);
                cuts::restart_of(test, state)?;
            } else {
                let bound = random.pick(&[20, 5000, u32::MAX]);
                call_some(test, MANY_INSERTS, &mut Keys::below(bound))?;
            }
        }
    }
    Ok(())
}

/// Slices of lengths around those needed, each call on them.
fn lengths(test: &mut Test, s: u32) -> Result<(), Difference> {
    for _ in 0..24 {
        let random = &mut test.random;
        let (r, d) = match random.below(2) {
            0 => (1, 1),
            _ => (1 + random.below_u32(3), 1 + random.below_u32(2)),
        };
        let geometry = geometry(s, r, d);
        let needed = [
            geometry.data_bytes(),
            geometry.spare_bytes(),
            geometry.ram_bytes(),
        ];
        let lengths = needed.map(|needed| match random.below(9) {
            0 => needed - 1,
            1 => needed + 1,
            2 => needed + random.below(100),
            3 => needed - 1 - random.below(100),
            4 if random.chance(1, 3) => random.below(needed),
            _ => needed,
        });
        let shift = random.below(16);
        test.pair.lend(lengths, shift);
        test.pair.fill(|data, spare, ram| {
            random.fill(data);
            random.fill(spare);
            random.fill(ram);
        });
        let hash_count = hash_count(random);
        let start = State {
            sector_size: s,
            ra_blocks: r,
            da_blocks: d,
            hash_count,
            records: 0,
            deletions: 0,
        };
        test.pair.state = wild_state(&mut test.random);
        let format = Call::Format {
            sector_size: s,
            ra_blocks: r,
            da_blocks: d,
            hash_count,
        };
        cuts::call(test, format)?;
        // On slices too short for a format the others are refused as well.
        test.pair.state = start;
        let mut keys = Keys::below(s);
        for _ in 0..40 {
            call_some(test, MANY_INSERTS, &mut keys)?;
            if test.random.chance(1, 8) {
                let state = test.pair.state;
                cuts::restart_of(test, state)?;
                test.pair.state = state;
            }
        }
    }
    Ok(())
}
