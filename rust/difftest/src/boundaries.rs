//! Random bytes and a state shortly before a page, a flush, a set or a full set is due.

use crate::cuts;
use crate::damage::{worn_byte, SPARE_BYTES};
use crate::mixes::{
    call_some, insert_of, load_levels, update_of, Keys, MANY_DELETES, MANY_INSERTS, MANY_UPDATES,
};
use crate::pair::Difference;
use crate::random::Random;
use crate::scenarios::{clear_intent, geometry, hash_count, Scenario, Test};
use store::{Geometry, State};

/// All of them.
pub fn all() -> Vec<Scenario> {
    let mut list = Vec::new();
    let mut add = |scenario: Scenario| list.push(scenario);
    for (s, r, d, times, long) in [
        (16, 140, 2, 150, false),
        (16, 140, 34, 150, false),
        (32, 260, 2, 60, false),
        (32, 264, 66, 30, false),
        (64, 300, 70, 15, false),
        (128, 64, 16, 15, false),
        (64, 260, 1, 40, false),
        (128, 64, 1, 30, false),
        (128, 520, 1, 15, false),
        (256, 64, 1, 15, false),
        (256, 1024, 1, 5, false),
        (512, 80, 1, 8, false),
        (512, 2048, 1, 1, false),
        (512, 2048, 3, 20, true),
        (512, 4096, 2, 8, true),
        (256, 1040, 260, 5, true),
        (512, 2048, 512, 4, true),
    ] {
        add(Scenario::new(
            format!("boundaries-{s}-{r}-{d}"),
            long,
            move |test| boundaries(test, s, r, d, times),
        ));
    }
    list
}

/// Random bytes of a likely shape, a state shortly before something is due, and a few calls.
fn boundaries(test: &mut Test, s: u32, r: u32, d: u32, times: usize) -> Result<(), Difference> {
    let geometry = geometry(s, r, d);
    let (extra, shift) = (test.random.below(9), test.random.below(16));
    test.pair.lend_for(geometry, extra, shift);
    for _ in 0..times {
        let mut keys = Keys::below(test.random.pick(&[4, 200, 5000, 1 << 20]));
        let state = due_state(&mut test.random, geometry, s, r, d);
        let random = &mut test.random;
        test.pair.fill(|data, spare, ram| {
            fill_likely(random, geometry, state, keys.bound, data, spare, ram);
        });
        test.pair.state = state;
        for _ in 0..10 {
            let random = &mut test.random;
            match random.below(5) {
                0 | 1 => {
                    let key = absent_key(random);
                    let call = match random.below(2) {
                        0 => insert_of(random, key),
                        _ => update_of(random, key),
                    };
                    cuts::call(test, call)?;
                }
                2 => {
                    let levels = [(); 6].map(|()| absent_key(random));
                    let count = random.below(levels.len() + 1);
                    load_levels(test, &levels[..count], &mut keys)?;
                }
                _ => {
                    let mix = random.pick(&[MANY_INSERTS, MANY_UPDATES, MANY_DELETES]);
                    call_some(test, mix, &mut keys)?;
                }
            }
        }
    }
    Ok(())
}

/// A key above the others is not there and can be inserted.
fn absent_key(random: &mut Random) -> u32 {
    0x4000_0000 + random.below_u32(1 << 30)
}

/// n up to three below a multiple of a page, a flush, a round or a cycle; d up to two below one of its own, or anything.
fn due_state(random: &mut Random, geometry: Geometry, s: u32, r: u32, d: u32) -> State {
    let capacity = geometry.record_capacity();
    let entries = geometry.entries_per_page();
    let steps = [geometry.records_per_page(), entries, 8 * entries];
    let step = match random.below(8) {
        0..=2 => random.pick(&steps),
        3 => geometry.filters_per_cycle() * entries,
        _ => 128 * entries,
    };
    let due = step * (1 + random.below((capacity / step).max(1)));
    let records = due.min(capacity) - 1 - random.below(3);
    let most = geometry.deletion_capacity().min(records);
    // A page, a flush, a round or a cycle of the deletions' filters: two a page.
    let page = geometry.deletions_per_page();
    let filters = [2, 8, 128, geometry.filters_per_cycle()];
    let deletions = match random.below(5) {
        0 => random.below(most.min(20) + 1),
        1 => random.below(most + 1),
        _ => {
            let step = random.pick(&filters) / 2 * page;
            (step * (1 + random.below(most / step + 1)) - 1 - random.below(2)).min(most)
        }
    };
    State {
        sector_size: s,
        ra_blocks: r,
        da_blocks: d,
        hash_count: hash_count(random),
        records: records as u32,
        deletions: deletions as u32,
    }
}

/// Entries with keys below `keys` and record numbers mostly below n, deletions of such numbers,
/// filter bits of some density, spare bytes mostly fresh, no pending call.
fn fill_likely(
    random: &mut Random,
    geometry: Geometry,
    state: State,
    keys: u32,
    data: &mut [u8],
    spare: &mut [u8],
    ram: &mut [u8],
) {
    let page = geometry.page_size();
    random.fill(data);
    random.fill(ram);
    clear_intent(ram);
    let wrong_numbers = random.chance(1, 4);
    let ka = geometry.page_start(geometry.ka_page(0));
    let da = geometry.page_start(geometry.da_page(0));
    let index = geometry.key_index().l1_block() * 64 * geometry.sector_size();
    fill_entries(random, state.records, keys, wrong_numbers, &mut data[ka..da]);
    fill_entries(
        random,
        state.records,
        keys,
        wrong_numbers,
        &mut ram[page..2 * page],
    );
    fill_numbers(random, state.records, &mut data[da..index]);
    fill_numbers(random, state.records, &mut ram[2 * page..3 * page]);

    // The second index has a density of its own.
    let densities = [random.below(6), random.below(6)];
    let second = geometry.deletion_index().l1_block() * 64 * geometry.sector_size() - index;
    let (keys_on_flash, deletions_on_flash) = data[index..].split_at_mut(second);
    let (keys_in_ram, deletions_in_ram) = ram[3 * page..].split_at_mut(2 * page);
    for (bits, density) in [
        (keys_on_flash, densities[0]),
        (&mut keys_in_ram[..page], densities[0]),
        (deletions_on_flash, densities[1]),
        (&mut deletions_in_ram[..page], densities[1]),
    ] {
        match density {
            0 => bits.fill(0x00),
            1 => bits.fill(0xFF),
            2 => bits.iter_mut().for_each(|byte| *byte |= byte.rotate_left(3)),
            3 => bits.iter_mut().for_each(|byte| *byte &= byte.rotate_left(3)),
            _ => {}
        }
    }

    spare.fill(0xFF);
    match random.below(12) {
        0 => random.fill(spare),
        1 => spare.fill(0x00),
        2 => {
            for _ in 0..1 + random.below(50) {
                let sector = random.below(spare.len());
                spare[sector] = random.pick(&SPARE_BYTES);
            }
        }
        3..=5 => spare.iter_mut().for_each(|mark| *mark = worn_byte(random)),
        _ => {}
    }
}

fn fill_entries(random: &mut Random, records: u32, keys: u32, wrong_numbers: bool, bytes: &mut [u8]) {
    for entry in bytes.chunks_exact_mut(8) {
        let key = random.below_u32(keys);
        let number = if wrong_numbers && random.chance(1, 10) {
            random.next_u32()
        } else {
            random.below_u32(records)
        };
        entry[..4].copy_from_slice(&key.to_le_bytes());
        entry[4..].copy_from_slice(&number.to_le_bytes());
    }
}

fn fill_numbers(random: &mut Random, records: u32, bytes: &mut [u8]) {
    for number in bytes.chunks_exact_mut(4) {
        number.copy_from_slice(&random.below_u32(records).to_le_bytes());
    }
}
