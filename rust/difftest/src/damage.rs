//! Histories with bytes and states altered between the calls.

use crate::cuts;
use crate::mixes::{call_any, call_some, Keys, MANY_INSERTS};
use crate::pair::{Difference, Pair};
use crate::random::Random;
use crate::scenarios::{format_lent, geometry, Scenario, Test};
use crate::wild::{wild_hash_count, wild_number, wild_state};
use store::{Geometry, State};

/// All of them.
pub fn all() -> Vec<Scenario> {
    let mut list = Vec::new();
    let mut add = |scenario: Scenario| list.push(scenario);
    for (s, r, d, calls) in [
        (16, 3, 1, 4000),
        (16, 20, 5, 6000),
        (16, 70, 2, 8000),
        (32, 2, 1, 4000),
        (32, 40, 2, 8000),
        (64, 2, 1, 4000),
        (128, 1, 1, 3000),
        (256, 1, 1, 2000),
        (512, 1, 1, 1000),
    ] {
        add(Scenario::new(format!("damaged-{s}-{r}"), false, move |test| {
            damaged(test, s, r, d, calls)
        }));
    }
    list
}

/// A history with bytes and states altered between the calls.
fn damaged(test: &mut Test, s: u32, r: u32, d: u32, calls: usize) -> Result<(), Difference> {
    let geometry = geometry(s, r, d);
    // With few levels there are many deletions.
    let mut keys = Keys::below(match test.random.below(2) {
        0 => geometry.record_capacity().min(calls) as u32,
        _ => 3 * s,
    });
    let (extra, shift) = (test.random.below(3), test.random.below(16));
    test.pair.lend_for(geometry, extra, shift);
    format_lent(test, s, r, d)?;
    // No damage at first, so that there is something to damage.
    let quiet = calls / 4;
    for number in 0..calls {
        test.damaged = (number > quiet).then_some(geometry);
        let mut damaged_key = None;
        if number > quiet && test.random.chance(1, 6) {
            damaged_key = damage(test, geometry);
        }
        if number > quiet && test.random.chance(1, 400) {
            format_lent(test, s, r, d)?;
        }
        let handed_in = test.pair.state;
        if number > quiet && test.random.chance(1, 12) {
            test.pair.state = altered_state(&mut test.random, geometry, handed_in);
        }
        let answer = match damaged_key {
            Some(key) if test.random.chance(3, 4) => call_any(test, key, &mut keys)?,
            _ => call_some(test, MANY_INSERTS, &mut keys)?,
        };
        // An altered state is kept if it goes on, and now and then if it does not.
        if !answer.accepted() && test.random.chance(9, 10) {
            test.pair.state = handed_in;
        }
        // So is an altered kind.
        if answer.refusal() == PENDING && test.random.chance(3, 4) {
            cuts::finish(test)?;
        }
    }
    Ok(())
}

const PENDING: u32 = 10;

/// Marks on both sides of the border: with five ones a mark is fresh, with four it is programmed.
pub(crate) const SPARE_BYTES: [u8; 10] = [0x00, 0x0F, 0xAA, 0xC6, 0xF0, 0x1F, 0xF8, 0x7F, 0xFE, 0xFF];

/// A fresh mark with up to three wrong bits.
pub(crate) fn worn_byte(random: &mut Random) -> u8 {
    (0..random.below(4)).fold(0xFF, |mark, _| mark & !(1 << random.below(8)))
}

/// Alters one byte or number where the next calls read. If it belongs to an entry, gives the entry's key.
pub(crate) fn damage(test: &mut Test, geometry: Geometry) -> Option<u32> {
    let random = &mut test.random;
    let pair = &mut test.pair;
    let page = geometry.page_size();
    let records = (pair.state.records as usize).min(geometry.record_capacity());
    let deletions = (pair.state.deletions as usize).min(geometry.deletion_capacity());
    let index = random.pick(&[geometry.key_index(), geometry.deletion_index()]);
    let index_start = index.l1_block() * 64 * geometry.sector_size();

    // A record, its entry and the entry's key.
    let newest = random.chance(1, 2);
    let record = match newest {
        true => records.saturating_sub(1 + random.below(2 * geometry.entries_per_page())),
        false => random.below(records),
    };
    let in_ram = record >= records - records % geometry.entries_per_page();
    let entry = match in_ram {
        true => page + record % geometry.entries_per_page() * 8,
        false => geometry.page_start(geometry.ka_page(0)) + record * 8,
    };
    let key = if in_ram {
        pair.ram_number(entry)
    } else {
        pair.data_number(entry)
    };
    let write_entry = |pair: &mut Pair, offset: usize, number: u32| match in_ram {
        true => pair.write_ram(entry + offset, &number.to_le_bytes()),
        false => pair.write_data(entry + offset, &number.to_le_bytes()),
    };

    let byte = match random.below(4) {
        0 => 0x00,
        1 => 0xFF,
        _ => random.next_byte(),
    };
    match random.below(15) {
        // The entry's record number: n or more, or another record.
        0 => {
            let number = match random.below(3) {
                0 => random.next_u32(),
                _ => records as u32 + random.below_u32(2),
            };
            write_entry(pair, 4, number);
            return key;
        }
        1 => {
            write_entry(pair, 4, random.below_u32(records as u32 + 1));
            return key;
        }
        // The entry's key.
        2 => {
            let number = random.below_u32(records as u32 + 1);
            write_entry(pair, 0, number);
            return Some(number);
        }
        // A deletion of the record, or a deletion undone, on flash or in RAM.
        3 | 4 => {
            let page_starts = geometry.page_start(geometry.da_page(0));
            let deletion = random.below(deletions + 2);
            let number = if random.chance(2, 3) {
                record as u32
            } else {
                random.next_u32()
            };
            if random.chance(1, 2) {
                let place = deletion.min(geometry.deletion_capacity() - 1);
                pair.write_data(page_starts + place * 4, &number.to_le_bytes());
            } else {
                let place = deletion % geometry.deletions_per_page();
                pair.write_ram(2 * page + place * 4, &number.to_le_bytes());
            }
            return key;
        }
        // Filter bits in RAM, in L1 and in the sets, of either index.
        5 => pair.write_ram(geometry.ram_start(index.ska_page()) + random.below(page), &[byte]),
        6 => pair.write_data(index_start + random.below(16 * page), &[byte]),
        7 => {
            let rest = geometry.data_bytes() - index_start;
            pair.write_data(index_start + random.below(rest), &[byte]);
        }
        // A mark of the volume, or near the next record page.
        8 => pair.write_spare(random.below(geometry.spare_bytes()), &[random.pick(&SPARE_BYTES)]),
        9 => {
            let sector = records / geometry.records_per_page() * 4 + random.below(8);
            pair.write_spare(sector, &[random.pick(&SPARE_BYTES)]);
        }
        // All marks of the next record page, worn but fresh.
        10 => {
            let sector = records / geometry.records_per_page() * 4;
            pair.write_spare(sector, &std::array::from_fn::<u8, 4, _>(|_| worn_byte(random)));
        }
        // A mark of the next page of deletions, or of the next flush of its filters.
        11 => {
            let next = deletions / geometry.deletions_per_page();
            let sector = match random.below(2) {
                0 => 4 * geometry.da_page(next) + random.below(4),
                _ => index.l1_sector(next / 4 % 16, random.below(4)),
            };
            pair.write_spare(sector, &[random.pick(&SPARE_BYTES)]);
        }
        // A number of the header: of the state by one or by much, of the pending call.
        12 => {
            let number = match random.below(3) {
                0 => records as u32 + random.below_u32(3),
                1 => (deletions as u32 + 1).saturating_sub(random.below_u32(3)),
                _ => wild_number(random),
            };
            pair.write_header(random.below(16), number);
        }
        13 => pair.write_header(6, random.below_u32(6)),
        // Any byte.
        _ => {
            let [data_len, _, ram_len] = pair.lengths();
            pair.write_data(random.below(data_len), &[byte]);
            pair.write_ram(random.below(ram_len), &[byte]);
        }
    }
    None
}

/// A state with some of its numbers altered.
fn altered_state(random: &mut Random, geometry: Geometry, state: State) -> State {
    let mut altered = state;
    let capacity = geometry.record_capacity() as u32;
    let deletion_capacity = geometry.deletion_capacity() as u32;
    match random.below(9) {
        0 => altered.records = random.below_u32(capacity + 2),
        1 => altered.deletions = random.below_u32(deletion_capacity + 2),
        2 => altered.records = altered.records.wrapping_add(1),
        3 => altered.deletions = altered.deletions.wrapping_add(1),
        4 => altered.records = capacity - random.below_u32(3).min(capacity),
        5 => altered.deletions = altered.records,
        6 => {
            altered.records = random.below_u32(capacity + 1);
            altered.deletions = random.below_u32(altered.records.min(deletion_capacity) + 1);
        }
        7 => altered.hash_count = wild_hash_count(random),
        _ => altered = wild_state(random),
    }
    altered
}
