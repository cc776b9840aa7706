//! The store for speed against the model.

use difftest::pair::{Difference, Pair};
use difftest::random::Random;
use difftest::{loads, scenarios};
use store::{Call, FastStore, Geometry, ModelStore, State, HASH_COUNT_01, HEADER_BYTES};

/// The scenarios but those whose volumes take long to compare; the next test has their sets.
#[test]
fn scenarios_agree() {
    let slow = [
        "-256-1",
        "-512-1",
        "-512-2048",
        "lengths-256",
        "lengths-512",
        "full-sets-32",
    ];
    for scenario in scenarios::all().into_iter().chain([loads::strings(100_000)]) {
        if scenario.long || scenario.once || slow.iter().any(|part| scenario.name.contains(part)) {
            continue;
        }
        if let Err(difference) = scenario.run(&ModelStore, &FastStore, 0) {
            panic!("{}: {difference}", scenario.name);
        }
    }
}

/// Sets of every S and of both indexes before and after each doubling of their pages, full ones too, out of random bits.
#[test]
fn sets_of_every_width() {
    for sector_size in store::SECTOR_SIZES {
        let last = sector_size / 4 + 1;
        let doublings = (1..8).map(|k| 1 << k).flat_map(|power| [power, power + 1]);
        let numbers = doublings.map(|rounds| rounds + 1).filter(|&number| number < last);
        for number in [2].into_iter().chain(numbers).chain([last]) {
            // A fraction of a second each, bit by bit in the model.
            if sector_size == 512 && (33..66).contains(&number) {
                continue;
            }
            if let Err(difference) = set(sector_size, number) {
                panic!("S = {sector_size}, set {number}: {difference}");
            }
        }
    }
}

/// The update that builds the set of both indexes, and lookups of every k before and after it: the bits are random.
fn set(sector_size: u32, number: u32) -> Result<(), Difference> {
    let (ra_blocks, da_blocks) = (16 * (number - 1), 4 * (number - 1));
    let geometry = Geometry::new(sector_size, ra_blocks, da_blocks, HASH_COUNT_01).expect("allowed");
    let mut random = Random::new(u64::from(sector_size + number));
    let mut pair = Pair::new(&ModelStore, &FastStore);
    pair.lend_for(geometry, 3, 5);
    pair.fill(|data, spare, ram| {
        random.fill(data);
        random.fill(ram);
        spare.fill(0xFF);
        // No pending call.
        let header = ram.len() - HEADER_BYTES;
        ram[header..].fill(0);
    });
    let due = 64 * sector_size * (number - 1);
    pair.state = State {
        sector_size,
        ra_blocks,
        da_blocks,
        hash_count: HASH_COUNT_01,
        records: due - 2,
        deletions: due - 2,
    };
    let key = random.next_u32();
    let [moves, goal, word] = [1, 2, 3];
    let insert = Call::Insert {
        key,
        moves,
        goal,
        word,
    };
    assert!(pair.call(insert)?.accepted());
    // Random numbers are hardly this one, so that the record is live.
    pair.state.deletions += 1;
    lookups(&mut pair, &mut random, key)?;
    let update = Call::Update {
        key,
        moves,
        goal,
        word,
    };
    assert!(pair.call(update)?.accepted());
    assert_eq!((pair.state.records, pair.state.deletions), (due, due));
    lookups(&mut pair, &mut random, key)
}

/// Of this key, whose record is tested by the deletions' filters, and of another one.
fn lookups(pair: &mut Pair, random: &mut Random, key: u32) -> Result<(), Difference> {
    let state = pair.state;
    for hash_count in 1..=8 {
        pair.state.hash_count = hash_count;
        pair.call(Call::Lookup { key })?;
        pair.call(Call::Lookup {
            key: random.next_u32(),
        })?;
    }
    pair.state = state;
    Ok(())
}
