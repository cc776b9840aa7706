//! Mixes of calls: keys for them, and one call after the other.

use crate::cuts;
use crate::pair::Difference;
use crate::random::Random;
use crate::scenarios::Test;
use crate::tabs::{self, Row};
use store::{Answer, Call};

/// Keys that a hasty reader of bytes gets wrong.
const SPECIAL_KEYS: [u32; 8] = [0, 1, 255, 256, 65536, 0x7FFF_FFFF, 0x8000_0000, 0xFFFF_FFFF];

/// Keys for the calls: any below a bound, and those inserted so far.
pub(crate) struct Keys {
    pub bound: u32,
    inserted: Vec<u32>,
}

impl Keys {
    pub fn below(bound: u32) -> Keys {
        Keys {
            bound,
            inserted: Vec::new(),
        }
    }

    fn any(&self, random: &mut Random) -> u32 {
        if random.chance(1, 40) {
            random.pick(&SPECIAL_KEYS)
        } else {
            random.below_u32(self.bound)
        }
    }

    /// Mostly one that was inserted.
    fn likely(&self, random: &mut Random) -> u32 {
        if self.inserted.is_empty() || random.chance(1, 5) {
            self.any(random)
        } else {
            random.pick(&self.inserted)
        }
    }

    fn note(&mut self, call: Call, answer: Answer) {
        if let (Call::Insert { key, .. } | Call::Update { key, .. }, true) = (call, answer.accepted()) {
            self.inserted.push(key);
        }
    }

    fn note_rows(&mut self, rows: &[Row], answer: Answer) {
        if let Answer::Load(result) = answer {
            let loaded = rows.iter().take(result.rows as usize);
            self.inserted.extend(loaded.map(|[level, ..]| level));
        }
    }
}

/// How many of 20 calls are inserts, updates and deletes; the rest are lookups.
#[derive(Clone, Copy)]
pub(crate) struct Mix {
    inserts: usize,
    updates: usize,
    deletes: usize,
}

pub(crate) const MANY_INSERTS: Mix = Mix {
    inserts: 12,
    updates: 3,
    deletes: 2,
};
pub(crate) const MANY_UPDATES: Mix = Mix {
    inserts: 5,
    updates: 11,
    deletes: 1,
};
pub(crate) const MOSTLY_UPDATES: Mix = Mix {
    inserts: 1,
    updates: 15,
    deletes: 2,
};
pub(crate) const MANY_DELETES: Mix = Mix {
    inserts: 9,
    updates: 1,
    deletes: 8,
};

pub(crate) fn insert_of(random: &mut Random, key: u32) -> Call<'static> {
    Call::Insert {
        key,
        moves: random.next_u32(),
        goal: random.next_u32(),
        word: random.next_u32(),
    }
}

pub(crate) fn update_of(random: &mut Random, key: u32) -> Call<'static> {
    Call::Update {
        key,
        moves: random.next_u32(),
        goal: random.next_u32(),
        word: random.next_u32(),
    }
}

/// A call of the mix, now and then cut and restarted; now and then a load.
pub(crate) fn call_some(test: &mut Test, mix: Mix, keys: &mut Keys) -> Result<Answer, Difference> {
    if test.random.chance(1, 50) {
        let count = test.random.below(10);
        let levels: Vec<u32> = (0..count).map(|_| keys.any(&mut test.random)).collect();
        return load_levels(test, &levels, keys);
    }
    let call = some_call(&mut test.random, mix, keys);
    let answer = cuts::call(test, call)?;
    keys.note(call, answer);
    Ok(answer)
}

/// A tab with a row for each of these levels, now and then with a wrong byte.
pub(crate) fn load_levels(test: &mut Test, levels: &[u32], keys: &mut Keys) -> Result<Answer, Difference> {
    let random = &mut test.random;
    let rows: Vec<Row> = levels
        .iter()
        .map(|&level| [level, random.next_u32(), random.next_u32()])
        .collect();
    let mut tab = tabs::with_rows(random, &rows);
    if random.chance(1, 4) {
        tabs::spoil(random, &mut tab);
    }
    let answer = test.pair.call(Call::Load { tab: &tab })?;
    keys.note_rows(&rows, answer);
    Ok(answer)
}

fn some_call(random: &mut Random, mix: Mix, keys: &Keys) -> Call<'static> {
    let choice = random.below(20);
    if choice < mix.inserts {
        let key = if random.chance(1, 12) {
            keys.likely(random)
        } else {
            keys.any(random)
        };
        insert_of(random, key)
    } else {
        let key = keys.likely(random);
        if choice < mix.inserts + mix.updates {
            update_of(random, key)
        } else if choice < mix.inserts + mix.updates + mix.deletes {
            Call::Delete { key }
        } else {
            Call::Lookup { key }
        }
    }
}

/// Any of the calls, with this key.
pub(crate) fn call_any(test: &mut Test, key: u32, keys: &mut Keys) -> Result<Answer, Difference> {
    let random = &mut test.random;
    let call = match random.below(6) {
        0 => insert_of(random, key),
        1 => update_of(random, key),
        2 => Call::Delete { key },
        3 => {
            let levels = [keys.any(random), key, keys.any(random)];
            return load_levels(test, &levels, keys);
        }
        _ => Call::Lookup { key },
    };
    let answer = cuts::call(test, call)?;
    keys.note(call, answer);
    Ok(answer)
}
