//! Request 8: the header, what each budget leaves, what counts as done, and restarts.

use model::{
    delete_cut, format_cut, insert, insert_cut, lookup, operations, restart, restart_cut, update_cut,
    CutResult, Geometry, Operation, State, HEADER_BYTES,
};

#[derive(Clone, PartialEq, Debug)]
struct Volume {
    state: State,
    data: Vec<u8>,
    spare: Vec<u8>,
    ram: Vec<u8>,
}

#[derive(Clone, Copy, Debug)]
enum Call {
    Insert(u32),
    Update(u32),
    Delete(u32),
    Format([u32; 4]),
    Restart,
}

/// More than any call has steps.
const ENOUGH: u64 = u64::MAX;

impl Volume {
    /// S = 16, k = 3, with this many RAM bytes more than are needed.
    fn new(r: u32, d: u32, more: usize) -> Volume {
        let geometry = Geometry::new(16, r, d, 3).expect("allowed");
        let mut volume = Volume {
            state: State::default(),
            data: vec![0x5A; geometry.data_bytes()],
            spare: vec![0x5A; geometry.spare_bytes()],
            ram: vec![0x5A; geometry.ram_bytes() + more],
        };
        assert_eq!(volume.call(ENOUGH, Call::Format([16, r, d, 3])).finished, 1);
        volume
    }

    fn with_records(r: u32, d: u32, count: u32) -> Volume {
        let mut volume = Volume::new(r, d, 0);
        for key in 0..count {
            assert_eq!(volume.call(ENOUGH, Call::Insert(key)).finished, 1);
        }
        volume
    }

    /// The new state is handed in from here on.
    fn call(&mut self, budget: u64, call: Call) -> CutResult {
        let state = self.state;
        let (data, spare, ram) = (&mut self.data, &mut self.spare, &mut self.ram);
        let result = match call {
            Call::Insert(key) => insert_cut(budget, state, key, key + 1, 2, 3, data, spare, ram),
            Call::Update(key) => update_cut(budget, state, key, key + 4, 5, 6, data, spare, ram),
            Call::Delete(key) => delete_cut(budget, state, key, data, spare, ram),
            Call::Format([s, r, d, k]) => format_cut(budget, state, s, r, d, k, data, spare, ram),
            Call::Restart => restart_cut(budget, state, data, spare, ram),
        };
        self.state = result.state;
        result
    }

    /// The sixteen numbers of the header.
    fn header(&self) -> Vec<u32> {
        self.ram[self.ram.len() - HEADER_BYTES..]
            .chunks_exact(4)
            .map(|number| u32::from_le_bytes([number[0], number[1], number[2], number[3]]))
            .collect()
    }

    fn set_header(&mut self, i: usize, number: u32) {
        let start = self.ram.len() - HEADER_BYTES + 4 * i;
        self.ram[start..start + 4].copy_from_slice(&number.to_le_bytes());
    }
}

fn cut(steps: u64, state: State) -> CutResult {
    CutResult {
        refusal: 0,
        finished: 0,
        steps,
        state,
    }
}

fn finished(steps: u64, state: State) -> CutResult {
    CutResult {
        finished: 1,
        ..cut(steps, state)
    }
}

fn refused(refusal: u32, state: State) -> CutResult {
    CutResult {
        refusal,
        ..cut(0, state)
    }
}

fn state(sizes: [u32; 4], records: u32, deletions: u32) -> State {
    State {
        sector_size: sizes[0],
        ra_blocks: sizes[1],
        da_blocks: sizes[2],
        hash_count: sizes[3],
        records,
        deletions,
    }
}

/// "S, R, D, k, n, d, then the pending call: kind and arguments, 4 bytes each, zeros after", in the last 64 bytes, wherever they are.
#[test]
fn header_of_an_intent() {
    for more in [0, 1, 200] {
        let mut volume = Volume::new(1, 2, more);
        assert_eq!(volume.header(), [16, 1, 2, 3, 0, 0, 0, 0, 0, 0, 0, 0, 0, 0, 0, 0]);
        volume.call(ENOUGH, Call::Insert(7));
        assert_eq!(volume.header(), [16, 1, 2, 3, 1, 0, 0, 0, 0, 0, 0, 0, 0, 0, 0, 0]);
        for (call, intent) in [
            (Call::Insert(0x01020304), [1, 0x01020304, 0x01020305, 2, 3]),
            (Call::Update(7), [2, 7, 11, 5, 6]),
            (Call::Update(9), [2, 9, 13, 5, 6]),
            (Call::Delete(7), [3, 7, 0, 0, 0]),
            (Call::Format([16, 1, 1, 8]), [4, 16, 1, 1, 8]),
        ] {
            let mut cut = volume.clone();
            cut.set_header(11, 5);
            cut.call(1, call);
            let state = [16, 1, 2, 3, 1, 0];
            assert_eq!(
                cut.header(),
                [state.as_slice(), &intent, &[0; 5]].concat(),
                "{call:?}"
            );
            // Nothing else changed, and bytes behind the pages are kept by the whole call too.
            assert_eq!(cut.data, volume.data);
            assert_eq!(cut.spare, volume.spare);
            assert_eq!(cut.ram[..384 + more], volume.ram[..384 + more]);
            assert_eq!(cut.call(ENOUGH, Call::Restart).finished, 1);
            assert_eq!(cut.ram[384..384 + more], vec![0x5A; more]);
        }
    }
}

/// "The state handed over" is stored by the intent, not the header's; a format leaves the six numbers as they are.
#[test]
fn state_of_an_intent() {
    let mut volume = Volume::with_records(1, 1, 5);
    for i in 0..6 {
        volume.set_header(i, 77);
    }
    let mut formatted = volume.clone();
    formatted.call(1, Call::Format([32, 2, 3, 4]));
    assert_eq!(formatted.header()[..6], [77; 6]);
    volume.call(1, Call::Insert(9));
    assert_eq!(volume.header()[..6], [16, 1, 1, 3, 5, 0]);
}

/// The fourth insert: intent, four sectors, finished RAM.
#[test]
fn what_each_budget_leaves() {
    let before = Volume::with_records(1, 1, 3);
    let mut whole = before.clone();
    assert_eq!(
        whole.call(ENOUGH, Call::Insert(3)),
        finished(6, state([16, 1, 1, 3], 4, 0))
    );
    for budget in 0..8 {
        let mut volume = before.clone();
        let result = volume.call(budget, Call::Insert(3));
        if budget >= 6 {
            assert_eq!(result, finished(6, whole.state));
            assert_eq!(volume, whole);
            continue;
        }
        assert_eq!(result, cut(budget, before.state));
        let sectors = (budget as usize).saturating_sub(1);
        assert_eq!(volume.data[..16 * sectors], whole.data[..16 * sectors]);
        assert_eq!(volume.data[16 * sectors..], before.data[16 * sectors..]);
        assert_eq!(volume.spare[..sectors], vec![0; sectors]);
        assert_eq!(volume.spare[sectors..], before.spare[sectors..]);
        // The RAM's pages are as they were, up to the last step.
        assert_eq!(volume.ram[..384], before.ram[..384]);
        assert_eq!(volume.header()[6], u32::from(budget > 0));
    }
    // So with `insert` itself.
    let mut volume = before.clone();
    let change = insert(
        volume.state,
        3,
        4,
        2,
        3,
        &mut volume.data,
        &mut volume.spare,
        &mut volume.ram,
    );
    assert_eq!((change.refusal, change.state), (0, whole.state));
    assert_eq!((volume.data, volume.ram), (whole.data, whole.ram));
}

/// "The desk, cells, marks and state in the end equal those of the call uncut", for every cut, and every cut of the restart.
fn every_cut(before: &Volume, call: Call, steps: u64) {
    let mut whole = before.clone();
    assert_eq!(whole.call(ENOUGH, call), finished(steps, whole.state), "{call:?}");
    for budget in 1..steps {
        let mut volume = before.clone();
        assert_eq!(volume.call(budget, call), cut(budget, before.state));
        // "Goes by the header's" state.
        volume.state = State::default();
        for again in 0..=steps {
            let mut volume = volume.clone();
            let result = volume.call(again, Call::Restart);
            assert_eq!(result.refusal, 0);
            if result.finished == 0 {
                assert_eq!(result, cut(again, State::default()));
                assert_eq!(volume.call(ENOUGH, Call::Restart).state, whole.state);
            }
            assert_eq!(volume, whole, "{call:?} cut after {budget}, again after {again}");
            if result.finished == 1 {
                break;
            }
        }
    }
}

#[test]
fn restarts_of_small_calls() {
    let volume = Volume::with_records(1, 1, 15);
    every_cut(&volume, Call::Insert(15), 10);
    every_cut(&volume, Call::Update(15), 10);
    every_cut(&volume, Call::Update(3), 10);
    every_cut(&volume, Call::Delete(3), 2);
    every_cut(&volume, Call::Format([16, 1, 1, 5]), 23);
    let mut volume = volume;
    for key in 0..15 {
        volume.call(ENOUGH, Call::Delete(key));
    }
    volume.call(ENOUGH, Call::Insert(99));
    every_cut(&volume, Call::Delete(99), 6);
    every_cut(&volume, Call::Update(99), 6);
}

/// A format of any bytes can be cut and restarted: its own intent is all that a restart goes by.
#[test]
fn restart_of_a_first_format() {
    let geometry = Geometry::new(16, 1, 1, 3).expect("allowed");
    let volume = Volume {
        state: State::default(),
        data: vec![0xA7; geometry.data_bytes() + 3],
        spare: vec![0xA7; geometry.spare_bytes() + 3],
        ram: vec![0xA7; geometry.ram_bytes() + 3],
    };
    every_cut(&volume, Call::Format([16, 1, 1, 2]), 23);
}

/// One update before set 3 over entries and set 2 over deletions.
fn before_both_sets() -> Volume {
    let mut volume = Volume::with_records(33, 4, 1024);
    for key in 0..1023 {
        assert_eq!(volume.call(ENOUGH, Call::Update(key)).finished, 1);
    }
    assert_eq!((volume.state.records, volume.state.deletions), (2047, 1023));
    volume
}

/// Of that update: the intent; a page of deletions, a flush, set 2 and its erase, 73; two pages, a flush, set 3 and two erases, 142; the
/// finished RAM.
const BOTH_SETS: u64 = 217;

#[test]
fn restarts_of_sets() {
    let before = before_both_sets();
    let mut whole = before.clone();
    assert_eq!(
        whole.call(ENOUGH, Call::Update(1023)),
        finished(BOTH_SETS, state([16, 33, 4, 3], 2048, 1024))
    );
    for budget in 1..BOTH_SETS {
        let mut volume = before.clone();
        volume.call(budget, Call::Update(1023));
        for again in [0, 1, 5, 70] {
            volume.call(again, Call::Restart);
        }
        assert_eq!(volume.call(ENOUGH, Call::Restart).refusal, 0);
        assert_eq!(volume, whole, "cut after {budget}");
    }
}

/// "All up to the last programmed sector of the call's list count as done": behind the erase of the deletions' L1, its sectors of
/// this call are fresh again, so that the first fresh one is not where to go on.
#[test]
fn erased_sectors_count_as_done() {
    let before = before_both_sets();
    let geometry = Geometry::of_state(before.state).expect("allowed");
    let list = operations(geometry, before.state, true, true);
    assert_eq!(list.len() as u64, BOTH_SETS - 2);
    // Behind 4 sectors of deletions, 4 of L1, 64 of set 2 and the erase.
    let erase = 72;
    assert_eq!(
        list[erase],
        Operation::Erase {
            block: geometry.deletion_index().l1_block()
        }
    );
    // Cut behind the erase: it is later than the last programmed sector, so it is done again. A sector more: it is not.
    for (operations, left) in [(erase + 1, 144), (erase + 2, 142), (erase + 3, 141)] {
        let mut volume = before.clone();
        volume.call(1 + operations as u64, Call::Update(1023));
        let l1 = geometry.deletion_index().l1_sector(15, 0);
        assert_eq!(volume.spare[l1], 0xFF);
        let done = volume.clone();
        assert_eq!(
            volume.call(left - 1, Call::Restart),
            cut(left - 1, before.state),
            "{operations}"
        );
        let mut volume = done;
        assert_eq!(volume.call(left, Call::Restart).finished, 1, "{operations}");
        assert_eq!(volume.spare[l1], 0xFF);
    }
}

/// "A mark is now fresh if five or more of its eight bits are one": the same decides what is programmed. The fourth insert cut behind its
/// second sector, then the spare byte of the third altered.
#[test]
fn five_of_eight_bits_decide() {
    for spare_byte in 0..=255u8 {
        let mut volume = Volume::with_records(1, 1, 3);
        volume.call(3, Call::Insert(3));
        volume.spare[2] = spare_byte;
        let fresh = spare_byte.count_ones() >= 5;
        let result = volume.call(ENOUGH, Call::Restart);
        assert_eq!(result.steps, if fresh { 3 } else { 2 }, "{spare_byte:02x}");
        // What counts as done is not repeated, even if it was never done.
        let third = if fresh { [2, 0, 0, 0] } else { [0xFF; 4] };
        assert_eq!(volume.data[32..36], third, "{spare_byte:02x}");
        assert_eq!(volume.spare[2], if fresh { 0 } else { spare_byte });
        assert_eq!(volume.data[48..52], [3, 0, 0, 0]);
    }
}

/// Spare bytes before the last programmed sector do not matter, and neither do sectors that are not of the list.
#[test]
fn only_the_last_programmed_sector_counts() {
    for (sector, left) in [(0, 4), (1, 3), (2, 2), (3, 1), (4, 5), (63, 5)] {
        let mut volume = Volume::with_records(1, 1, 3);
        volume.call(1, Call::Insert(3));
        volume.spare[sector] = 0;
        assert_eq!(volume.call(ENOUGH, Call::Restart).steps, left, "sector {sector}");
    }
}

/// "10, a call other than format and restart while the kind is not 0, tested straight after 2."
#[test]
fn pending() {
    let mut volume = Volume::with_records(1, 1, 5);
    volume.call(1, Call::Insert(7));
    let calls = [
        Call::Insert(7),
        Call::Insert(1),
        Call::Update(1),
        Call::Delete(1),
        Call::Delete(8),
    ];
    for kind in [1, 4, 5, u32::MAX] {
        volume.set_header(6, kind);
        let before = volume.clone();
        for call in calls {
            assert_eq!(volume.call(ENOUGH, call), refused(10, before.state), "{call:?}");
            assert_eq!(volume, before);
        }
        let result = lookup(volume.state, 1, &volume.data, &volume.spare, &volume.ram);
        assert_eq!((result.refusal, result.found), (10, 0));
        // 1 and 2 come first.
        let mut short = volume.clone();
        short.spare.truncate(64);
        assert_eq!(short.call(ENOUGH, Call::Insert(7)).refusal, 2);
        short.state.hash_count = 0;
        assert_eq!(short.call(ENOUGH, Call::Insert(7)).refusal, 1);
    }
    // A format goes on.
    assert_eq!(volume.call(ENOUGH, Call::Format([16, 1, 1, 3])).finished, 1);
    assert_eq!(volume.header()[6], 0);
}

/// "Restart refuses as the pending call would, 7 and 10 aside; with none, by 1 and 2; an unknown kind by 1; a desk under 64 bytes by 2
/// first." The state comes back as handed in.
#[test]
fn refusals_of_a_restart() {
    let handed_in = state([1, 2, 3, 4], 5, 6);
    let mut volume = Volume::with_records(1, 1, 5);
    volume.state = handed_in;
    let restarted = |change: &dyn Fn(&mut Volume)| {
        let mut volume = volume.clone();
        change(&mut volume);
        volume.call(ENOUGH, Call::Restart)
    };
    assert_eq!(
        restarted(&|_| ()),
        finished(0, state([16, 1, 1, 3], 5, 0)),
        "nothing is pending"
    );
    let refusal = |expected: u32, change: &dyn Fn(&mut Volume)| {
        assert_eq!(restarted(change), refused(expected, handed_in));
    };
    refusal(1, &|volume| volume.set_header(0, 24));
    refusal(1, &|volume| volume.set_header(5, 6));
    refusal(2, &|volume| volume.data.truncate(100));
    refusal(2, &|volume| volume.spare.truncate(100));
    refusal(2, &|volume| volume.set_header(0, 32));
    refusal(2, &|volume| volume.ram.truncate(63));
    refusal(2, &|volume| volume.ram.clear());
    // An unknown kind, whatever else is wrong.
    refusal(1, &|volume| volume.set_header(6, 5));
    refusal(1, &|volume| {
        volume.set_header(6, 5);
        volume.ram.drain(..300);
        volume.data.clear();
    });
    // Levels 0 to 4 are live.
    let pending = |volume: &mut Volume, kind: u32, key: u32| {
        volume.set_header(6, kind);
        volume.set_header(7, key);
    };
    refusal(3, &|volume| pending(volume, 1, 4));
    refusal(4, &|volume| pending(volume, 3, 5));
    refusal(8, &|volume| {
        pending(volume, 2, 4);
        // The entry of level 4 and its record number.
        volume.ram[64 + 4 * 8 + 4] = 5;
    });
    refusal(5, &|volume| {
        pending(volume, 2, 99);
        volume.set_header(4, 64);
    });
    // A format by its arguments: what the header says of the volume is nothing to it.
    let format = |volume: &mut Volume, sizes: [u32; 4]| {
        volume.set_header(6, 4);
        volume.set_header(0, 24);
        for (i, number) in sizes.into_iter().enumerate() {
            volume.set_header(7 + i, number);
        }
    };
    refusal(1, &|volume| format(volume, [16, 1, 1, 9]));
    refusal(2, &|volume| format(volume, [32, 1, 1, 3]));
    let sizes = [16, 1, 1, 4];
    assert_eq!(
        restarted(&|volume| format(volume, sizes)),
        finished(22, state(sizes, 0, 0))
    );
    // 7 aside: a programmed sector counts as done.
    let result = restarted(&|volume| {
        pending(volume, 1, 99);
        volume.set_header(4, 3);
        volume.spare[0] = 0;
    });
    assert_eq!(result.refusal, 0);
    // With `restart` itself.
    let change = restart(handed_in, &mut volume.data, &mut volume.spare, &mut volume.ram);
    assert_eq!((change.refusal, change.state.records), (0, 5));
}

/// "Without one, zeros": a second restart finds nothing, with any budget.
#[test]
fn nothing_is_left_to_restart() {
    let mut volume = Volume::with_records(1, 1, 3);
    volume.call(3, Call::Insert(3));
    assert_eq!(volume.call(ENOUGH, Call::Restart).steps, 3);
    let before = volume.clone();
    for budget in [0, 1, ENOUGH] {
        volume.state = State::default();
        assert_eq!(volume.call(budget, Call::Restart), finished(0, before.state));
        assert_eq!(volume, before);
    }
}
