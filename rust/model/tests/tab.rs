//! Tabs by the RFC's grammar, and loads: the rows that a tab gives, and the calls that a load is.

use model::{
    format, insert, load, read_tab, update, Change, Geometry, LoadResult, Reading, Row, State, HASH_COUNT_01,
};

const HEADER: &str = "level,moves,goal\n";

fn whole(rows: &[Row]) -> Reading {
    Reading {
        rows: rows.to_vec(),
        whole: true,
    }
}

fn cut(rows: &[Row]) -> Reading {
    Reading {
        rows: rows.to_vec(),
        whole: false,
    }
}

#[test]
fn tabs_that_are_read_whole() {
    let rows = [[7, 40, 1], [8, 41, 2]];
    for tab in [
        "level,moves,goal\n7,40,1\n8,41,2\n",
        "level,moves,goal\n7,40,1\n8,41,2",
        "level,moves,goal\r\n7,40,1\n8,41,2\r\n",
        "\"level\",moves,\"goal\"\r\n\"7\",0040,\"1\"\r\n8,41,2",
        "\"level\",\"moves\",\"goal\"\n\"7\",\"40\",\"1\"\n\"8\",\"041\",\"00002\"\n",
    ] {
        assert_eq!(read_tab(tab.as_bytes()), whole(&rows), "{tab:?}");
    }
    for tab in [
        "level,moves,goal",
        "level,moves,goal\n",
        "level,moves,\"goal\"\r\n",
    ] {
        assert_eq!(read_tab(tab.as_bytes()), whole(&[]), "{tab:?}");
    }
    assert_eq!(read_tab(b""), whole(&[]));
    let largest = format!("{HEADER}4294967295,0004294967295,\"4294967295\"");
    assert_eq!(read_tab(largest.as_bytes()), whole(&[[u32::MAX; 3]]));
    let zeros = format!("{HEADER}{}7,0,00\n", "0".repeat(10_000));
    assert_eq!(read_tab(zeros.as_bytes()), whole(&[[7, 0, 0]]));
}

/// The differential test has all forms (`difftest/src/loads.rs`).
#[test]
fn tabs_that_are_malformed() {
    for tab in [
        "\n",
        "\r\n",
        "\r",
        " ",
        "1,2,3\n",
        "Level,moves,goal\n",
        "level,moves\n",
        "level,moves,goal\r",
    ] {
        assert_eq!(read_tab(tab.as_bytes()), cut(&[]), "{tab:?}");
    }
    for row in [
        "\n",
        "1,2\n",
        "1,2,\n",
        "1,2,3,4\n",
        "1,2, 3\n",
        "1,2,4294967296",
        "1,2,3\r",
    ] {
        let tab = format!("{HEADER}7,40,1\n{row}");
        assert_eq!(read_tab(tab.as_bytes()), cut(&[[7, 40, 1]]), "{tab:?}");
    }
    // Fields by the RFC, but not of digits alone; and no fields by the RFC.
    for row in [
        "1,2,\"3\"\"4\"",
        "1,2,\"3\n\"",
        "1,2,\"3,4\"",
        "1,2,\"3",
        "1,2,3\"",
        "1,2,\"3\"4",
    ] {
        let tab = format!("{HEADER}7,40,1\n{row}\n8,41,2\n");
        assert_eq!(read_tab(tab.as_bytes()), cut(&[[7, 40, 1]]), "{tab:?}");
    }
}

/// State and bytes of a small volume.
#[derive(Clone, Debug, PartialEq)]
struct Volume {
    state: State,
    data: Vec<u8>,
    spare: Vec<u8>,
    ram: Vec<u8>,
}

impl Volume {
    fn formatted(r: u32) -> Volume {
        let geometry = Geometry::new(16, r, 1, HASH_COUNT_01).expect("allowed");
        let mut data = vec![0x5A; geometry.data_bytes()];
        let mut spare = vec![0x5A; geometry.spare_bytes()];
        let mut ram = vec![0x5A; geometry.ram_bytes()];
        let change = format(
            State::default(),
            16,
            r,
            1,
            HASH_COUNT_01,
            &mut data,
            &mut spare,
            &mut ram,
        );
        assert_eq!(change.refusal, 0);
        Volume {
            state: change.state,
            data,
            spare,
            ram,
        }
    }

    /// The number of rows and the refusal.
    fn load(&mut self, tab: &str) -> (u32, u32) {
        let Volume {
            state,
            data,
            spare,
            ram,
        } = self;
        let LoadResult {
            refusal,
            rows,
            state: next,
        } = load(*state, tab.as_bytes(), data, spare, ram);
        *state = next;
        (rows, refusal)
    }

    fn take(&mut self, change: Change) {
        assert_eq!(change.refusal, 0);
        self.state = change.state;
    }

    fn insert(&mut self, [key, moves, goal]: Row) {
        let change = insert(
            self.state,
            key,
            moves,
            goal,
            0,
            &mut self.data,
            &mut self.spare,
            &mut self.ram,
        );
        self.take(change);
    }

    fn update(&mut self, [key, moves, goal]: Row) {
        let change = update(
            self.state,
            key,
            moves,
            goal,
            0,
            &mut self.data,
            &mut self.spare,
            &mut self.ram,
        );
        self.take(change);
    }
}

fn tab_of(rows: impl IntoIterator<Item = Row>) -> String {
    let lines = rows
        .into_iter()
        .map(|[level, moves, goal]| format!("{level},{moves},{goal}\n"));
    HEADER.to_string() + &lines.collect::<String>()
}

#[test]
fn a_load_is_its_calls() {
    let mut loaded = Volume::formatted(5);
    let mut called = loaded.clone();
    let rows = (0..60).map(|i| [i % 40, 100 + i, i]);
    assert_eq!(loaded.load(&tab_of(rows.clone())), (60, 0));
    for (i, row) in rows.enumerate() {
        if i < 40 {
            called.insert(row);
        } else {
            called.update(row);
        }
    }
    assert_eq!((called.state.records, called.state.deletions), (60, 20));
    assert!(loaded == called);
}

#[test]
fn rows_before_the_end_remain() {
    let mut loaded = Volume::formatted(1);
    let mut called = loaded.clone();
    assert_eq!(
        loaded.load(&format!("{HEADER}7,1,2\n8,3,4\n8,,\n9,5,6\n")),
        (2, 9)
    );
    called.insert([7, 1, 2]);
    called.insert([8, 3, 4]);
    assert!(loaded == called);
    // No row, no byte.
    assert_eq!(loaded.load(HEADER), (0, 0));
    assert_eq!(loaded.load(""), (0, 0));
    assert_eq!(loaded.load("\n"), (0, 9));
    assert!(loaded == called);
}

#[test]
fn refusals_of_rows() {
    let mut full = Volume::formatted(1);
    assert_eq!(full.load(&tab_of((0..70).map(|i| [i, 0, 0]))), (64, 5));
    // Malformed comes first.
    assert_eq!(full.load(&format!("{HEADER}1,2\n")), (0, 9));

    // The eighth row fills the second page of records, whose first sector is not fresh.
    let mut spoiled = Volume::formatted(1);
    spoiled.spare[4] = 0;
    assert_eq!(spoiled.load(&tab_of((0..9).map(|i| [i, 0, 0]))), (7, 7));

    let mut corrupt = Volume::formatted(1);
    corrupt.insert([7, 0, 0]);
    corrupt.ram[64 + 4] = 9;
    assert_eq!(
        corrupt.load(&tab_of([[1, 0, 0], [2, 0, 0], [7, 0, 0], [3, 0, 0]])),
        (2, 8)
    );

    let mut worn = Volume::formatted(5);
    assert_eq!(worn.load(&tab_of((0..300).map(|i| [7, i, 0]))), (257, 6));
    assert_eq!((worn.state.records, worn.state.deletions), (257, 256));
    assert_eq!(worn.load(&tab_of([[8, 0, 0], [7, 0, 0]])), (1, 6));
}

#[test]
fn state_and_lengths_come_first() {
    let mut volume = Volume::formatted(1);
    volume.ram.pop();
    assert_eq!(volume.load("no header"), (0, 2));
    assert_eq!(volume.load(""), (0, 2));
    volume.state.sector_size = 24;
    assert_eq!(volume.load("no header"), (0, 1));
    assert_eq!(volume.load(""), (0, 1));
}

/// The demonstration's tab: 40 levels, one of them twice.
#[test]
fn the_demonstration() {
    let path = concat!(env!("CARGO_MANIFEST_DIR"), "/../../demo/levels.csv");
    let tab = std::fs::read_to_string(path).expect("the demonstration's tab");
    let mut volume = Volume::formatted(1);
    assert_eq!(volume.load(&tab), (41, 0));
    assert_eq!((volume.state.records, volume.state.deletions), (41, 1));
}
