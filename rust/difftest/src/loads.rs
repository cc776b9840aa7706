//! Scenarios of load: tabs of every form, and rows that the store refuses.

use crate::pair::Difference;
use crate::scenarios::{format, geometry, Scenario, Test};
use crate::tabs::{self, Row};
use store::{Answer, Call};

const MALFORMED: u32 = 9;
const HEADER: &str = "level,moves,goal\n";

/// All of them. Each but the last takes less than a second, the last a few seconds.
pub fn all() -> Vec<Scenario> {
    type Run = fn(&mut Test) -> Result<(), Difference>;
    let runs: [(&str, Run); 12] = [
        ("tab-prefixes", prefixes),
        ("tab-prefixes-known", known_prefixes),
        ("tab-malformed", malformed),
        ("tab-no-bytes", no_bytes),
        ("tab-zeros", leading_zeros),
        ("tab-twice", level_twice),
        ("tab-full", records_full),
        ("tab-deletions-full", deletions_full),
        ("tab-not-fresh", not_fresh),
        ("tab-wrong-number", wrong_record_number),
        ("tab-order", state_and_lengths_first),
        ("tab-sets", sets),
    ];
    let mut list: Vec<Scenario> = runs
        .into_iter()
        .map(|(name, run)| Scenario::new(name.into(), false, run))
        .collect();
    list.push(strings(1_000_000).once());
    list
}

/// So many strings that may be a tab.
pub fn strings(count: usize) -> Scenario {
    Scenario::new("tab-strings".into(), false, move |test| {
        format(test, 16, 1, 1)?;
        let mut tab = Vec::new();
        for _ in 0..count {
            if test.pair.state.records > 32 {
                format(test, 16, 1, 1)?;
            }
            let len = tabs::any(&mut test.random, &mut tab);
            test.pair.call(Call::Load { tab: &tab[..len] })?;
        }
        Ok(())
    })
}

/// The load on both sides, which must end as said.
pub(crate) fn load(test: &mut Test, tab: &[u8], rows: u32, refusal: u32) -> Result<(), Difference> {
    let handed_in = test.pair.state;
    let call = Call::Load { tab };
    match test.pair.call(call)? {
        Answer::Load(result) if (result.rows, result.refusal) == (rows, refusal) => Ok(()),
        other => {
            let what = format!("expected {rows} rows and refusal {refusal}\n  got      {other:?}");
            Err(test.pair.difference(call, handed_in, what))
        }
    }
}

pub(crate) fn tab_of(rows: impl IntoIterator<Item = Row>) -> Vec<u8> {
    let mut tab = HEADER.to_string();
    for [level, moves, goal] in rows {
        tab += &format!("{level},{moves},{goal}\n");
    }
    tab.into_bytes()
}

/// Levels 0, 1, 2 and so on.
fn levels(count: u32) -> Vec<u8> {
    tab_of((0..count).map(|level| [level, 40, 100 * level]))
}

/// A good tab cut off at every byte, each part on a fresh volume. The bytes behind it are the rest of the tab.
fn prefixes(test: &mut Test) -> Result<(), Difference> {
    let mut rows: Vec<Row> = (0..30)
        .map(|i| [i % 23, test.random.next_u32(), 100 * i])
        .collect();
    rows.push([u32::MAX; 3]);
    let tab = tabs::with_rows(&mut test.random, &rows);
    for len in 0..=tab.len() {
        format(test, 16, 1, 1)?;
        test.pair.call(Call::Load { tab: &tab[..len] })?;
    }
    Ok(())
}

/// The same with a tab whose answers are known: each line has its fields, the length from which on they are
/// whole, and its ending.
fn known_prefixes(test: &mut Test) -> Result<(), Difference> {
    let lines = [
        ("\"level\",moves,\"goal\"", 20, "\r\n"),
        ("7,\"40\",300", 8, "\n"),
        ("\"0008\",25,\"0\"", 13, "\r\n"),
        ("7,41,4294967295", 6, ""),
    ];
    let tab = lines
        .map(|(fields, _, ending)| [fields, ending].concat())
        .concat();
    let mut start = 0;
    for (number, (fields, whole, ending)) in lines.into_iter().enumerate() {
        let end = fields.len() + ending.len();
        for len in 1..=end {
            let is_whole = (whole..=fields.len()).contains(&len) || len == end;
            let (lines, refusal) = if is_whole {
                (number + 1, 0)
            } else {
                (number, MALFORMED)
            };
            let rows = lines.saturating_sub(1) as u32;
            format(test, 16, 1, 1)?;
            load(test, &tab.as_bytes()[..start + len], rows, refusal)?;
        }
        start += end;
    }
    Ok(())
}

/// One row with each fault, behind a good one and before another; and headers with a fault.
fn malformed(test: &mut Test) -> Result<(), Difference> {
    format(test, 16, 1, 1)?;
    for line in [
        "",
        "\r",
        " ",
        "1",
        "1,2",
        "1,2,",
        "1,,3",
        ",2,3",
        ",,",
        "1,2,3,4",
        "1,2,3,",
        "1, 2,3",
        "1,2,3 ",
        "+1,2,3",
        "-1,2,3",
        "1.0,2,3",
        "0x1,2,3",
        "1,2,4294967296",
        "1,2,18446744073709551617",
        "1,2,3\r\r",
        "1,2,3\r4,5,6",
        "1,2,\"3",
        "1,2,3\"",
        "1,2,\"",
        "1,2,\"\"",
        "1,2,\"\"3",
        "1,2,\"3\"\"",
        "1,2,\"3\"4",
        "1,2,\"3\" ",
        "1,2, \"3\"",
        "1,2,\"3\"\"4\"",
        "1,2,\" 3\"",
        "1,2,\"3\n\"",
        "1,2,\"3,4\"",
        "\"1,2,3\"",
        "level,moves,goal",
        "1,2,\u{b3}",
        "1;2;3",
        "1,2,/",
        "1,2,:",
        "1\0,2,3",
    ] {
        let tab = format!("{HEADER}7,40,1\n{line}\n8,41,2\n");
        format(test, 16, 1, 1)?;
        load(test, tab.as_bytes(), 1, MALFORMED)?;
        load(test, format!("{HEADER}{line}\n").as_bytes(), 0, MALFORMED)?;
    }
    for header in [
        "\n",
        "\r\n",
        "\r",
        " ",
        "1,2,3",
        "Level,moves,goal",
        "\u{feff}level,moves,goal",
        " level,moves,goal",
        "level, moves,goal",
        "level;moves;goal",
        "level,moves",
        "level,moves,goa",
        "level,moves,goals",
        "level,moves,goal,",
        "level,moves,goal,note",
        "level,moves,goal\r\r",
        "\"level,moves,goal\"",
        "level,moves,\"goal",
        "level,moves,goal\"",
        "level,moves,\"go\"\"al\"",
        "goal,moves,level",
    ] {
        load(test, header.as_bytes(), 0, MALFORMED)?;
        load(test, format!("{header}\n7,40,1\n").as_bytes(), 0, MALFORMED)?;
    }
    Ok(())
}

/// A tab of no bytes has no row, on a new volume, on one with a row and on a full one.
fn no_bytes(test: &mut Test) -> Result<(), Difference> {
    format(test, 16, 1, 1)?;
    load(test, b"", 0, 0)?;
    load(test, format!("{HEADER}7,40,1\n").as_bytes(), 1, 0)?;
    load(test, b"", 0, 0)?;
    let rows: String = (0..63).map(|level| format!("1{level},1,1\n")).collect();
    load(test, format!("{HEADER}{rows}").as_bytes(), 63, 0)?;
    load(test, b"", 0, 0)?;
    load(test, b"\n", 0, MALFORMED)
}

/// Ten thousand zeros before each number, in quotes and without; and before one that is too large.
fn leading_zeros(test: &mut Test) -> Result<(), Difference> {
    let zeros = "0".repeat(10_000);
    for number in ["0", "7", "4294967295"] {
        format(test, 16, 1, 1)?;
        let plain = format!("{zeros}{number}");
        let quoted = format!("\"{plain}\"");
        load(
            test,
            format!("{HEADER}{plain},{quoted},{plain}\r\n").as_bytes(),
            1,
            0,
        )?;
        load(
            test,
            format!("{HEADER}{quoted},{plain},{quoted}").as_bytes(),
            1,
            0,
        )?;
    }
    format(test, 16, 1, 1)?;
    for row in [
        format!("1,2,{zeros}4294967296"),
        format!("1,2,\"{zeros}\"0"),
        format!("1,{zeros} 1,2"),
    ] {
        load(test, format!("{HEADER}0,0,0\n{row}\n").as_bytes(), 1, MALFORMED)?;
    }
    Ok(())
}

/// The second row of a level is an update, in the same load and in the next.
fn level_twice(test: &mut Test) -> Result<(), Difference> {
    format(test, 16, 1, 1)?;
    load(
        test,
        &tab_of([[7, 40, 1], [8, 41, 2], [7, 42, 3], [7, 42, 3]]),
        4,
        0,
    )?;
    assert_counts(test, 4, 2);
    load(test, &tab_of([[8, 1, 1], [9, 1, 1]]), 2, 0)?;
    assert_counts(test, 6, 3);
    test.pair.call(Call::Delete { key: 7 })?;
    load(test, &tab_of([[7, 1, 1], [7, 1, 1]]), 2, 0)?;
    assert_counts(test, 8, 5);
    for key in [7, 8, 9, 10] {
        test.pair.call(Call::Lookup { key })?;
    }
    Ok(())
}

/// Both stores agree on the state by now.
fn assert_counts(test: &Test, records: u32, deletions: u32) {
    let state = test.pair.state;
    assert_eq!((state.records, state.deletions), (records, deletions));
}

/// Of 70 rows the 65th is refused by 5, also if its level is live; malformed comes before.
fn records_full(test: &mut Test) -> Result<(), Difference> {
    format(test, 16, 1, 1)?;
    load(test, &levels(70), 64, 5)?;
    load(test, &levels(70), 0, 5)?;
    load(test, &tab_of([]), 0, 0)?;
    load(test, format!("{HEADER}0,0\n").as_bytes(), 0, MALFORMED)?;
    format(test, 16, 1, 1)?;
    load(test, &levels(64), 64, 0)
}

/// 256 updates fit; the next row of a live level is refused by 6, a new level is not.
fn deletions_full(test: &mut Test) -> Result<(), Difference> {
    format(test, 16, 5, 1)?;
    load(test, &tab_of((0..300).map(|moves| [7, moves, 0])), 257, 6)?;
    assert_counts(test, 257, 256);
    load(test, &tab_of([[8, 0, 0], [7, 0, 0], [9, 0, 0]]), 1, 6)?;
    load(test, &levels(7), 7, 0)
}

/// A spoiled mark in the middle: of the page that record 11 fills, of KA's second page, of DA's first.
fn not_fresh(test: &mut Test) -> Result<(), Difference> {
    for sector in 8..12 {
        format(test, 16, 1, 1)?;
        test.pair.write_spare(sector, &[0x00]);
        load(test, &levels(20), 11, 7)?;
        load(test, &levels(20)[..HEADER.len()], 0, 0)?;
        test.pair.write_spare(sector, &[0xFF]);
        load(test, &tab_of([[11, 0, 0], [12, 0, 0]]), 2, 0)?;
    }
    format(test, 16, 1, 1)?;
    test.pair.write_spare(64 + 4, &[0x0F]);
    load(test, &levels(20), 15, 7)?;
    // Worn, but fresh.
    format(test, 16, 1, 1)?;
    test.pair
        .write_spare(0, &[0x1F, 0xF8, 0xC7, 0xE3, 0xFE, 0x7F, 0xF8, 0x1F]);
    test.pair.write_spare(64 + 4, &[0x1F, 0xF8]);
    load(test, &levels(20), 20, 0)?;
    format(test, 16, 1, 1)?;
    test.pair.write_spare(2 * 64 + 3, &[0x00]);
    load(test, &levels(16), 16, 0)?;
    // The sixteenth update fills a page of deletions.
    load(test, &levels(16), 15, 7)
}

/// A row whose level has an entry with a record number of n or more, in RAM and on flash.
fn wrong_record_number(test: &mut Test) -> Result<(), Difference> {
    format(test, 16, 1, 1)?;
    load(test, &levels(10), 10, 0)?;
    let tab = tab_of([[20, 0, 0], [4, 0, 0], [9, 0, 0], [21, 0, 0]]);
    // Entry 1 of the page in RAM is level 9's, entry 4 of the first page on flash level 4's.
    let (in_ram, on_flash) = (64 + 8 + 4, 1024 + 4 * 8 + 4);
    test.pair.write_ram(in_ram, &[99]);
    load(test, &tab, 2, 8)?;
    load(test, &tab_of([[9, 0, 0]]), 0, 8)?;
    load(test, format!("{HEADER}9,0\n").as_bytes(), 0, MALFORMED)?;
    format(test, 16, 1, 1)?;
    load(test, &levels(10), 10, 0)?;
    test.pair.write_data(on_flash, &[99]);
    load(test, &tab, 1, 8)
}

/// 1 and 2 before the tab is looked at.
fn state_and_lengths_first(test: &mut Test) -> Result<(), Difference> {
    format(test, 16, 1, 1)?;
    let state = test.pair.state;
    for tab in [b"".as_slice(), b"level", &levels(3)] {
        test.pair.state.deletions = 1;
        load(test, tab, 0, 1)?;
        test.pair.state = state;
        test.pair.state.ra_blocks = 0;
        load(test, tab, 0, 1)?;
        test.pair.state = state;
        test.pair.state.hash_count = 9;
        load(test, tab, 0, 1)?;
        test.pair.state = state;
    }
    test.pair.lend_for(geometry(16, 1, 1), 0, 1);
    let lengths = test.pair.lengths();
    for which in 0..3 {
        let mut shorter = lengths;
        shorter[which] -= 1;
        test.pair.lend(shorter, 1);
        for tab in [b"".as_slice(), b"level", &levels(3)] {
            load(test, tab, 0, 2)?;
        }
    }
    Ok(())
}

/// Loads of many rows, by which sets and full sets are built; then updates of them.
fn sets(test: &mut Test) -> Result<(), Difference> {
    for (s, r, d, count) in [(16, 140, 4, 4500), (32, 40, 2, 2500), (64, 18, 1, 4200)] {
        format(test, s, r, d)?;
        let mut rows: Vec<Row> = (0..count).map(|i| [i * 7919, 30 + i % 20, 100 * i]).collect();
        for _ in 0..2 {
            let tab = tabs::with_rows(&mut test.random, &rows);
            load(test, &tab, rows.len() as u32, 0)?;
            rows.truncate(400);
        }
    }
    Ok(())
}
