//! The tables of a run, in Markdown.

use crate::load::Load;
use crate::measure::{changes, lookups, measure, Effort, Measured, FAST, STORES, SUBJECT};
use crate::volume::{geometry, Deletions, Keys, Kind, Volume, ROOM};
use model::Operation;
use store::{Geometry, State, HASH_COUNT_01};

const SECTOR_SIZES: [u32; 3] = [16, 64, 512];
const RECORDS: [usize; 3] = [1_000, 10_000, 100_000];

/// A row with these cells.
pub fn row(cells: impl IntoIterator<Item = String>) {
    let cells: Vec<String> = cells.into_iter().collect();
    println!("| {} |", cells.join(" | "));
}

pub fn head(title: &str, columns: &[&str]) {
    println!("\n{title}\n");
    row(columns.iter().map(|column| column.to_string()));
    println!("|{}", "---|".repeat(columns.len()));
}

/// Columns of times in microseconds and their ratios, between other ones.
pub fn times_head(title: &str, first: &[&str], last: &[String]) {
    let times = STORES.map(|store| format!("{} us", store.name()));
    let [proved, model, fast] = STORES.map(|store| store.name());
    let ratios = [format!("{model}/{proved}"), format!("{proved}/{fast}")];
    let more = times.iter().chain(&ratios).chain(last).map(String::as_str);
    head(title, &first.iter().copied().chain(more).collect::<Vec<_>>());
}

pub fn digits(number: f64) -> String {
    match number {
        0.0..10.0 => format!("{number:.2}"),
        10.0..100.0 => format!("{number:.1}"),
        _ => format!("{number:.0}"),
    }
}

pub fn times_and_ratios([proved, model, fast]: [f64; 3]) -> Vec<String> {
    [proved, model, fast, model / proved, proved / fast]
        .map(digits)
        .to_vec()
}

/// Every call at every size, and growth: x is how many times the time of the size before.
pub fn calls(most: usize) {
    let growth = STORES.map(|store| format!("{} x", store.name()));
    times_head("Calls", &["S", "call", "n"], &growth);
    for sector_size in SECTOR_SIZES {
        let volumes: Vec<Volume> = RECORDS
            .into_iter()
            .filter(|&n| n <= most)
            .filter_map(|n| Volume::filled(Kind::of(sector_size), n, ROOM, Keys::Random))
            .collect();
        for call in Measured::ALL {
            let mut before: Option<[f64; 3]> = None;
            for volume in &volumes {
                let micros = measure(volume, call);
                let growth = (0..3).map(|which| match before {
                    Some(before) => format!("{:.1}", micros[which] / before[which]),
                    None => String::new(),
                });
                let n = volume.state.records.to_string();
                let first = [sector_size.to_string(), call.name().to_string(), n];
                row(first.into_iter().chain(times_and_ratios(micros)).chain(growth));
                before = Some(micros);
            }
        }
    }
}

/// What deletions cost: a hit tests one record number by them, an update too, a miss none.
pub fn deletions(most: usize) {
    let last = ["pages opened", "DA pages opened"].map(str::to_string);
    times_head("Calls by deletions", &["S", "call", "n", "d"], &last);
    for sector_size in SECTOR_SIZES {
        for n in RECORDS.into_iter().filter(|&n| (10_000..=most).contains(&n)) {
            for deletions in [Deletions::OnePage, Deletions::Tenth, Deletions::Half] {
                let kind = Kind {
                    deletions,
                    ..Kind::of(sector_size)
                };
                let volume = Volume::filled(kind, n, ROOM, Keys::Random).expect("the sizes are allowed");
                let (micros, opened) = lookups(&volume, Measured::Hit, Effort::TIMED);
                let opened = [opened.pages, opened.deletion_pages].map(|pages| format!("{pages:.2}"));
                deletions_row(&volume, Measured::Hit, micros, opened);
                let micros = measure(&volume, Measured::Update);
                deletions_row(&volume, Measured::Update, micros, [String::new(), String::new()]);
            }
        }
    }
}

fn deletions_row(volume: &Volume, call: Measured, micros: [f64; 3], opened: [String; 2]) {
    let State {
        sector_size,
        records,
        deletions,
        ..
    } = volume.state;
    let first = [
        sector_size.to_string(),
        call.name().to_string(),
        records.to_string(),
        deletions.to_string(),
    ];
    row(first.into_iter().chain(times_and_ratios(micros)).chain(opened));
}

/// Pages that a lookup opens on the average, for random keys and for keys in order.
pub fn pages(most: usize) {
    let columns = [
        "S",
        "n",
        "filters",
        "hit, random keys",
        "hit, keys 1, 2, ..",
        "miss, random keys",
        "miss, keys 1, 2, ..",
    ];
    head("Pages opened by a lookup", &columns);
    for sector_size in SECTOR_SIZES {
        for n in RECORDS.into_iter().filter(|&n| n <= most) {
            let kind = Kind::of(sector_size);
            let volumes = [Keys::Random, Keys::InOrder]
                .map(|keys| Volume::filled(kind, n, ROOM, keys).expect("the sizes are allowed"));
            let opened = |which: usize, call| {
                let (_, opened) = lookups(&volumes[which], call, Effort::rounds(1));
                format!("{:.2}", opened.pages)
            };
            row([
                sector_size.to_string(),
                n.to_string(),
                (2 * n / sector_size as usize).to_string(),
                opened(0, Measured::Hit),
                opened(1, Measured::Hit),
                opened(0, Measured::Miss),
                opened(1, Measured::Miss),
            ]);
        }
    }
}

/// Chip operations of an insert: the average over the round that ends with set i, and over a whole cycle.
pub fn operations(most: usize) {
    let columns = [
        "S",
        "round of set",
        "sectors programmed",
        "bytes programmed",
        "blocks erased",
    ];
    head("Chip operations of an insert", &columns);
    for sector_size in SECTOR_SIZES {
        let last = sector_size as usize / 4 + 1;
        let round = 64 * sector_size as usize;
        let mut cycle = (0, 0);
        for number in (2..=last).filter(|number| (number - 1) * round <= most) {
            let sums = round_operations(sector_size, number);
            cycle = (cycle.0 + sums.0, cycle.1 + sums.1);
            if [2, 3, last / 2 + 1, last].contains(&number) {
                operations_row(sector_size, number.to_string(), round, sums);
            }
            if number == last {
                operations_row(sector_size, format!("2 to {last}"), round * (last - 1), cycle);
            }
        }
    }
}

fn operations_row(sector_size: u32, rounds: String, inserts: usize, (sectors, blocks): (usize, usize)) {
    let each = |sum: usize| sum as f64 / inserts as f64;
    row([
        sector_size.to_string(),
        rounds,
        format!("{:.3}", each(sectors)),
        format!("{:.1}", each(sectors * sector_size as usize)),
        format!("{:.5}", each(blocks)),
    ]);
}

/// Sectors programmed and blocks erased by all inserts of the round that ends with set `number`.
fn round_operations(sector_size: u32, number: usize) -> (usize, usize) {
    let round = 64 * sector_size;
    let end = round * (number as u32 - 1);
    let (ra_blocks, da_blocks) = geometry(Kind::of(sector_size), end as usize, 0).expect("a full set fits");
    let geometry = Geometry::new(sector_size, ra_blocks, da_blocks, HASH_COUNT_01).expect("allowed");
    let of_insert = |records| {
        let state = State {
            sector_size,
            ra_blocks,
            da_blocks,
            hash_count: HASH_COUNT_01,
            records,
            deletions: 0,
        };
        let list = model::operations(geometry, state, false, true);
        let programs = |operation: &&Operation| matches!(operation, Operation::Program { .. });
        let sectors = list.iter().filter(programs).count();
        (sectors, list.len() - sectors)
    };
    (end - round..end)
        .map(of_insert)
        .fold((0, 0), |sums, one| (sums.0 + one.0, sums.1 + one.1))
}

/// The longest call: the insert that completes a round builds a set. The model does it bit by bit.
pub fn longest(most: usize) {
    let first = ["S", "set", "pages", "w", "n", "earlier filters"];
    times_head("The insert that completes a set (model: bit by bit)", &first, &[]);
    for (sector_size, numbers) in [
        (16, [2, 3, 4, 5].as_slice()),
        (64, &[2, 3, 10, 16, 17]),
        (512, &[2, 3, 18, 66, 129]),
    ] {
        for &number in numbers {
            let n = 64 * sector_size as usize * (number - 1);
            if n <= most {
                longest_row(sector_size, number, n);
            }
        }
    }
}

fn longest_row(sector_size: u32, number: usize, n: usize) {
    let pages = model::set_page_count(number);
    let earlier = match number {
        2 => "none",
        _ if pages > model::set_page_count(number - 1) => "w halved",
        _ if number == sector_size as usize / 4 + 1 => "same w, full set",
        _ => "same w",
    };
    let volume = Volume::filled(Kind::of(sector_size), n - 1, 1, Keys::Random).expect("a full set fits");
    // Bit by bit the largest take a second.
    let effort = if n > 1_000_000 {
        Effort::rounds(2)
    } else {
        Effort::TIMED
    };
    let width = 4 * sector_size as usize / pages;
    let first = [sector_size as usize, number, pages, width, n].map(|number| number.to_string());
    let cells = first.into_iter().chain([earlier.to_string()]);
    row(cells.chain(times_and_ratios(changes(&volume, Measured::Insert, 1, effort))));
}

/// A row of a tab that is loaded into an empty volume, beside the same insert by the call.
pub fn loads(most: usize) {
    const ROWS: usize = 10_000;
    if ROWS > most {
        return;
    }
    let [proved, fast] = [SUBJECT, FAST].map(|store| store.name());
    let mut columns = vec!["S".to_string(), "rows".to_string()];
    for name in [proved, fast] {
        columns.extend(["load us", "insert us", "load/insert"].map(|what| format!("{name} {what}")));
    }
    columns.push(format!("{proved}/{fast}"));
    head(
        "Loading a tab, a row",
        &columns.iter().map(String::as_str).collect::<Vec<_>>(),
    );
    for sector_size in SECTOR_SIZES {
        let load = Load::new(Kind::of(sector_size), ROWS).expect("room for the rows");
        let [proved, fast] = load.measure();
        let cells = [proved, fast]
            .map(|[load, insert]| [load, insert, load / insert])
            .concat();
        let first = [sector_size as usize, ROWS].map(|number| number.to_string());
        row(first
            .into_iter()
            .chain(cells.into_iter().chain([proved[0] / fast[0]]).map(digits)));
    }
}
