//! Comma-separated tabs, made from random numbers: good ones, spoiled ones and strings that look like one.

use crate::random::Random;

/// Level, moves, goal.
pub type Row = [u32; 3];

/// What strings are made of: the bytes that the grammar names, and some that are neither.
const BYTES: &[u8] = b"\",\r\n019 al";

/// Behind the end of a tab: a reader that goes on meets a row.
const BEHIND: &[u8] = b"0,0,0\n1,1,1\n";

/// A tab with these rows: some fields in quotes, some numbers with leading zeros, LF and CRLF, the last ending
/// now and then missing.
pub fn with_rows(random: &mut Random, rows: &[Row]) -> Vec<u8> {
    let mut tab = Vec::new();
    push_line(random, &mut tab, [b"level".as_slice(), b"moves", b"goal"]);
    for row in rows {
        let numbers = row.map(|number| zeros(random) + &number.to_string());
        push_line(
            random,
            &mut tab,
            numbers.each_ref().map(|number| number.as_bytes()),
        );
    }
    if random.chance(1, 4) {
        while tab.last().is_some_and(u8::is_ascii_whitespace) {
            tab.pop();
        }
    }
    tab
}

fn zeros(random: &mut Random) -> String {
    let count = if random.chance(1, 8) { random.below(14) } else { 0 };
    "0".repeat(count)
}

fn push_line(random: &mut Random, tab: &mut Vec<u8>, fields: [&[u8]; 3]) {
    for (number, field) in fields.into_iter().enumerate() {
        if number > 0 {
            tab.push(b',');
        }
        let quotes: &[u8] = if random.chance(1, 4) { b"\"" } else { b"" };
        tab.extend([quotes, field, quotes].concat());
    }
    tab.extend(ending(random));
}

fn ending(random: &mut Random) -> &'static [u8] {
    if random.chance(1, 3) {
        b"\r\n"
    } else {
        b"\n"
    }
}

/// Replaces, inserts or removes one byte.
pub fn spoil(random: &mut Random, tab: &mut Vec<u8>) {
    let at = random.below(tab.len() + 1);
    let byte = random.pick(BYTES);
    match random.below(3) {
        0 => tab.insert(at, byte),
        1 if at < tab.len() => tab[at] = byte,
        _ if at < tab.len() => {
            tab.remove(at);
        }
        _ => {}
    }
}

/// A string that may be a tab: random bytes, with the header in front or not, or small rows, most of them spoiled.
/// Other bytes follow it in memory; gives its length.
pub fn any(random: &mut Random, tab: &mut Vec<u8>) -> usize {
    tab.clear();
    match random.below(8) {
        0 => push_bytes(random, tab),
        1..=3 => {
            tab.extend(b"level,moves,goal");
            tab.extend(ending(random));
            push_bytes(random, tab);
        }
        _ => {
            *tab = with_small_rows(random);
            for _ in 0..random.below(4) {
                spoil(random, tab);
            }
        }
    }
    let len = tab.len();
    tab.extend(BEHIND);
    len
}

fn push_bytes(random: &mut Random, tab: &mut Vec<u8>) {
    for _ in 0..random.below(12) {
        tab.push(random.pick(BYTES));
    }
}

fn with_small_rows(random: &mut Random) -> Vec<u8> {
    let mut rows = [[0; 3]; 3];
    for number in rows.iter_mut().flatten() {
        *number = random.pick(&[0, 1, 9, 10, 19, u32::MAX]);
    }
    let count = random.below(rows.len() + 1);
    with_rows(random, &rows[..count])
}
