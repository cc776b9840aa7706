//! The replay program of document 01 over a store.

use store::{Answer, Call, Memory, State, Store, HASH_COUNT_01};

/// "It lends 59,392 cells, 3,712 marks and a desk of 640 bytes."
pub const LENT: [usize; 3] = [59_392, 3_712, 640];

/// What the program `replay_large` lends: enough for full sets of both indexes at S = 16 and for sets of both at S = 64.
pub const LENT_LARGE: [usize; 3] = [487_424, 12_224, 1_600];

/// The output for a whole input: an answer a line, each ended by a line feed. So many bytes of cells, marks
/// and desk are lent.
pub fn replay(store: &dyn Store, input: &[u8], lent: [usize; 3]) -> Vec<u8> {
    let mut volume = Volume {
        store,
        // "Before any format the state is all zero."
        state: State::default(),
        memory: Memory::filled(0, lent),
    };
    let mut output = Vec::new();
    // The last line feed may be missing; a line feed opens no line.
    for line in input.split_inclusive(|&byte| byte == b'\n') {
        let line = line.strip_suffix(b"\n").unwrap_or(line);
        output.extend_from_slice(volume.answer(line).as_bytes());
        output.push(b'\n');
    }
    output
}

/// "`f S R D`, `i key moves`, `u key moves`, `d key`, `l key`, in decimal below 2^32
/// without leading zeros, single spaces." "Goal and free word are 0"; "replays of document 01 have k = 3".
fn parse(line: &[u8]) -> Option<Call<'static>> {
    let mut words = line.split(|&byte| byte == b' ');
    let name = words.next()?;
    let numbers = words.map(number).collect::<Option<Vec<u32>>>()?;
    let [goal, word] = [0; 2];
    match (name, numbers.as_slice()) {
        (b"f", &[sector_size, ra_blocks, da_blocks]) => Some(Call::Format {
            sector_size,
            ra_blocks,
            da_blocks,
            hash_count: HASH_COUNT_01,
        }),
        (b"i", &[key, moves]) => Some(Call::Insert {
            key,
            moves,
            goal,
            word,
        }),
        (b"u", &[key, moves]) => Some(Call::Update {
            key,
            moves,
            goal,
            word,
        }),
        (b"d", &[key]) => Some(Call::Delete { key }),
        (b"l", &[key]) => Some(Call::Lookup { key }),
        _ => None,
    }
}

fn number(word: &[u8]) -> Option<u32> {
    if word.is_empty() || (word.len() > 1 && word[0] == b'0') {
        return None;
    }
    let mut value: u32 = 0;
    for &byte in word {
        if !byte.is_ascii_digit() {
            return None;
        }
        value = value.checked_mul(10)?.checked_add(u32::from(byte - b'0'))?;
    }
    Some(value)
}

/// The state and lent bytes that pass from one line to the next.
struct Volume<'a> {
    store: &'a dyn Store,
    state: State,
    memory: Memory,
}

impl Volume<'_> {
    /// "`ok n d`, `hit moves count`, `miss count` or `no number` answers each; other lines answer `bad`."
    fn answer(&mut self, line: &[u8]) -> String {
        let Some(call) = parse(line) else {
            return "bad".to_string();
        };
        let answer = self.store.call(None, self.state, &call, &mut self.memory.lent());
        self.state = answer.state().unwrap_or(self.state);
        match (answer.refusal(), answer) {
            (0, Answer::Lookup(result)) if result.found == 0 => format!("miss {}", result.count),
            (0, Answer::Lookup(result)) => {
                let Memory { data, ram, .. } = &self.memory;
                let slice = if result.in_ram == 1 { ram } else { data };
                let start = result.offset as usize + 4;
                match slice.get(start..start + 4) {
                    Some(&[a, b, c, d]) => {
                        format!("hit {} {}", u32::from_le_bytes([a, b, c, d]), result.count)
                    }
                    _ => format!("hit outside the slice: {result:?}"),
                }
            }
            (0, _) => format!("ok {} {}", self.state.records, self.state.deletions),
            (refusal, _) => format!("no {refusal}"),
        }
    }
}

#[cfg(test)]
mod tests {
    use super::*;
    use store::ModelStore;

    fn run(input: &[u8]) -> String {
        String::from_utf8(replay(&ModelStore, input, LENT)).expect("plain text")
    }

    #[test]
    fn example_of_the_document() {
        let input = b"f 16 1 1\ni 7 40\ni 7 41\nl 7\nu 7 42\nl 7\nd 7\nl 7\nd 7\n";
        let output = "ok 0 0\nok 1 0\nno 3\nhit 40 0\nok 2 1\nhit 42 0\nok 2 2\nmiss 0\nno 4\n";
        assert_eq!(run(input), output);
        // The last line feed may be missing.
        assert_eq!(run(&input[..input.len() - 1]), output);
    }

    #[test]
    fn before_any_format() {
        assert_eq!(run(b""), "");
        assert_eq!(run(b"l 7\ni 7 1\nd 7\nf 24 1 1"), "no 1\nno 1\nno 1\nno 1\n");
    }

    #[test]
    fn sizes_that_are_served() {
        // "The replay's bytes then serve S = 16 only."
        assert_eq!(run(b"f 16 26 1"), "ok 0 0\n");
        assert_eq!(run(b"f 16 27 1"), "no 2\n");
        assert_eq!(run(b"f 16 1 31"), "ok 0 0\n");
        assert_eq!(run(b"f 16 1 32"), "no 2\n");
        assert_eq!(run(b"f 32 1 1"), "no 2\n");
        assert_eq!(run(b"f 64 1 1"), "no 2\n");
    }

    #[test]
    fn refused_format_leaves_the_volume() {
        assert_eq!(
            run(b"f 16 1 1\ni 7 40\nf 16 0 1\nf 16 4096 1\nl 7"),
            "ok 0 0\nok 1 0\nno 1\nno 2\nhit 40 0\n"
        );
    }

    #[test]
    fn bad_lines() {
        for line in [
            "",
            "\r",
            "l 7\r",
            "l\t7",
            "l  7",
            " l 7",
            "l 7 ",
            "l 07",
            "l 00",
            "l +7",
            "l -7",
            "L 7",
            "l",
            "l 7 8",
            "i 7",
            "i 7 8 9",
            "l 4294967296",
            "l 99999999999999999999",
            "l 7\0",
            "x 7",
            "f 16 1",
            "f 16 1 1 1",
            "l 0x7",
            "l 7.0",
            "ll 7",
            "\u{e9}",
        ] {
            assert_eq!(parse(line.as_bytes()), None, "{line:?}");
        }
        assert_eq!(parse(b"l 0"), Some(Call::Lookup { key: 0 }));
        assert_eq!(parse(b"l 4294967295"), Some(Call::Lookup { key: u32::MAX }));
        assert_eq!(run(b"\n\n"), "bad\nbad\n");
    }
}
