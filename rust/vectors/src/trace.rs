//! The commands of a trace (the README of the vectors has the format).

use store::{Answer, Call, CutResult, LookupResult, Memory, State, Store, HASH_COUNT_01, HEADER_BYTES};

/// From this request on a trace names k.
const NAMES_HASH_COUNT: u32 = 2;
/// From this request on a hit or miss gives the DA pages opened, behind the count.
const GIVES_DELETION_COUNT: u32 = 5;

/// From this request on the lent RAM has a header. A trace from before it is lent as many bytes more, and neither alters nor digests
/// them: it tells nothing of them, and all the rest of it holds.
const LENDS_HEADER: u32 = 8;

/// Lent slices, state and settings of a trace under way.
pub struct Runner<'a> {
    store: &'a dyn Store,
    /// The trace is of the store after the requests up to this one; 0 for document 01's.
    request: u32,
    state: State,
    memory: Memory,
    fill: u8,
    /// The steps of the next changing call or restart, if it is to be cut.
    budget: Option<u64>,
    digests: bool,
    last_digests: [Digest; 3],
}

impl<'a> Runner<'a> {
    /// No slices lent, the state all zero, digests on.
    pub fn new(store: &'a dyn Store, request: u32) -> Runner<'a> {
        Runner {
            store,
            request,
            state: State::default(),
            memory: Memory::default(),
            fill: 0,
            budget: None,
            digests: true,
            last_digests: Default::default(),
        }
    }

    /// Carries out one command. A call gives its line of output, other commands give none.
    pub fn command(&mut self, line: &str) -> Result<Option<String>, String> {
        let mut words = line.split(' ');
        let name = words.next().unwrap_or("");
        if name == "LOAD" {
            return self.load(words.next().unwrap_or("")).map(Some);
        }
        let mut numbers = Vec::new();
        for word in words {
            let number: u32 = word.parse().map_err(|_| format!("not a number: {word}"))?;
            numbers.push(number);
        }
        if self.request < NAMES_HASH_COUNT {
            add_hash_count(name, &mut numbers)?;
        }
        let Memory { data, spare, ram } = &mut self.memory;
        match (name, numbers.as_slice()) {
            ("FILL", &[byte]) => self.fill = as_byte(byte)?,
            ("LEND", &[data_len, spare_len, ram_len]) => {
                let more = if self.request < LENDS_HEADER {
                    HEADER_BYTES
                } else {
                    0
                };
                let lengths = [data_len as usize, spare_len as usize, ram_len as usize + more];
                self.memory = Memory::filled(self.fill, lengths);
            }
            ("PC", &[offset, value]) => alter(data, offset, value)?,
            ("PM", &[offset, value]) => alter(spare, offset, value)?,
            ("PD", &[offset, value]) => {
                let known = known_len(self.request, ram);
                alter(&mut ram[..known], offset, value)?;
            }
            ("PH", &[number, value]) => alter_header(ram, number, value)?,
            ("PS", &[s, r, d, k, records, deletions]) => {
                self.state = State::of_numbers([s, r, d, k, records, deletions]);
            }
            ("DIG", &[on]) => self.digests = on != 0,
            ("CUT", &[budget]) => self.budget = Some(u64::from(budget)),
            (name, numbers) => {
                let call = call_of(name, numbers).ok_or("not a command")?;
                return Ok(Some(self.call(call)));
            }
        }
        Ok(None)
    }

    /// `LOAD hexbytes`, `-` for no bytes.
    fn load(&mut self, hex: &str) -> Result<String, String> {
        let tab = bytes_of(hex)?;
        Ok(self.call(Call::Load { tab: &tab }))
    }

    /// A call, with the budget that is set if it takes one. A state that is handed out is handed in from here on.
    fn call(&mut self, call: Call) -> String {
        let budget = self.budget.take_if(|_| call.has_steps());
        let answer = self
            .store
            .call(budget, self.state, &call, &mut self.memory.lent());
        self.state = answer.state().unwrap_or(self.state);
        let answer = match answer {
            Answer::Change(change) => ending(change.refusal),
            Answer::Cut(result) => cut_answer(budget.unwrap_or_default(), result),
            Answer::Lookup(result) => lookup_answer(self.request, result, &self.memory),
            Answer::Load(result) => format!("rows {} {}", result.rows, ending(result.refusal)),
        };
        self.output_line(&answer)
    }

    fn output_line(&mut self, answer: &str) -> String {
        let [s, r, d, k, records, deletions] = self.state.numbers();
        let mut line = format!("{answer} | {s} {r} {d}");
        if self.request >= NAMES_HASH_COUNT {
            line += &format!(" {k}");
        }
        line += &format!(" {records} {deletions}");
        if self.digests {
            let [data, spare, ram] = &mut self.last_digests;
            let memory = &self.memory;
            let data = data.of(&memory.data);
            let spare = spare.of(&memory.spare);
            let ram = ram.of(&memory.ram[..known_len(self.request, &memory.ram)]);
            line += &format!(" | {data:016x} {spare:016x} {ram:016x}");
        }
        line
    }
}

/// "Volumes and replays of document 01 have k = 3": in a trace that does not name k, it stands behind the S, R and D
/// of a format or a state.
fn add_hash_count(name: &str, numbers: &mut Vec<u32>) -> Result<(), String> {
    match (name, numbers.len()) {
        ("F", 3) | ("PS", 5) => numbers.insert(3, HASH_COUNT_01),
        ("F" | "PS", _) => return Err("not a command".to_string()),
        _ => {}
    }
    Ok(())
}

/// The call of a line but a load's.
fn call_of(name: &str, numbers: &[u32]) -> Option<Call<'static>> {
    match (name, numbers) {
        ("F", &[sector_size, ra_blocks, da_blocks, hash_count]) => Some(Call::Format {
            sector_size,
            ra_blocks,
            da_blocks,
            hash_count,
        }),
        ("I", &[key, moves, goal, word]) => Some(Call::Insert {
            key,
            moves,
            goal,
            word,
        }),
        ("U", &[key, moves, goal, word]) => Some(Call::Update {
            key,
            moves,
            goal,
            word,
        }),
        ("D", &[key]) => Some(Call::Delete { key }),
        ("L", &[key]) => Some(Call::Lookup { key }),
        ("RESTART", []) => Some(Call::Restart),
        _ => None,
    }
}

fn ending(refusal: u32) -> String {
    match refusal {
        0 => "ok".to_string(),
        number => format!("no {number}"),
    }
}

fn lookup_answer(request: u32, result: LookupResult, memory: &Memory) -> String {
    let mut counts = result.count.to_string();
    if request >= GIVES_DELETION_COUNT {
        counts += &format!(" {}", result.deletion_count);
    }
    match result {
        LookupResult {
            refusal: 0,
            found: 0,
            in_ram: 0,
            offset: 0,
            ..
        } => format!("miss {counts}"),
        LookupResult {
            refusal: 0,
            found: 1,
            in_ram: in_ram @ (0 | 1),
            offset,
            ..
        } => {
            let (name, slice) = if in_ram == 1 {
                ("desk", &memory.ram)
            } else {
                ("cells", &memory.data)
            };
            let start = offset as usize;
            match start.checked_add(16).and_then(|end| slice.get(start..end)) {
                Some(record) => {
                    let hex: String = record.iter().map(|byte| format!("{byte:02x}")).collect();
                    format!("hit {counts} {name} {offset} {hex}")
                }
                None => format!("hit outside the slice: {result:?}"),
            }
        }
        LookupResult {
            refusal,
            found: 0,
            count: 0,
            in_ram: 0,
            offset: 0,
            deletion_count: 0,
        } => format!("no {refusal}"),
        other => format!("impossible result: {other:?}"),
    }
}

/// The lent RAM bytes that a trace knows of.
fn known_len(request: u32, ram: &[u8]) -> usize {
    match request {
        0..LENDS_HEADER => ram.len().saturating_sub(HEADER_BYTES),
        _ => ram.len(),
    }
}

/// `cut DONE` if the budget was not enough.
fn cut_answer(budget: u64, result: CutResult) -> String {
    match result {
        CutResult {
            refusal: 0,
            finished: 1,
            steps,
            ..
        } if steps <= budget => "ok".to_string(),
        CutResult {
            refusal: 0,
            finished: 0,
            steps,
            ..
        } => format!("cut {steps}"),
        CutResult {
            refusal: refusal @ 1..,
            finished: 0,
            steps: 0,
            ..
        } => format!("no {refusal}"),
        other => format!("impossible result: {other:?}"),
    }
}

fn alter(bytes: &mut [u8], offset: u32, value: u32) -> Result<(), String> {
    let place = bytes.get_mut(offset as usize).ok_or("outside the slice")?;
    *place = as_byte(value)?;
    Ok(())
}

/// A number, 0 to 15, of the header in the last bytes of the RAM.
fn alter_header(ram: &mut [u8], number: u32, value: u32) -> Result<(), String> {
    let header = ram.last_chunk_mut::<HEADER_BYTES>().ok_or("no header")?;
    let start = 4 * number as usize;
    let place = header.get_mut(start..start + 4).ok_or("outside the header")?;
    place.copy_from_slice(&value.to_le_bytes());
    Ok(())
}

fn as_byte(number: u32) -> Result<u8, String> {
    u8::try_from(number).map_err(|_| format!("not a byte: {number}"))
}

/// Bytes in hexadecimal; `-` is none.
fn bytes_of(hex: &str) -> Result<Vec<u8>, String> {
    if hex == "-" {
        return Ok(Vec::new());
    }
    match hex
        .chars()
        .map(|digit| digit.to_digit(16))
        .collect::<Option<Vec<u32>>>()
    {
        Some(digits) if !digits.is_empty() && digits.len().is_multiple_of(2) => Ok(digits
            .chunks(2)
            .map(|pair| (16 * pair[0] + pair[1]) as u8)
            .collect()),
        _ => Err(format!("not bytes: {hex}")),
    }
}

/// The bytes digested last and their digest: bytes that did not change are not digested again.
#[derive(Default)]
struct Digest {
    last: Option<(Vec<u8>, u64)>,
}

impl Digest {
    fn of(&mut self, bytes: &[u8]) -> u64 {
        match &self.last {
            Some((last, value)) if last == bytes => *value,
            _ => {
                let value = digest(bytes);
                self.last = Some((bytes.to_vec(), value));
                value
            }
        }
    }
}

/// FNV-1a, 64 bits.
fn digest(bytes: &[u8]) -> u64 {
    bytes.iter().fold(0xcbf29ce484222325, |hash, &byte| {
        (hash ^ u64::from(byte)).wrapping_mul(0x100000001b3)
    })
}

#[cfg(test)]
mod tests {
    use super::*;
    use store::ModelStore;

    #[test]
    fn a_short_trace() {
        let mut runner = Runner::new(&ModelStore, 1);
        assert_eq!(runner.command("LEND 21504 1344 384"), Ok(None));
        let mut run = |line: &str| runner.command(line);
        assert_eq!(run("DIG 0"), Ok(None));
        assert_eq!(run("F 16 1 1"), Ok(Some("ok | 16 1 1 0 0".to_string())));
        assert_eq!(run("I 7 40 2 3"), Ok(Some("ok | 16 1 1 1 0".to_string())));
        let hit = "hit 0 desk 0 07000000280000000200000003000000 | 16 1 1 1 0";
        assert_eq!(run("L 7"), Ok(Some(hit.to_string())));
        assert_eq!(run("L 8"), Ok(Some("miss 0 | 16 1 1 1 0".to_string())));
        assert_eq!(run("D 8"), Ok(Some("no 4 | 16 1 1 1 0".to_string())));
        // Two rows, the second one malformed.
        let tab = "6c6576656c2c6d6f7665732c676f616c0a372c312c320a372c0a";
        assert_eq!(
            run(&format!("LOAD {tab}")),
            Ok(Some("rows 1 no 9 | 16 1 1 2 1".to_string()))
        );
        assert_eq!(run("LOAD -"), Ok(Some("rows 0 ok | 16 1 1 2 1".to_string())));
        for bad in ["LOAD", "LOAD 6", "LOAD +6", "LOAD 6g"] {
            assert!(run(bad).is_err(), "{bad}");
        }
        assert!(run("X 8").is_err());
        assert!(run("PD 384 0").is_err());
        assert!(run("PD 0 256").is_err());
    }

    #[test]
    fn a_trace_with_hash_counts() {
        let mut runner = Runner::new(&ModelStore, 2);
        assert_eq!(runner.command("LEND 21504 1344 384"), Ok(None));
        let mut run = |line: &str| runner.command(line);
        assert_eq!(run("DIG 0"), Ok(None));
        assert_eq!(run("L 7"), Ok(Some("no 1 | 0 0 0 0 0 0".to_string())));
        assert_eq!(run("F 16 1 1 9"), Ok(Some("no 1 | 0 0 0 0 0 0".to_string())));
        assert_eq!(run("F 16 1 1 8"), Ok(Some("ok | 16 1 1 8 0 0".to_string())));
        assert_eq!(run("PS 16 1 1 0 0 0"), Ok(None));
        assert_eq!(run("I 7 40 2 3"), Ok(Some("no 1 | 16 1 1 0 0 0".to_string())));
        // Document 01's forms.
        for bad in ["F 16 1 1", "PS 16 1 1 0 0"] {
            assert!(run(bad).is_err(), "{bad}");
        }
    }

    #[test]
    fn document_01_names_no_hash_count() {
        for request in [0, 1] {
            let mut runner = Runner::new(&ModelStore, request);
            assert_eq!(runner.command("LEND 21504 1344 384"), Ok(None));
            let mut run = |line: &str| runner.command(line);
            assert_eq!(run("DIG 0"), Ok(None));
            assert_eq!(run("L 7"), Ok(Some("no 1 | 0 0 0 0 0".to_string())));
            assert_eq!(run("PS 16 1 1 2 1"), Ok(None));
            assert_eq!(run("L 7"), Ok(Some("miss 0 | 16 1 1 2 1".to_string())));
            for bad in ["F 16 1 1 3", "PS 16 1 1 3 0 0"] {
                assert!(run(bad).is_err(), "{bad}");
            }
            assert_eq!(run("F 16 1 1"), Ok(Some("ok | 16 1 1 0 0".to_string())));
            assert_eq!(runner.state.hash_count, 3);
        }
    }

    /// Sixteen deletions fill a page, which the lookup of a deleted level opens once: it has one record.
    #[test]
    fn deletion_pages_from_request_5_on() {
        for (request, miss) in [(4, "miss 1"), (5, "miss 1 1")] {
            let mut runner = Runner::new(&ModelStore, request);
            assert_eq!(runner.command("LEND 21504 1344 384"), Ok(None));
            let mut run = |line: &str| runner.command(line).map(|answer| answer.unwrap_or_default());
            assert_eq!(run("DIG 0"), Ok(String::new()));
            assert_eq!(run("F 16 1 1 3"), Ok("ok | 16 1 1 3 0 0".to_string()));
            for key in 0..16 {
                assert_eq!(
                    run(&format!("I {key} 1 2 3")),
                    Ok(format!("ok | 16 1 1 3 {} 0", key + 1))
                );
            }
            for key in 0..16 {
                assert_eq!(
                    run(&format!("D {key}")),
                    Ok(format!("ok | 16 1 1 3 16 {}", key + 1))
                );
            }
            assert_eq!(run("L 7"), Ok(format!("{miss} | 16 1 1 3 16 16")));
        }
    }

    /// Request 8: the fourth insert has six steps, the intent, four sectors and the finished RAM.
    #[test]
    fn a_trace_with_cuts() {
        let mut runner = Runner::new(&ModelStore, 8);
        assert_eq!(runner.command("LEND 21504 1344 448"), Ok(None));
        let mut run = |line: &str| runner.command(line).map(|answer| answer.unwrap_or_default());
        assert_eq!(run("DIG 0"), Ok(String::new()));
        assert_eq!(run("F 16 1 1 3"), Ok("ok | 16 1 1 3 0 0".to_string()));
        for key in 1..4 {
            assert_eq!(
                run(&format!("I {key} 1 2 3")),
                Ok(format!("ok | 16 1 1 3 {key} 0"))
            );
        }
        let steps = |run: &mut dyn FnMut(&str) -> Result<String, String>, budget: u32, call: &str| {
            assert_eq!(run(&format!("CUT {budget}")), Ok(String::new()));
            run(call)
        };
        assert_eq!(
            steps(&mut run, 0, "I 4 1 2 3"),
            Ok("cut 0 | 16 1 1 3 3 0".to_string())
        );
        assert_eq!(run("L 4"), Ok("miss 0 0 | 16 1 1 3 3 0".to_string()));
        assert_eq!(
            steps(&mut run, 3, "I 4 1 2 3"),
            Ok("cut 3 | 16 1 1 3 3 0".to_string())
        );
        assert_eq!(run("L 4"), Ok("no 10 | 16 1 1 3 3 0".to_string()));
        assert_eq!(run("LOAD -"), Ok("rows 0 no 10 | 16 1 1 3 3 0".to_string()));
        assert_eq!(run("PS 0 0 0 0 0 0"), Ok(String::new()));
        assert_eq!(
            steps(&mut run, 2, "RESTART"),
            Ok("cut 2 | 0 0 0 0 0 0".to_string())
        );
        // Another kind, and back.
        assert_eq!(run("PH 6 5"), Ok(String::new()));
        assert_eq!(run("RESTART"), Ok("no 1 | 0 0 0 0 0 0".to_string()));
        assert_eq!(run("PH 6 1"), Ok(String::new()));
        assert_eq!(steps(&mut run, 1, "RESTART"), Ok("ok | 16 1 1 3 4 0".to_string()));
        for bad in ["CUT", "CUT -1", "RESTART 1", "PH 16 0", "PH 0"] {
            assert!(run(bad).is_err(), "{bad}");
        }
    }

    #[test]
    fn digest_of_nothing() {
        assert_eq!(digest(&[]), 0xcbf29ce484222325);
        assert_eq!(digest(b"a"), 0xaf63dc4c8601ec8c);
    }
}
