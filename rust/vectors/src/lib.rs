//! The vectors of a folder against a store: `trace/*.trace` with `*.out`, and `replay/*.in` with `*.out`;
//! the same in `requests/L`, after the requests 1 to L. Those that a later request gave other answers are not there.

#![forbid(unsafe_code)]

pub mod replay;
pub mod trace;

use std::fmt;
use std::fs;
use std::path::{Path, PathBuf};
use store::Store;

/// The first line that differs, or a file that cannot be used.
#[derive(Debug)]
pub enum Failure {
    Difference {
        file: PathBuf,
        /// Line of the expected output, from 1.
        line: usize,
        /// The input line that gave it.
        input: String,
        expected: String,
        got: String,
    },
    Unusable {
        file: PathBuf,
        reason: String,
    },
}

impl fmt::Display for Failure {
    fn fmt(&self, f: &mut fmt::Formatter) -> fmt::Result {
        match self {
            Failure::Difference {
                file,
                line,
                input,
                expected,
                got,
            } => {
                writeln!(f, "{}:{line}: difference", file.display())?;
                writeln!(f, "  input:    {input}")?;
                writeln!(f, "  expected: {expected}")?;
                write!(f, "  got:      {got}")
            }
            Failure::Unusable { file, reason } => write!(f, "{}: {reason}", file.display()),
        }
    }
}

/// Files and output lines that agreed.
#[derive(Clone, Copy, Debug, Default, PartialEq, Eq)]
pub struct Summary {
    pub files: usize,
    pub lines: usize,
}

/// The parts of a folder, each with `trace`, `replay` or both: itself, and each folder in `requests`.
pub fn parts(folder: &Path) -> Vec<PathBuf> {
    let requests = Path::new("requests");
    let mut parts = vec![PathBuf::new()];
    for entry in fs::read_dir(folder.join(requests))
        .into_iter()
        .flatten()
        .flatten()
    {
        parts.push(requests.join(entry.file_name()));
    }
    parts.sort();
    parts
}

/// The request whose folder a file is in, by the path `requests/L/trace/NAME`; 0 for a file of document 01.
fn request_of(file: &Path) -> u32 {
    let folder = |above: usize| file.ancestors().nth(above)?.file_name()?.to_str();
    match folder(3) {
        Some("requests") => folder(2).and_then(|name| name.parse().ok()).unwrap_or(0),
        _ => 0,
    }
}

/// All `*.trace` of a folder, in the order of their names.
pub fn run_traces(store: &dyn Store, folder: &Path) -> Result<Summary, Failure> {
    let mut summary = Summary::default();
    for file in files_with_extension(folder, "trace")? {
        summary.lines += run_trace(store, &file)?;
        summary.files += 1;
    }
    Ok(summary)
}

/// All `*.in` of a folder, in the order of their names.
pub fn run_replays(store: &dyn Store, folder: &Path) -> Result<Summary, Failure> {
    let mut summary = Summary::default();
    for file in files_with_extension(folder, "in")? {
        summary.lines += run_replay(store, &file)?;
        summary.files += 1;
    }
    Ok(summary)
}

/// One trace, each line of output compared as soon as it is there.
pub fn run_trace(store: &dyn Store, file: &Path) -> Result<usize, Failure> {
    let script = text(file)?;
    let out_file = file.with_extension("out");
    let expected_text = text(&out_file)?;
    let mut expected = expected_text.lines();
    let mut runner = trace::Runner::new(store, request_of(file));
    let mut compared = 0;
    for (number, command) in script.lines().enumerate() {
        let answer = runner.command(command).map_err(|reason| Failure::Unusable {
            file: file.to_path_buf(),
            reason: format!("line {}: {reason}: {command}", number + 1),
        })?;
        let Some(got) = answer else { continue };
        let expected_line = expected.next();
        if expected_line != Some(got.as_str()) {
            return Err(Failure::Difference {
                file: out_file,
                line: compared + 1,
                input: format!("{command} (line {} of the script)", number + 1),
                expected: expected_line.unwrap_or("(end of file)").to_string(),
                got,
            });
        }
        compared += 1;
    }
    match expected.next() {
        None => Ok(compared),
        Some(line) => Err(Failure::Difference {
            file: out_file,
            line: compared + 1,
            input: "(end of the script)".to_string(),
            expected: line.to_string(),
            got: "(no more output)".to_string(),
        }),
    }
}

/// One input of the replay program: the output must be the same byte for byte.
pub fn run_replay(store: &dyn Store, file: &Path) -> Result<usize, Failure> {
    let input = bytes(file)?;
    let out_file = file.with_extension("out");
    let expected = bytes(&out_file)?;
    let got = replay::replay(store, &input, replay::LENT);
    if got == expected {
        return Ok(got.iter().filter(|&&byte| byte == b'\n').count());
    }
    // Line by line, line feeds included, so that a missing last one shows too.
    let mut inputs = input.split_inclusive(|&byte| byte == b'\n');
    let mut expected_lines = expected.split_inclusive(|&byte| byte == b'\n');
    let mut got_lines = got.split_inclusive(|&byte| byte == b'\n');
    let mut line = 0;
    loop {
        line += 1;
        let input_line = inputs.next();
        let (expected_line, got_line) = (expected_lines.next(), got_lines.next());
        if expected_line != got_line {
            return Err(Failure::Difference {
                file: out_file,
                line,
                input: shown(input_line),
                expected: shown(expected_line),
                got: shown(got_line),
            });
        }
    }
}

fn shown(line: Option<&[u8]>) -> String {
    match line {
        Some(bytes) => format!("\"{}\"", bytes.escape_ascii()),
        None => "(nothing)".to_string(),
    }
}

fn files_with_extension(folder: &Path, extension: &str) -> Result<Vec<PathBuf>, Failure> {
    let unusable = |reason: String| Failure::Unusable {
        file: folder.to_path_buf(),
        reason,
    };
    let entries = fs::read_dir(folder).map_err(|error| unusable(error.to_string()))?;
    let mut files = Vec::new();
    for entry in entries {
        let path = entry.map_err(|error| unusable(error.to_string()))?.path();
        if path.extension().is_some_and(|found| found == extension) {
            files.push(path);
        }
    }
    if files.is_empty() {
        return Err(unusable(format!("no file *.{extension}")));
    }
    files.sort();
    Ok(files)
}

fn bytes(file: &Path) -> Result<Vec<u8>, Failure> {
    fs::read(file).map_err(|error| Failure::Unusable {
        file: file.to_path_buf(),
        reason: error.to_string(),
    })
}

fn text(file: &Path) -> Result<String, Failure> {
    String::from_utf8(bytes(file)?).map_err(|error| Failure::Unusable {
        file: file.to_path_buf(),
        reason: error.to_string(),
    })
}
