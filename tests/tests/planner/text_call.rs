//! Calling the planner with a text, and reading what it says of it.

use crate::run::run;
use std::path::Path;

pub const PROGRAM: &str = "target/cargo/release/planner";

/// How a call ended, and what it wrote to standard output and to standard error.
pub struct Told {
    pub status: i32,
    pub out: Vec<u8>,
    pub err: String,
}

impl Told {
    /// Standard output as text.
    pub fn text(&self) -> &str {
        std::str::from_utf8(&self.out).expect("standard output is text")
    }

    pub fn last_line(&self) -> &str {
        self.text().lines().last().unwrap_or("")
    }
}

/// What the planner does with these arguments and this standard input. Whatever they are, it has to end by itself and in time, by
/// one of its three statuses, and without a panic.
pub fn planner(arguments: &[&str], input: impl AsRef<[u8]>) -> Told {
    let paths: Vec<&Path> = arguments.iter().map(Path::new).collect();
    let output = run(PROGRAM, &paths, input.as_ref());
    let err = String::from_utf8(output.stderr).expect("standard error is text");
    assert!(!err.contains("panicked"), "{arguments:?}: {}", err.chars().take(300).collect::<String>());
    let status = output.status.code().unwrap_or_else(|| panic!("{arguments:?}: {}", output.status));
    assert!((0..=2).contains(&status), "{arguments:?}: status {status}: {err}");
    Told { status, out: output.stdout, err }
}

/// The line and the words of an error about a line of standard input.
pub fn place(error: &str) -> (usize, &str) {
    let parts = error.strip_prefix("-:").and_then(|rest| rest.split_once(": "));
    let (line, words) = parts.unwrap_or_else(|| panic!("no file and line: {error}"));
    (line.parse().unwrap_or_else(|_| panic!("no line number: {error}")), words)
}

/// Document 01's number in an error: what stands in the first brackets that have digits alone.
pub fn number(words: &str) -> Option<u64> {
    words.split('(').skip(1).find_map(|rest| rest.split_once(')')?.0.parse().ok())
}
