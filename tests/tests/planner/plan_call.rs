//! The planner as compiled, called with its input on standard input.

use crate::run::run;
use std::path::Path;
use std::process::Output;

const PLANNER: &str = "target/cargo/release/planner";

/// What the planner does with these words and this input.
pub fn planner(words: &[&str], input: &[u8]) -> Output {
    let words: Vec<&Path> = words.iter().map(Path::new).collect();
    run(PLANNER, &words, input)
}

pub fn text_of(bytes: &[u8]) -> &str {
    std::str::from_utf8(bytes).expect("a text in UTF-8")
}

/// What it writes where all is well: status 0.
pub fn written(words: &[&str], input: &[u8]) -> Vec<u8> {
    let output = planner(words, input);
    let (status, errors) = (output.status.code(), text_of(&output.stderr));
    assert_eq!(status, Some(0), "planner {words:?}: {errors}on\n{}", String::from_utf8_lossy(input));
    output.stdout
}

/// What it says where it refuses: status 1, nothing written, and one line on standard error.
pub fn refusal(words: &[&str], input: &[u8]) -> String {
    let output = planner(words, input);
    let errors = text_of(&output.stderr);
    let about = format!("planner {words:?}: {errors}on\n{}", String::from_utf8_lossy(input));
    assert_eq!(output.status.code(), Some(1), "{about}");
    assert!(output.stdout.is_empty(), "{about}");
    assert_eq!(errors.lines().count(), 1, "{about}");
    errors.trim_end().to_string()
}

/// Says the planner this number at this line of its input, or at this byte.
pub fn says(said: &str, place: &str, number: u8) -> bool {
    let number = format!(" ({number})");
    said.starts_with(&format!("-:{place}: ")) && (said.ends_with(&number) || said.contains(&(number + ";")))
}
