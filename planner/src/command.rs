//! The commands: what is read, what is written where, and the exit status.

use crate::layout::{compare, json, print};
use crate::notation::fault::{shown, Fault};
use crate::notation::item::Plan;
use crate::notation::parse::{parse, MOST_FAULTS};
use crate::rehearsal::run::run;
use crate::rehearsal::story::{count as told_count, Story};
use crate::translate;
use std::ffi::OsString;
use std::fs::File;
use std::io::{self, Read, Write};

/// Carried out with every expectation met; refused, wrong text or an expectation not met; cannot read or write, or no such command.
const GOOD: u8 = 0;
const BAD: u8 = 1;
const CANNOT: u8 = 2;

/// The most bytes of a file that are read: far more than any plan has.
const MOST: u64 = 64 << 20;

/// The most errors of a file that are told.
const TOLD: usize = 20;

const HELP: &str = "\
planner: rehearses changes to a bridged network, from a plan as text

  planner run FILE          carries the plan out: reports, paths, which watched pairs lose their path and when
  planner run --json FILE   the same as one object in JSON
  planner compare A B       two plans side by side: pairs lost, longest outage, events
  planner bytes FILE        the plan in bytes, for rehearse, on standard output
  planner text FILE         a plan in bytes as text
  planner --help            this text

FILE may be - for standard input. README.md has the notation.
Exit status: 0 carried out and every expectation met; 1 refused, wrong text or an expectation not met;
2 cannot read or write, or no such command.
";

pub fn command(arguments: &[OsString]) -> u8 {
    let words: Vec<String> = arguments.iter().map(|word| word.to_string_lossy().into_owned()).collect();
    let words: Vec<&str> = words.iter().map(String::as_str).collect();
    let result = match words[..] {
        ["--help" | "-h" | "help"] => write(HELP.as_bytes()).map(|()| GOOD),
        ["run", "--json", _] => run_json(&arguments[2]),
        ["run", file] if file != "--json" => run_text(&arguments[1]),
        ["compare", "-", "-"] => return misused("compare can read standard input once only"),
        ["compare", _, _] => compare_both(&arguments[1], &arguments[2]),
        ["bytes", _] => bytes(&arguments[1]),
        ["text", _] => text(&arguments[1]),
        [] => return misused("no command"),
        ["compare", ..] => return misused("compare takes two files"),
        [known @ ("run" | "bytes" | "text"), ..] => return misused(&format!("{known} takes one file")),
        [other, ..] => return misused(&format!("no such command: {}", shown(other))),
    };
    result.unwrap_or_else(|error| {
        tell(&format!("planner: {error}\n"));
        CANNOT
    })
}

/// A command that there is not.
fn misused(said: &str) -> u8 {
    tell(&format!("planner: {said}\n\n{HELP}"));
    CANNOT
}

// ---- reading and writing

/// On standard error; if that cannot be written, nobody is there to be told.
fn tell(words: &str) {
    let _ = io::stderr().write_all(words.as_bytes());
}

fn name(file: &OsString) -> String {
    file.to_string_lossy().into_owned()
}

/// A file's bytes. An error says why there are none.
fn read(file: &OsString) -> Result<Vec<u8>, String> {
    let mut bytes = Vec::new();
    let read = if file == "-" {
        io::stdin().take(MOST + 1).read_to_end(&mut bytes)
    } else {
        File::open(file).and_then(|opened| opened.take(MOST + 1).read_to_end(&mut bytes))
    };
    match read {
        Err(error) => Err(format!("cannot read {}: {error}", name(file))),
        Ok(length) if length as u64 > MOST => {
            Err(format!("cannot read {}: it has more than {MOST} bytes, and no plan has", name(file)))
        }
        Ok(_) => Ok(bytes),
    }
}

fn write(bytes: &[u8]) -> Result<(), String> {
    let mut out = io::stdout().lock();
    out.write_all(bytes).and_then(|()| out.flush()).map_err(|error| format!("cannot write standard output: {error}"))
}

// ---- the commands

/// What is wrong with a file, as far as it is told.
fn tell_faults(file: &str, faults: &[Fault]) {
    for fault in faults.iter().take(TOLD) {
        tell(&format!("{}\n", fault.in_file(file)));
    }
    if faults.len() > TOLD {
        let least = if faults.len() == MOST_FAULTS { "at least " } else { "" };
        tell(&format!("{file}: and {least}{} more errors\n", faults.len() - TOLD));
    }
}

fn status(story: &Story) -> u8 {
    if story.is_good() {
        GOOD
    } else {
        BAD
    }
}

/// A plan read and carried out; nothing where its text is wrong, which is then told.
fn carried_out(file: &OsString, watch_all: bool) -> Result<Result<(Plan, Story), Vec<Fault>>, String> {
    let bytes = read(file)?;
    let outcome = parse(&bytes).map(|plan| {
        let story = run(&plan, watch_all);
        (plan, story)
    });
    if let Err(faults) = &outcome {
        tell_faults(&name(file), faults);
    }
    Ok(outcome)
}

fn run_text(file: &OsString) -> Result<u8, String> {
    let Ok((plan, story)) = carried_out(file, false)? else { return Ok(BAD) };
    write(print::text(&name(file), &plan, &story).as_bytes())?;
    // Last, so that it is not lost above a long output.
    tell_faults(&name(file), story.refused.as_slice());
    Ok(status(&story))
}

fn run_json(file: &OsString) -> Result<u8, String> {
    match carried_out(file, false)? {
        Ok((plan, story)) => {
            write(json::story(&name(file), &plan, &story).as_bytes())?;
            tell_faults(&name(file), story.refused.as_slice());
            Ok(status(&story))
        }
        Err(faults) => write(json::faults(&name(file), &faults).as_bytes()).map(|()| BAD),
    }
}

fn compare_both(one: &OsString, other: &OsString) -> Result<u8, String> {
    let [one_name, other_name] = [name(one), name(other)];
    let (Ok(one), Ok(other)) = (carried_out(one, true)?, carried_out(other, true)?) else { return Ok(BAD) };
    let columns = [(one_name.as_str(), &one.0.setup, &one.1), (other_name.as_str(), &other.0.setup, &other.1)];
    write(compare::text(columns[0], columns[1]).as_bytes())?;
    [(&one_name, &one.1), (&other_name, &other.1)]
        .into_iter()
        .for_each(|(name, story)| tell_faults(name, story.refused.as_slice()));
    Ok(status(&one.1).max(status(&other.1)))
}

fn bytes(file: &OsString) -> Result<u8, String> {
    let Ok((plan, story)) = carried_out(file, false)? else { return Ok(BAD) };
    if story.refused.is_some() {
        tell_faults(&name(file), story.refused.as_slice());
        return Ok(BAD);
    }
    let bytes = match translate::bytes(&plan, &story) {
        Ok(bytes) => bytes,
        Err(why) => {
            tell(&format!("{}: {why}\n", name(file)));
            return Ok(BAD);
        }
    };
    write(&bytes)?;
    tell_left_out(&name(file), &plan);
    Ok(GOOD)
}

/// Lines that plans in bytes do not have.
fn tell_left_out(file: &str, plan: &Plan) {
    let mut words: Vec<&str> = plan.lines.iter().filter_map(|line| line.item.without_bytes()).collect();
    let count = words.len();
    words.sort_unstable();
    words.dedup();
    if count > 0 {
        tell(&format!(
            "{file}: {} left out, which plans in bytes do not have: {}\n",
            told_count(count, "line"),
            words.join(", ")
        ));
    }
}

fn text(file: &OsString) -> Result<u8, String> {
    match translate::text(&read(file)?) {
        Ok(text) => write(text.as_bytes()).map(|()| GOOD),
        Err(why) => {
            tell(&format!("{}: {why}\n", name(file)));
            Ok(BAD)
        }
    }
}
