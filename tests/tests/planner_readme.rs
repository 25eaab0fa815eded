//! README.md is what a planner goes by: every line of its notation is read, what it quotes is what is printed, and its first command runs
//! from a fresh copy.

#[path = "plans/run.rs"]
mod run;

use bench_tests::root;
use run::{outcome, printed, run};
use std::fs;
use std::os::unix::fs::PermissionsExt;
use std::path::{Path, PathBuf};
use std::process::{Command, Output};
use std::time::Duration;

const PLANNER: &str = "target/cargo/release/planner";

fn text_of(file: &str) -> String {
    fs::read_to_string(root().join(file)).unwrap_or_else(|error| panic!("{file}: {error}"))
}

fn text(bytes: &[u8]) -> String {
    String::from_utf8(bytes.to_vec()).expect("a text")
}

/// A part of README.md, from its heading to the next.
fn section(heading: &str) -> String {
    let readme = text_of("README.md");
    let start = readme.find(&format!("## {heading}\n")).unwrap_or_else(|| panic!("no part {heading}"));
    let part = &readme[start + 3..];
    part[..part.find("\n## ").unwrap_or(part.len())].to_string()
}

// ---- the notation

/// The lines in code in the first column of the table, and in the second those that begin like one.
fn lines_of_the_table() -> Vec<String> {
    let words = "bridges link view update send deliver repeat lose round cut restore report path why watch expect label";
    let words: Vec<&str> = words.split(' ').collect();
    let part = section("The notation");
    let rows = part.lines().skip_while(|line| !line.starts_with("| Line")).skip(2).take_while(|line| line.starts_with('|'));
    let codes = rows.flat_map(|row| row.split('`').skip(1).step_by(2)).map(str::to_string);
    let is_line = |code: &String| code.split(' ').next().is_some_and(|first| words.contains(&first));
    codes.filter(|code| is_line(code) && !code.contains("LINK")).collect()
}

/// A plan in which the line can stand.
fn plan_around(line: &str) -> String {
    let first = line.split(' ').next().expect("a word");
    let name = line.split(' ').nth(1).unwrap_or_default();
    let setup = [
        ("bridges", "", "bridges coreA coreB RAD ICU"),
        ("link", "radA", "link radA coreA RAD"),
        ("link", "core1", "link core1 coreA coreB"),
        ("link", "icuA", "link icuA coreA ICU"),
        ("view", "before", "view before radA=20 core1=10 icuA=10"),
        ("view", "during", "view during = before without radA"),
    ];
    let is_this = |kind: &str, named: &str| kind == first && (named == name || kind == "bridges");
    let mut lines: Vec<String> =
        setup.iter().filter(|(kind, named, _)| !is_this(kind, named)).map(|row| row.2.to_string()).collect();
    match first {
        "bridges" => lines.insert(0, line.to_string()),
        "link" => lines.insert(1, line.to_string()),
        "view" if name == "before" => {
            let at = lines.iter().position(|line| line.starts_with("view")).expect("a view");
            lines.insert(at, line.to_string());
        }
        "view" => lines.push(line.to_string()),
        _ => lines.extend(before(first).iter().chain(&[line]).map(ToString::to_string)),
    }
    lines.join("\n")
}

/// What makes the line one that is carried out and expected rightly.
fn before(first: &str) -> Vec<&'static str> {
    match first {
        "deliver" | "repeat" | "lose" => vec!["send coreA over radA"],
        "restore" => vec!["cut radA"],
        "expect" => vec!["round 2", "watch all"],
        _ => vec![],
    }
}

#[test]
fn every_line_of_the_notation_is_read() {
    let lines = lines_of_the_table();
    assert!(lines.len() >= 30, "only {} lines: {lines:?}", lines.len());
    for line in lines {
        let mut plan = plan_around(&line);
        if line.contains("stops") {
            // At coreA, whose own end of the way to RAD is down.
            plan = plan.replace("watch all", "cut coreA radA");
        }
        let output = run(PLANNER, &[Path::new("run"), Path::new("-")], plan.as_bytes());
        assert_eq!((output.status.code(), text(&output.stderr)), (Some(0), String::new()), "{line}\n{plan}");
    }
}

// ---- what is quoted

/// The blocks of code in a part, each as its lines without the indent.
fn blocks(part: &str) -> Vec<Vec<String>> {
    let mut all: Vec<Vec<String>> = vec![Vec::new()];
    for line in part.lines() {
        match line.strip_prefix("    ") {
            Some(code) => all.last_mut().expect("a block").push(code.to_string()),
            None => all.push(Vec::new()),
        }
    }
    all.retain(|block| !block.is_empty());
    all
}

/// The lines stand in the output in this order; `..` stands for any others.
fn stands_in(block: &[String], output: &str) {
    let mut lines = output.lines();
    for quoted in block.iter().filter(|line| *line != "..") {
        assert!(lines.any(|line| line.trim_end() == quoted.trim_end()), "not in the output, or not there: {quoted}");
    }
}

#[test]
fn what_the_readme_quotes_is_printed() {
    let blocks = blocks(&section("A first rehearsal"));
    let block =
        |start: &str| blocks.iter().find(|block| block[0].starts_with(start)).unwrap_or_else(|| panic!("no block {start}"));
    stands_in(block("\"the trunk is pulled\""), &text_of("plans/hospital.run"));
    let plans = ["plans/hospital.txt", "plans/hospital_in_steps.txt"];
    let arguments = [Path::new("compare"), Path::new(plans[0]), Path::new(plans[1])];
    let mut command = Command::new(root().join(PLANNER));
    let compared = outcome(command.args(arguments).current_dir(root()), b"", Duration::from_secs(30)).expect("in time");
    stands_in(block("                              plans/hospital.txt"), &text(&compared.stdout));
}

// ---- the one command

/// Names of the crates that the library is made of, the lowest first.
const CRATES: [&str; 8] = ["distances", "agreement", "encoding", "protocol", "bench", "messages", "plan", "exports_network"];

/// A copy of what the command needs. It stands outside the checkout, where the gate's next run would take it for more crates, and goes when
/// its test ends.
struct Fresh(PathBuf);

impl Drop for Fresh {
    fn drop(&mut self) {
        let _ = fs::remove_dir_all(&self.0);
    }
}

/// A copy where a stand-in for `rt` says what it would and then does this.
fn fresh_copy(name: &str, then: &str) -> Fresh {
    let top = std::env::temp_dir().join(format!("bridge-bench-{}-{name}", std::process::id()));
    let _ = fs::remove_dir_all(&top);
    for folder in CRATES.map(|name| format!("crates/{name}")).iter().map(String::as_str).chain(["scripts", "bin"]) {
        fs::create_dir_all(top.join(folder)).expect("a folder");
    }
    for file in ["crates.txt", "scripts/planner", "scripts/build"] {
        fs::copy(root().join(file), top.join(file)).expect("a copy");
    }
    let planner = Command::new("cp").arg("-r").arg(root().join("planner")).arg(&top).status().expect("it starts");
    assert!(planner.success());
    let proved = CRATES.iter().map(|name| format!("yes noise | head -n 300; echo 'crate {name}: modules'; echo 'logic=proved functions=7'\n"));
    let script = format!("#!/bin/sh\n{}{then}\n", proved.collect::<String>());
    fs::write(top.join("bin/rt"), script).expect("a script");
    fs::set_permissions(top.join("bin/rt"), fs::Permissions::from_mode(0o755)).expect("a script that runs");
    Fresh(top)
}

/// The command in that copy, from another folder.
fn in_copy(Fresh(top): &Fresh) -> Output {
    let path = format!("{}:{}", top.join("bin").display(), std::env::var("PATH").expect("a path"));
    let mut command = Command::new(top.join("scripts/planner"));
    command.args(["run", "plans/hospital.txt"]).current_dir(root()).env("PATH", path);
    outcome(&mut command, b"", Duration::from_secs(120)).expect("in time")
}

#[test]
fn the_one_command() {
    let archive = root().join("target/staticlib/libexports_network.a");
    let then = format!("mkdir -p out && cp '{}' out/", archive.display());
    let top = fresh_copy("fresh", &then);
    let first = in_copy(&top);
    assert_eq!(text(&first.stdout), text_of("plans/hospital.run"), "{}", text(&first.stderr));
    let told = text(&first.stderr);
    let told: Vec<&str> = told.lines().filter(|line| line.ends_with(" proved")).collect();
    assert_eq!(told, CRATES.map(|name| format!("planner: {name} proved")));
    assert!(text(&first.stderr).lines().count() < 20, "{}", text(&first.stderr));
    // Nothing changed: it starts at once. A change: it is proved again.
    let second = in_copy(&top);
    assert_eq!((text(&second.stdout), text(&second.stderr)), (text_of("plans/hospital.run"), String::new()));
    std::thread::sleep(Duration::from_millis(20));
    fs::write(top.0.join("crates/bench/more"), "").expect("a change");
    assert!(text(&in_copy(&top).stderr).contains("bench proved"));
}

/// A library that is not proved is not used: the last lines say why, and the status is 2.
#[test]
fn a_library_that_is_not_proved() {
    let output = in_copy(&fresh_copy("unproved", "echo 'rt: exports_network is NOT proved'; exit 1"));
    assert_eq!((output.status.code(), text(&output.stdout)), (Some(2), String::new()));
    assert!(text(&output.stderr).contains("exports_network is NOT proved\nplanner: the library could not be proved\n"));
}

/// Both programs are there for what README.md says of plans in bytes.
#[test]
fn the_plan_in_bytes_is_rehearsed() {
    let plan = printed(PLANNER, &[Path::new("bytes"), &root().join("plans/hospital.txt")], b"");
    let reports = text(&printed("target/bin/rehearse", &[], &plan));
    assert!(reports.starts_with("path 4 5 stops 0 1\ndest 5\n"), "{reports}");
    assert!(reports.ends_with("\nend 473\n"));
}
