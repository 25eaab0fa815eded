//! The program that plans are rehearsed with, as compiled, against document 01 and against another implementation of it
//! (reference/), which is built before these tests. A plan on which the two differ is kept in target/failed/.

#[path = "plans/make.rs"]
mod make;
#[path = "plans/run.rs"]
mod run;
#[path = "plans/spoil.rs"]
mod spoil;

use bench_tests::plan_bytes::LONGEST;
use bench_tests::random::Random;
use bench_tests::root;
use run::{outcome, printed, run};
use std::collections::BTreeMap;
use std::fs;
use std::path::{Path, PathBuf};
use std::process::Command;
use std::time::{Duration, Instant};

fn text(bytes: Vec<u8>) -> String {
    String::from_utf8(bytes).expect("a text")
}

fn rehearse(plan: &[u8]) -> String {
    text(printed("target/bin/rehearse", &[], plan))
}

fn reference(plan: &[u8]) -> String {
    text(printed("target/cargo/release/reference", &[], plan))
}

const PLAN_SCRIPT: &str = "scripts/plan";

/// The bytes of a readable plan, by the script that planners use.
fn bytes_of_file(file: &Path) -> Vec<u8> {
    printed(PLAN_SCRIPT, &[file], b"")
}

/// The same for a text.
fn bytes_of(hex: &str) -> Vec<u8> {
    printed(PLAN_SCRIPT, &[Path::new("/dev/stdin")], hex.as_bytes())
}

/// The files of a folder with this ending, by name without it.
fn files(folder: &str, ending: &str) -> BTreeMap<String, PathBuf> {
    let folder = root().join(folder);
    let entries = fs::read_dir(&folder).unwrap_or_else(|error| panic!("{}: {error}", folder.display()));
    entries
        .map(|entry| entry.expect("a readable folder").path())
        .filter(|path| path.extension().is_some_and(|e| e == ending))
        .map(|path| (path.file_stem().expect("a name").to_string_lossy().into_owned(), path))
        .collect()
}

fn text_of(path: &Path) -> String {
    fs::read_to_string(path).unwrap_or_else(|error| panic!("{}: {error}", path.display()))
}

/// The readable plans: those of plans/cases, and the examples in plans/.
fn readable_plans() -> BTreeMap<String, PathBuf> {
    let mut plans = files("plans/cases", "hex");
    plans.extend(files("plans", "hex"));
    plans
}

/// The output that document 01 asks for, as it stands beside a readable plan: in a file of its own, or for an example in the
/// last block of its comment.
fn known_output(plan: &Path) -> String {
    let output = plan.with_extension("out");
    if output.exists() {
        return text_of(&output);
    }
    let comment = text_of(&plan.with_extension("md"));
    comment.rsplit("```\n").nth(1).expect("a block of output").to_string()
}

// ---- plans with known outputs

/// Document 01's plan and output, as it has them.
#[test]
fn the_plan_of_document_01() {
    let plan = bytes_of("01 0001 02  02 0002 00 01  03 0004 00000005  0B 0001 00  05 0002 00 00  06 0001 00  0B 0001 00");
    assert_eq!(rehearse(&plan), "dest 0\n0 0 -\n1 5 -\ndest 0\n0 0 -\n1 5 0\nend 4\n");
}

/// The program and the reference are held to the output that stands beside each readable plan.
#[test]
fn known_plans() {
    let plans = readable_plans();
    assert!(plans.len() >= 50, "only {} plans", plans.len());
    for (name, path) in &plans {
        let plan = bytes_of_file(path);
        let expected = known_output(path);
        assert_eq!(reference(&plan), expected, "the reference on {name}");
        assert_eq!(rehearse(&plan), expected, "{name}");
    }
}

/// Every number that a plan can be refused with. 16 and 17 cannot be reached: no plan is long enough for 65,534 updates, and the
/// program lends what is needed.
fn refusals_of_plans() -> impl Iterator<Item = usize> {
    (1..=15).chain([18])
}

/// Every number that a plan can be refused with has a known plan.
#[test]
fn known_plans_meet_every_refusal() {
    let last_lines: Vec<String> =
        files("plans/cases", "out").values().map(|path| text_of(path).lines().last().unwrap_or("").to_string()).collect();
    for number in refusals_of_plans() {
        let start = format!("refused {number} at ");
        assert!(last_lines.iter().any(|line| line.starts_with(&start)), "no known plan is refused with {number}");
    }
    assert!(last_lines.iter().any(|line| line.starts_with("end ")));
}

/// The plans that crates/replay is run on are the readable ones. Its stdout, which it is held to, has their names and their
/// known outputs in the order in which it runs them: the order of their names in its source.
#[test]
fn replayed_plans_are_the_readable_ones() {
    let readable = readable_plans();
    let replayed = files("crates/replay/data", "plan");
    assert!(replayed.keys().eq(readable.keys()), "crates/replay/data has other plans than plans/");
    for (name, path) in &replayed {
        assert!(fs::read(path).expect("a plan") == bytes_of_file(&readable[name]), "{name}: run scripts/plan again");
    }
    let source = text_of(&root().join("crates/replay/src/main.rt"));
    let run = source.lines().filter_map(|line| line.trim().strip_prefix("replay(\"")?.strip_suffix(".plan\");"));
    let mut run: Vec<&str> = run.collect();
    let expected: String = run.iter().map(|&name| format!("{name}.plan\n{}", known_output(&readable[name]))).collect();
    assert_eq!(text_of(&root().join("crates/replay/stdout")), expected);
    run.sort_unstable();
    assert!(run.iter().eq(readable.keys()), "crates/replay does not run each plan once");
}

/// The binary example plans are the readable ones, whatever their line ends.
#[test]
fn example_plans() {
    let plans = files("plans", "plan");
    assert!(plans.len() >= 3);
    for (name, path) in plans {
        let plan = fs::read(&path).expect("a plan");
        let readable = path.with_extension("hex");
        assert!(plan == bytes_of_file(&readable), "{name}: run scripts/plan again");
        assert!(plan == bytes_of(&text_of(&readable).replace('\n', "\r\n")), "{name} with other line ends");
    }
}

/// The longest plan is carried out, and one byte more is refused before anything is printed.
#[test]
fn the_longest_plan() {
    let reports = (LONGEST - 16) / 4;
    let plan = bytes_of(&format!("01 0001 02  02 0002 00 01  03 0004 00000005  0B000100*{reports}"));
    assert_eq!(plan.len(), LONGEST);
    let expected = "dest 0\n0 0 -\n1 5 -\n".repeat(reports) + &format!("end {reports}\n");
    assert!(rehearse(&plan) == expected);
    for more in [1, 2, 4, 100, 100_000] {
        let longer = [&plan[..], &vec![11; more]].concat();
        assert_eq!(rehearse(&longer), "refused 18 at 61440\n", "{more} bytes more");
        assert_eq!(reference(&longer), "refused 18 at 61440\n", "{more} bytes more");
    }
    assert_eq!(rehearse(&vec![255; LONGEST]), "refused 2 at 0\n");
}

// ---- random plans

/// What random plans have to meet often enough, read off the outputs.
#[derive(Default)]
struct Met(BTreeMap<String, usize>);

impl Met {
    fn note(&mut self, what: &str) {
        *self.0.entry(what.to_string()).or_default() += 1;
    }

    fn look(&mut self, output: &str) {
        for line in output.lines() {
            let words: Vec<&str> = line.split(' ').collect();
            match words[..] {
                ["path", _, _, "delivered", hops] => self.note(if hops == "0" || hops == "1" { "short way" } else { "long way" }),
                ["path", .., hops] => self.note(if hops == "0" { "stop at once" } else { "stop on the way" }),
                [_, _, "-"] => self.note("shut port"),
                [_, _, _] => self.note("open port"),
                ["refused", number, "at", _] => self.note(&format!("refused {number}")),
                ["end", _] => self.note("end"),
                _ => {}
            }
        }
    }

    /// The same of a plan that reports and paths to each bridge conclude: a path that stops at a bridge with a port has its frame die.
    fn look_at_sensible(&mut self, output: &str) {
        self.look(output);
        let mut lines: Vec<Vec<&str>> = output.lines().map(|line| line.split(' ').collect()).collect();
        if lines.pop().is_some_and(|last| last[0] != "end") {
            return;
        }
        let bridges = lines.iter().rev().skip(1).take_while(|words| words[0] != "dest").count();
        for report in lines.rchunks(bridges + 2).take(bridges) {
            if let ["path", _, _, "stops", last, _] = report[bridges + 1][..] {
                let row = &report[1 + last.parse::<usize>().expect("a bridge")];
                self.note(if row[2] == "-" { "stop without a port" } else { "frame that dies" });
            }
        }
    }

    fn has(&self, what: &str, least: usize) {
        let count = self.0.get(what).copied().unwrap_or(0);
        assert!(count >= least, "{what}: only {count} times\n{:?}", self.0);
    }
}

/// Both programs on so many plans from these seeds.
fn compare(first_seed: u64, plans: u64, make: fn(&mut Random) -> Vec<u8>, look: fn(&mut Met, &str)) -> Met {
    let mut met = Met::default();
    for seed in first_seed..first_seed + plans {
        let plan = make(&mut Random::new(seed));
        let [found, expected] = [rehearse(&plan), reference(&plan)];
        if found != expected {
            let folder = root().join("target/failed");
            fs::create_dir_all(&folder).expect("a folder for the plan");
            let path = folder.join(format!("{seed}.plan"));
            fs::write(&path, &plan).expect("the plan is kept");
            let line = found.lines().zip(expected.lines()).take_while(|(a, b)| a == b).count();
            let [a, b] = [&found, &expected].map(|text| text.lines().nth(line).unwrap_or("nothing").to_string());
            panic!("seed {seed}, line {}: {a}, and by the reference {b}; the plan is {}", line + 1, path.display());
        }
        look(&mut met, &expected);
    }
    met
}

#[test]
fn sensible_plans() {
    let met = compare(1_000_000, 1_500, make::sensible, Met::look_at_sensible);
    for what in ["open port", "shut port", "short way", "stop at once"] {
        met.has(what, 2_000);
    }
    for what in ["long way", "stop on the way", "stop without a port", "end"] {
        met.has(what, 500);
    }
    met.has("frame that dies", 100);
    for number in [10, 11, 12, 13, 14, 15] {
        met.has(&format!("refused {number}"), 10);
    }
}

#[test]
fn damaged_plans() {
    let met = compare(2_000_000, 2_200, spoil::damaged, Met::look);
    met.has("open port", 2_000);
    met.has("end", 200);
    for number in refusals_of_plans() {
        met.has(&format!("refused {number}"), 10);
    }
}

#[test]
fn arbitrary_plans() {
    let met = compare(3_000_000, 2_000, spoil::arbitrary, Met::look);
    for what in ["open port", "shut port"] {
        met.has(what, 5_000);
    }
    for what in ["short way", "stop at once"] {
        met.has(what, 500);
    }
    met.has("long way", 200);
    met.has("end", 200);
    met.has("stop on the way", 50);
    for number in [1, 2, 3, 4, 10, 11, 12, 13, 14, 15, 18] {
        met.has(&format!("refused {number}"), 20);
    }
}

// ---- the planner's script

/// Readable plans are read as they are meant.
#[test]
fn readable_plans_are_read() {
    for end in ["\n", "\r\n"] {
        assert_eq!(bytes_of(&["0B 0001 00 # report", "# 05", "", "\tfF", ""].join(end)), [11, 0, 1, 0, 255]);
    }
    assert_eq!(bytes_of("0A*3 0102*2 07*0 FF*010"), [&[10, 10, 10, 1, 2, 1, 2][..], &[255; 10]].concat());
    assert_eq!(bytes_of("# nothing"), []);
    let every: Vec<u8> = (0..=255).collect();
    assert_eq!(bytes_of(&every.iter().map(|byte| format!("{byte:02x} ")).collect::<String>()), every);
}

/// A word that a readable plan does not have is named. Then nothing is written, and the status is 1.
#[test]
fn unreadable_plans_are_refused() {
    for word in ["0", "012", "0g", "0x01", "\\x01", "%d", "*", "*3", "01*", "01*x", "01*-1", "01*2*3", "01*100000"] {
        let output = run(PLAN_SCRIPT, &[Path::new("/dev/stdin")], format!("01 {word} 02").as_bytes());
        assert_eq!(output.status.code(), Some(1), "{word}");
        assert!(output.stdout.is_empty(), "{word}");
        assert!(text(output.stderr).contains(&format!(" {word} ")), "{word}");
    }
}

// ---- the tests themselves

/// A program that neither reads its input nor ends is ended, and so is one that has closed its output.
#[test]
fn programs_are_ended_in_time() {
    let patience = Duration::from_millis(300);
    for hang in ["exec sleep 600", "exec sleep 600 >&- 2>&-", "exec sleep 600 <&-"] {
        let start = Instant::now();
        let output = outcome(Command::new("sh").args(["-c", hang]), &vec![0; 1_000_000], patience);
        assert!(output.is_none(), "{hang}");
        assert!((patience..Duration::from_secs(60)).contains(&start.elapsed()), "{hang}");
    }
}
