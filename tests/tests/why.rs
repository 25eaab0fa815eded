//! Why ports are shut, where a planner reads of it. The programs in examples/ that ask, in C and in Rust: each is compiled against the proved
//! library as README.md says, and prints examples/why.out. And plans/one_connector.md, which tells the reasons at each of its reports.

use bench_tests::model::Call;
use bench_tests::network_random::map_of;
use bench_tests::network_run::Run;
use bench_tests::plan_bytes::{field, first_event};
use bench_tests::random::Random;
use bench_tests::root;
use bench_tests::verdict::Verdict;
use std::path::Path;
use std::process::Command;

/// Compiles a program by the command and runs it.
fn printed(compiler: &mut Command, program: &Path) -> String {
    let compiled = compiler.arg("-o").arg(program).output().expect("the compiler starts");
    assert!(compiled.status.success(), "{}", String::from_utf8_lossy(&compiled.stderr));
    let ran = Command::new(program).output().expect("the program starts");
    assert!(ran.status.success(), "{:?}", ran.status);
    String::from_utf8(ran.stdout).expect("it prints text")
}

fn text_of(file: &str) -> String {
    std::fs::read_to_string(root().join(file)).unwrap_or_else(|error| panic!("{file}: {error}"))
}

fn expected() -> String {
    text_of("examples/why.out")
}

fn folder() -> &'static Path {
    Path::new(env!("CARGO_TARGET_TMPDIR"))
}

#[test]
fn in_c() {
    let mut cc = Command::new("cc");
    cc.args(["-Wall", "-Wextra", "-Werror"]).arg(root().join("examples/why.c"));
    cc.arg(root().join("target/staticlib/libexports_network.a"));
    assert_eq!(printed(&mut cc, &folder().join("why_c")), expected());
}

#[test]
fn in_rust() {
    let mut rustc = Command::new("rustc");
    rustc.args(["--edition", "2021", "-D", "warnings"]).arg(root().join("examples/why.rs"));
    rustc.arg("-L").arg(root().join("target/staticlib")).args(["-l", "static=exports_network"]);
    assert_eq!(printed(&mut rustc, &folder().join("why_rust")), expected());
}

/// README.md shows what they print, and their call word for word.
#[test]
fn in_the_readme() {
    let readme = text_of("README.md");
    let shown: String = expected().lines().map(|line| format!("    {line}\n")).collect();
    assert!(readme.contains(&shown));
    let [c, rust] = ["bench_net_verdict(bench, 420,", "bench_net_verdict(bench.as_ptr(), 420,"];
    for (program, call) in [("examples/why.c", c), ("examples/why.rs", rust)] {
        let line = readme.lines().find(|line| line.contains(call)).expect("README.md has the call").trim();
        assert!(text_of(program).lines().any(|own| own.trim() == line), "{program} has not {line}");
    }
}

/// The network of plans/one_connector.plan: its bridges, links and views.
const BRIDGES: u8 = 4;
const LINKS: [[u8; 2]; 4] = [[0, 1], [0, 2], [2, 1], [1, 3]];
const VIEWS: [[u32; 4]; 2] = [[10, 20, 20, 10], [0, 20, 20, 10]];

fn one_connector() -> Run {
    let map = map_of(BRIDGES.into(), &LINKS, &VIEWS.map(Vec::from));
    Run::fresh(&mut Random::new(11), &map).expect("a fresh network")
}

/// The bytes that set it up.
fn setup() -> Vec<u8> {
    let links = LINKS.map(|ends| field(2, &ends)).concat();
    let views = VIEWS.map(|costs| field(3, &costs.map(u32::to_be_bytes).concat())).concat();
    [field(1, &[BRIDGES]), links, views].concat()
}

/// The events of the plan, and at each report what is named of every bridge for its destination.
fn named_at_reports(run: &mut Run, mut events: &[u8]) -> Vec<Vec<Verdict>> {
    let mut named = Vec::new();
    while let Some((call, used)) = first_event(events) {
        run.make(call);
        if let Call::Report(dest) = call {
            named.push(run.named(dest));
        }
        events = &events[used..];
    }
    assert!(events.is_empty(), "{} bytes that are no event", events.len());
    named
}

/// plans/one_connector.md, worked out by hand from document 01's rule: every `-` of its reports.
#[test]
fn in_a_plan() {
    let plan = std::fs::read(root().join("plans/one_connector.plan")).expect("the plan is there");
    let events = plan.strip_prefix(&setup()[..]).expect("the plan begins with this network");
    let destination = (1, None);
    let by = |case, link| (case, Some(link));
    let settled = vec![destination, by(0, 0), by(0, 1), by(0, 3)];
    let expected = [
        settled.clone(),
        settled.clone(),
        vec![by(3, 0), by(0, 3), by(0, 2), destination],
        vec![destination, by(3, 0), by(0, 1), by(0, 3)],
        vec![destination, by(5, 2), by(0, 1), by(0, 3)],
        vec![destination, by(6, 2), by(0, 1), by(0, 3)],
        vec![destination, by(0, 2), by(0, 1), by(0, 3)],
        vec![destination, by(0, 0), by(0, 1), by(5, 3)],
        settled,
    ];
    assert_eq!(named_at_reports(&mut one_connector(), events), expected);
}
