//! How the program reads and writes: an input that cannot be read, an output that cannot be written, a plan that comes in pieces. A
//! shell sets the program's input and output up. The program's exit status is 0 all the same, so a line on standard error is what tells.

#[path = "plans/run.rs"]
mod run;

use bench_tests::plan_bytes::{field, LONGEST};
use bench_tests::root;
use run::{outcome, printed};
use std::io::Write;
use std::os::fd::OwnedFd;
use std::os::unix::net::UnixStream;
use std::process::Command;
use std::time::Duration;

const PROGRAM: &str = "target/bin/rehearse";
const UNREAD: &str = "rehearse: the plan could not be read\n";
const UNWRITTEN: &str = "rehearse: the output could not be written\n";

fn text(bytes: Vec<u8>) -> String {
    String::from_utf8(bytes).expect("a text")
}

/// Two bridges, one link, and reports up to the length of the longest plan. They print more than a pipe holds.
fn longest() -> Vec<u8> {
    let setup = [field(1, &[2]), field(2, &[0, 1]), field(3, &[0, 0, 0, 5])].concat();
    let report = field(11, &[0]);
    let reports = report.repeat((LONGEST - setup.len()) / report.len());
    [setup, reports].concat()
}

/// What the program has to print for a plan.
fn expected(plan: &[u8]) -> String {
    text(printed("target/cargo/release/reference", &[], plan))
}

/// What it has to print for the longest.
fn whole() -> String {
    expected(&longest())
}

/// A plan below 4,096 bytes that one read has whole is carried out where it was read. Lengths on both sides of that.
const AROUND_SHORT: [usize; 6] = [16, 100, 4_095, 4_096, 4_097, 9_000];

/// What a script that is handed the program as $0 and the name of a file as $1 writes to standard output and to standard error.
fn shell(script: &str, plan: &[u8]) -> [String; 2] {
    let mut command = Command::new("sh");
    command.args(["-c", script]).arg(root().join(PROGRAM)).arg(concat!(env!("CARGO_TARGET_TMPDIR"), "/output"));
    let output = outcome(&mut command, plan, Duration::from_secs(30)).unwrap_or_else(|| panic!("not in time: {script}"));
    [output.stdout, output.stderr].map(text)
}

/// Standard input is closed; it is a folder.
#[test]
fn an_input_that_cannot_be_read() {
    for script in [r#"exec "$0" <&-"#, r#"exec "$0" </"#] {
        assert_eq!(shell(script, &[]), ["", UNREAD], "{script}");
    }
}

/// A plan comes, and then no end of the input but a read that fails. Nothing is printed.
#[test]
fn an_input_that_breaks_off() {
    for length in AROUND_SHORT {
        let (mut here, there) = UnixStream::pair().expect("two ends");
        here.write_all(&longest()[..length]).expect("a plan fits");
        there.set_nonblocking(true).expect("a read without a byte to come fails");
        let mut command = Command::new("timeout");
        let output = command.arg("30").arg(root().join(PROGRAM)).stdin(OwnedFd::from(there)).output().expect("it starts");
        assert_eq!([output.stdout, output.stderr].map(text), ["", UNREAD], "{length} bytes");
        drop(here);
    }
}

/// Standard output is a full device; it is closed.
#[test]
fn an_output_that_cannot_be_written() {
    for script in [r#"exec "$0" >/dev/full"#, r#"exec "$0" >&-"#] {
        for plan in [longest(), vec![0; LONGEST + 1]] {
            assert_eq!(shell(script, &plan), ["", UNWRITTEN], "{script}");
        }
    }
}

/// A write fails later on. What was written before it stands.
#[test]
fn an_output_that_is_cut_short() {
    let [begun, told] = shell(r#"trap "" XFSZ; ulimit -f 100; "$0" >"$1"; cat "$1""#, &longest());
    assert_eq!(told, UNWRITTEN);
    let whole = whole();
    assert!(!begun.is_empty() && begun.len() < whole.len() && whole.starts_with(&begun));
}

/// Whoever read the output is gone. A program in Rattle ignores the signal 13 that the system sends then, so a write fails, whether whoever
/// started it ignored the signal too or not.
#[test]
fn a_reader_that_goes_away() {
    for setting in ["", r#"trap "" PIPE;"#] {
        let script = format!(r#"{{ {setting} "$0"; echo "status $?" >&2; }} | :"#);
        assert_eq!(shell(&script, &longest()), ["", format!("{UNWRITTEN}status 0\n").as_str()], "{script}");
    }
}

/// A plan of 61,440 bytes is carried out and one of 61,441 refused, though no read has the whole.
#[test]
fn a_plan_in_pieces() {
    let pieces = r#"{ head -c 5; sleep 0.1; head -c 40000; sleep 0.1; cat; } | exec "$0""#;
    assert_eq!(longest().len(), 61_440);
    assert!(shell(pieces, &longest()) == [whole(), String::new()]);
    assert_eq!(shell(pieces, &[longest(), vec![11]].concat()), ["refused 18 at 61440\n", ""]);
}

/// A short plan prints the same whether one read has it whole or not.
#[test]
fn a_short_plan_whole_and_in_pieces() {
    for length in AROUND_SHORT {
        let plan = &longest()[..length];
        for script in [r#"exec "$0""#, r#"{ head -c 7; sleep 0.05; cat; } | exec "$0""#, r#"{ head -c 4090; sleep 0.05; cat; } | exec "$0""#] {
            assert!(shell(script, plan) == [expected(plan), String::new()], "{length} bytes: {script}");
        }
    }
}
