//! How the planner reads and writes: files that cannot be read, outputs that cannot be written, line ends, characters of every
//! kind, long lines, and texts at random, which must end in an error by line or a good end and never in a panic.

#[path = "plans/run.rs"]
mod run;
#[path = "planner/text_call.rs"]
mod text_call;
#[path = "planner/text_json.rs"]
mod text_json;
#[path = "planner/text_plans.rs"]
mod text_plans;
#[path = "planner/text_shape.rs"]
mod text_shape;
#[path = "planner/text_spoil.rs"]
mod text_spoil;

use bench_tests::random::Random;
use bench_tests::root;
use run::{outcome, printed};
use std::collections::BTreeMap;
use std::fs;
use std::io::Write;
use std::os::fd::OwnedFd;
use std::os::unix::fs::PermissionsExt;
use std::os::unix::net::UnixStream;
use std::path::{Path, PathBuf};
use std::process::{Command, Stdio};
use std::time::{Duration, Instant};
use text_call::{number, place, planner, Told, PROGRAM};
use text_json::{read, Json};
use text_plans::MOVED;
use text_shape::object;
use text_spoil::{bytes_spoilt, lines_spoilt, printable, words_spoilt, SMALL};

/// The commands on one file, which stands last.
const COMMANDS: [&[&str]; 4] = [&["run"], &["run", "--json"], &["bytes"], &["text"]];

fn hospital() -> String {
    fs::read_to_string(root().join("plans/hospital.txt")).expect("an example")
}

/// A command on one file.
fn on(command: &[&str], file: &str, input: impl AsRef<[u8]>) -> Told {
    planner(&[command, &[file]].concat(), input)
}

/// A file of the tests by this name.
fn scratch(name: &str) -> PathBuf {
    Path::new(env!("CARGO_TARGET_TMPDIR")).join(name)
}

// ---- files that cannot be read

/// Status 2, nothing on standard output, and one line that names the file and the reason; whatever the command.
fn unreadable(file: &str, reason: &str) {
    let line = format!("planner: cannot read {file}: {reason}\n");
    for command in COMMANDS {
        let told = on(command, file, "");
        assert_eq!((told.status, told.text(), &told.err), (2, "", &line), "{command:?}");
    }
    let good = root().join("plans/hospital.txt");
    let good = good.to_str().expect("a name in UTF-8");
    for pair in [[file, good], [good, file]] {
        let told = planner(&["compare", pair[0], pair[1]], "");
        assert_eq!((told.status, told.text(), &told.err), (2, "", &line), "compare {pair:?}");
    }
}

#[test]
fn files_that_cannot_be_read() {
    let missing = scratch("no_such_plan.txt");
    unreadable(missing.to_str().expect("a name in UTF-8"), "No such file or directory (os error 2)");
    unreadable(env!("CARGO_TARGET_TMPDIR"), "Is a directory (os error 21)");
    unreadable("/dev/zero", "it has more than 67108864 bytes, and no plan has");
}

/// Whoever may read everything, as root may, cannot make this test.
#[test]
fn a_file_that_may_not_be_read() {
    let file = scratch("shut.txt");
    let _ = fs::remove_file(&file);
    fs::write(&file, MOVED).expect("a file");
    fs::set_permissions(&file, fs::Permissions::from_mode(0)).expect("a file of ours");
    if fs::read(&file).is_err() {
        unreadable(file.to_str().expect("a name in UTF-8"), "Permission denied (os error 13)");
    }
}

/// Part of a plan comes, and then no end but a read that fails. What came is not taken for the plan.
#[test]
fn an_input_that_breaks_off() {
    for length in [0, 100, MOVED.len()] {
        let (mut here, there) = UnixStream::pair().expect("two ends");
        here.write_all(&MOVED.as_bytes()[..length]).expect("a plan fits");
        there.set_nonblocking(true).expect("a read without a byte to come fails");
        let mut command = Command::new("timeout");
        let command = command.arg("30").arg(root().join(PROGRAM)).args(["run", "-"]).stdin(OwnedFd::from(there));
        let output = command.stderr(Stdio::piped()).output().expect("it starts");
        let err = String::from_utf8(output.stderr).expect("a text");
        assert_eq!((output.status.code(), output.stdout), (Some(2), vec![]), "{length} bytes: {err}");
        assert!(err.starts_with("planner: cannot read -: ") && err.lines().count() == 1, "{err}");
        drop(here);
    }
}

/// 64 MiB are read, and a byte more is not.
#[test]
fn the_greatest_file() {
    let mut plan = b"bridges A B\nview v\nreport A\n#".to_vec();
    plan.resize(64 << 20, b'x');
    assert_eq!(planner(&["run", "-"], &plan).last_line(), "end 1");
    plan.push(b'x');
    let told = planner(&["run", "-"], &plan);
    assert_eq!((told.status, told.text()), (2, ""), "{}", told.err);
    assert_eq!(told.err, "planner: cannot read -: it has more than 67108864 bytes, and no plan has\n");
}

/// `-` is standard input, and the file by its name says the same but for the name.
#[test]
fn standard_input() {
    let file = root().join("plans/hospital.txt");
    let by_name = printed(PROGRAM, &[Path::new("run"), &file], b"");
    let by_name = String::from_utf8(by_name).expect("a text");
    let told = planner(&["run", "-"], hospital());
    assert_eq!((told.status, told.err.as_str()), (0, ""));
    assert_eq!(told.text().strip_prefix("-: "), by_name.strip_prefix(&format!("{}: ", file.display())));
    assert!(told.text().lines().count() > 80);
}

// ---- outputs that cannot be written

/// What a script does that is handed the program as $0, a plan in text as $1 and another in bytes as $2.
fn shell(script: &str, input: impl AsRef<[u8]>) -> Told {
    let mut command = Command::new("sh");
    command.args(["-c", script]).arg(root().join(PROGRAM));
    command.arg(root().join("plans/hospital.txt")).arg(root().join("plans/sixteen_bridges.plan"));
    let output =
        outcome(&mut command, input.as_ref(), Duration::from_secs(30)).unwrap_or_else(|| panic!("not in time: {script}"));
    let err = String::from_utf8(output.stderr).expect("a text");
    Told { status: output.status.code().unwrap_or(-1), out: output.stdout, err }
}

/// Every command, as it stands in such a script.
const CALLS: [&str; 6] = [
    r#""$0" run "$1""#,
    r#""$0" run --json "$1""#,
    r#""$0" bytes "$1""#,
    r#""$0" text "$2""#,
    r#""$0" compare "$1" "$1""#,
    r#""$0" --help"#,
];

/// The errors but for the note of `planner bytes`, which tells of the lines that have no bytes.
fn but_the_note(err: &str) -> String {
    err.lines().filter(|line| !line.contains("left out")).map(|line| format!("{line}\n")).collect()
}

/// The calls are good ones, so that what is refused below is the output.
#[test]
fn an_output_that_can_be_written() {
    for call in CALLS {
        let told = shell(&format!("exec {call}"), "");
        assert_eq!((told.status, but_the_note(&told.err).as_str(), told.out.is_empty()), (0, "", false), "{call}");
    }
}

#[test]
fn a_full_device() {
    for call in CALLS {
        let told = shell(&format!("exec {call} >/dev/full"), "");
        let error = "planner: cannot write standard output: No space left on device (os error 28)\n";
        assert_eq!((told.status, but_the_note(&told.err).as_str()), (2, error), "{call}");
    }
}

/// Whoever read the output is gone before it is written: the script first waits until that is so. Status 2, also where the signal
/// for it is ignored.
#[test]
fn a_reader_that_goes_away() {
    let error = "planner: cannot write standard output: Broken pipe (os error 32)\nstatus 2\n";
    for call in CALLS {
        for setting in ["trap - PIPE", ":"] {
            let wait = r#"trap "" PIPE; while printf x 2>/dev/null; do :; done"#;
            let told = shell(&format!(r#"{{ {wait}; {setting}; {call}; echo "status $?" >&2; }} | :"#), "");
            assert_eq!(but_the_note(&told.err), error, "{setting}; {call}");
        }
    }
}

/// A reader that takes the first line and goes: the rest is more than a pipe holds.
#[test]
fn a_reader_that_takes_one_line() {
    let plan = "bridges A B\nview v\n".to_string() + &"report all\n".repeat(5_000);
    let told = shell(r#"{ "$0" run -; echo "status $?" >&2; } | head -n 1"#, plan);
    assert_eq!(told.text(), "-: 2 bridges, 0 links, 1 view\n");
    assert_eq!(told.err, "planner: cannot write standard output: Broken pipe (os error 32)\nstatus 2\n");
}

/// Standard error cannot be written either: the status still tells.
#[test]
fn nowhere_to_tell() {
    for closed in ["2>&-", "2>/dev/full"] {
        for (call, status) in
            [(r#""$0" run - </dev/null"#, 1), (r#""$0" run missing"#, 2), (r#""$0" walk"#, 2), (r#""$0" run "$1" >/dev/full"#, 2)]
        {
            let told = shell(&format!("{call} {closed}"), "");
            assert_eq!((told.status, told.text(), told.err.as_str()), (status, "", ""), "{call} {closed}");
        }
    }
}

/// A plan that comes in pieces is the same plan.
#[test]
fn a_plan_in_pieces() {
    let plan = hospital();
    for command in ["run", "run --json", "bytes"] {
        let whole = shell(&format!(r#"exec "$0" {command} -"#), &plan);
        let pieces = format!(
            r#"{{ head -c 5; sleep 0.05; head -c 700; sleep 0.05; head -c 1; sleep 0.05; cat; }} | exec "$0" {command} -"#
        );
        let told = shell(&pieces, &plan);
        assert!(!told.out.is_empty() && (told.status, told.out, told.err) == (whole.status, whole.out, whole.err), "{command}");
    }
}

// ---- line ends and characters

/// Line ends of other systems, a byte order mark, no line end at the end: everything that is printed stays the same.
#[test]
fn other_line_ends() {
    for plan in [hospital(), MOVED.to_string(), SMALL.to_string(), MOVED.replace("\ncut icuA\n", "\ncutt icuA\n")] {
        let crlf = plan.replace('\n', "\r\n");
        let others = [
            crlf.clone(),
            format!("\u{feff}{plan}"),
            format!("\u{feff}{crlf}"),
            format!("\u{feff}{}", crlf.trim_end()),
            plan.trim_end().into(),
        ];
        for command in COMMANDS {
            if command == ["text"] {
                continue;
            }
            let expected = on(command, "-", &plan);
            assert!(expected.status == 1 || !expected.out.is_empty());
            for other in &others {
                let told = on(command, "-", other);
                assert_eq!((told.status, &told.err), (expected.status, &expected.err), "{command:?}");
                assert!(told.out == expected.out, "{command:?}: {:?}", &other[..20]);
            }
        }
    }
}

/// One error, in line 4, which shows no such character as it is.
fn refused_in_line_4(plan: &[u8]) {
    let told = planner(&["run", "-"], plan);
    let shown = String::from_utf8_lossy(plan);
    assert_eq!((told.status, told.text(), told.err.lines().count()), (1, "", 1), "{shown:?}: {}", told.err);
    assert_eq!(place(&told.err).0, 4, "{shown:?}: {}", told.err);
    let seen = |c: char| c.is_ascii_graphic() || c == ' ' || c.is_alphanumeric();
    assert!(told.err.trim_end().chars().all(seen), "{:?}", told.err);
    let json = planner(&["run", "--json", "-"], plan);
    let what = object(json.text(), false).at("errors").list()[0].at("what").text().to_string();
    assert!(told.err.contains(&what), "{what:?} is not in {:?}", told.err);
}

const PAIR: &str = "bridges A B\nlink ab A B\nview v ab=1\n";

/// Characters that cannot be seen, or that turn the text around them: in a name, in a label, by themselves.
#[test]
fn characters_that_cannot_be_seen() {
    let mut characters: Vec<char> = (0..32).map(|c| c as u8 as char).filter(|c| !"\t\n\u{b}\u{c}\r".contains(*c)).collect();
    characters.extend(['\u{7f}', '\u{80}', '\u{9f}', '\u{200b}', '\u{200e}', '\u{200f}', '\u{feff}']);
    characters.extend(('\u{202a}'..='\u{202e}').chain('\u{2066}'..='\u{2069}'));
    for c in characters {
        for line in [format!("report A{c}"), format!("{c}report A"), format!("report {c}"), format!("label \"a{c}b\"")] {
            refused_in_line_4(format!("{PAIR}{line}\nreport A\n").as_bytes());
        }
    }
}

/// A carriage return that ends no line hides what follows on some screens: an error, also in a comment.
#[test]
fn a_carriage_return_within_a_line() {
    for line in ["report A\rreport B", "rep\rort A", "# nothing\rcut ab", "label \"a\rb\"", "\rreport A"] {
        refused_in_line_4(format!("{PAIR}{line}\nreport A\n").as_bytes());
    }
}

/// Bytes that are no UTF-8, wherever they stand.
#[test]
fn no_text() {
    for wrong in [&b"\xff"[..], b"\xc3", b"\x80", b"\xc0\xaf", b"\xed\xa0\x80", b"\xf4\x90\x80\x80", b"caf\xe9"] {
        for before in [&b"report A"[..], b"# ", b"label \"", b""] {
            refused_in_line_4(&[PAIR.as_bytes(), before, wrong, b"\nreport A\n"].concat());
        }
    }
}

/// Names in any script: taken as they are, printed as they are, and found in the object.
#[test]
fn names_of_all_kinds() {
    let names = ["Zürich", "Αθήνα", "北京", "🏥", "é'&<>/\\", "A.b-c_d:e;(f)[g]{h}!?%*+~|^$@"];
    let links = lines_of(&names, |i, name| format!("link to{name} {} {name}", names[(i + 1) % names.len()]));
    let costs: String = names.iter().map(|name| format!(" to{name}=1")).collect();
    let plan = format!(
        "bridges {}\n{links}view ñ{costs}\nround 2\nwatch all\nlabel \"Größe 北 \\\"\nreport 北京\npath all\ncut toΑθήνα\n",
        names.join(" ")
    );
    let told = planner(&["run", "-"], &plan);
    assert_eq!((told.status, told.err.as_str()), (0, ""));
    assert!(told.text().contains("\"Größe 北 \\\""));
    let json = planner(&["run", "--json", "-"], &plan);
    let object = object(json.text(), true);
    assert_eq!((json.status, object.at("watch").at("pairs").count()), (0, 30));
    assert!(mentions(object.at("told"), "Größe 北 \\"));
    for name in names {
        assert!(told.text().lines().any(|line| line.starts_with(&format!("  {name} "))), "{name}: {}", told.text());
        assert!(mentions(object.at("told"), name), "{name}");
    }
}

/// Whether this text is one of those in a value, however deep.
fn mentions(json: &Json, wanted: &str) -> bool {
    match json {
        Json::Text(text) => text == wanted,
        Json::List(items) => items.iter().any(|item| mentions(item, wanted)),
        Json::Object(fields) => fields.values().any(|field| mentions(field, wanted)),
        _ => false,
    }
}

fn lines_of(names: &[&str], line: impl Fn(usize, &str) -> String) -> String {
    names.iter().enumerate().map(|(i, name)| line(i, name) + "\n").collect()
}

// ---- the object

const JSON: &str = r#"{"a":{"b":[true,false, null]},"c":"\u00e9\ud83c\udfe5\n\/","d":[-0.5e+3 ,0,1E2,""]}"#;

/// Texts that are nearly JSON: values, numbers, and what may not stand between quotes.
const NO_JSON: &str =
    r#"{|[1,]|{,}|[1 2]|{"a":1,}|{"a" 1}|{a:1}|{'a':1}|{"a":1,"a":2}|nul|True|{} {}|[1]]|01|+1|.5|1.|1e|-|0x1|NaN|1_0"#;
const NO_STRINGS: &[&str] = &["\\", "\\x", "\\u12", "\\ud800", "\\udc00", "\\ud800\\u0041", "a\nb", "\t", "\0", "\u{1f}", "\\'"];

/// The reader that the outputs are held to takes JSON and nothing else.
#[test]
fn the_reader_of_json() {
    for good in [JSON, "{}", " [ ]\n", "0", "\"\"", "\"\u{7f}é\""] {
        assert!(read(good).is_ok(), "{good}: {:?}", read(good));
    }
    assert_eq!(read(JSON).expect("JSON").at("c").text(), "é🏥\n/");
    for wrong in NO_JSON.split('|').chain([""]) {
        assert!(read(wrong).is_err(), "{wrong}: {:?}", read(wrong));
    }
    for wrong in NO_STRINGS {
        assert!(read(&format!("\"{wrong}\"")).is_err(), "{wrong:?}: {:?}", read(wrong));
    }
    assert_eq!(read(r#""\\\"""#), Ok(Json::Text("\\\"".to_string())));
    assert!(read(&"[".repeat(100_000)).is_err());
}

/// The name of a file may have quotes, backslashes and control characters: the object has it as it is.
#[test]
fn names_of_files_in_the_object() {
    for name in
        ["a \"b\".txt", "back\\slash\\n.txt", "new\nline\ttab\u{1}\u{1f}\u{7f}.txt", "ü 北 🏥.txt", "\u{202e}txt", "{}[],:"]
    {
        let file = scratch(name);
        for plan in [MOVED, "cutt\n"] {
            fs::write(&file, plan).expect("a file");
            let path = file.to_str().expect("a name in UTF-8");
            let told = planner(&["run", "--json", path], "");
            let object = object(told.text(), plan == MOVED);
            assert_eq!((told.status == 0, object.at("file").text()), (plan == MOVED, path));
        }
        fs::remove_file(&file).expect("a file of ours");
    }
}

/// A word that is wrong may have any signs: the object has the error as standard error has it.
#[test]
fn wrong_words_in_the_object() {
    for word in ["\\", "\\u0041", "a\\\"", "\"", "é", "\u{1}", "\u{7f}", "\u{202e}", "</script>", "a\\nb", "🏥"] {
        let plan = format!("{PAIR}report {word}\n{word}\nlabel \"{word}\" {word}\n");
        let told = planner(&["run", "--json", "-"], &plan);
        let object = object(told.text(), false);
        let listed: Vec<String> = object.at("errors").list().iter().map(line_of_error).collect();
        let errors: Vec<&str> = told.err.lines().collect();
        assert_eq!((told.status, listed.len()), (1, errors.len()), "{plan}");
        assert!(listed.iter().eq(&errors), "{listed:?}\n{errors:?}");
    }
}

/// An error of the object as it stands on standard error.
fn line_of_error(error: &Json) -> String {
    let number = if *error.at("number") == Json::Null { String::new() } else { format!(" ({})", error.at("number").count()) };
    let advice = if error.at("advice").text().is_empty() { String::new() } else { format!("; {}", error.at("advice").text()) };
    format!("-:{}: {}{number}{advice}", error.at("line").count(), error.at("what").text())
}

// ---- long lines and many

const MEGABYTE: usize = 1 << 20;

/// The planner on a long text, in a second or two; a good deal more is allowed here, for a machine that has other work.
fn soon(command: &[&str], plan: impl AsRef<[u8]>) -> Told {
    let begun = Instant::now();
    let told = on(command, "-", plan);
    assert!(begun.elapsed() < Duration::from_secs(8), "{command:?} took {:?}", begun.elapsed());
    told
}

/// Every command that reads text, on a long one that has this many events.
fn long_and_good(plan: &str, events: usize) {
    assert_eq!(soon(&["run"], plan).last_line(), format!("end {events}"));
    let json = soon(&["run", "--json"], plan);
    assert_eq!((json.status, object(json.text(), true).at("events").count()), (0, events as u64));
    let bytes = soon(&["bytes"], plan);
    assert_eq!((bytes.status, bytes.out.is_empty()), (0, false), "{}", bytes.err);
}

/// Every command that reads text, on a long one that is wrong in this line: the error is short.
fn long_and_wrong(plan: &str, line: usize) {
    for command in [&["run"][..], &["run", "--json"], &["bytes"]] {
        let told = soon(command, plan);
        let first = told.err.lines().next().expect("an error");
        assert_eq!((told.status, place(first).0, told.err.len() < 400), (1, line, true), "{command:?}: {} bytes", told.err.len());
    }
}

#[test]
fn long_lines_that_are_good() {
    long_and_good(&format!("{PAIR}# {}\nround 2\nreport A\n", "x".repeat(MEGABYTE)), 9);
    long_and_good(&format!("{PAIR}round{}2{}\n", " ".repeat(MEGABYTE), " ".repeat(MEGABYTE)), 8);
    long_and_good(&format!("{PAIR}{}", "#\n".repeat(MEGABYTE)), 0);
}

#[test]
fn long_lines_that_are_wrong() {
    let long_word = "x".repeat(MEGABYTE);
    for line in [
        format!("report {long_word}"),
        long_word.clone(),
        format!("report A {long_word}"),
        format!("label \"{long_word}"),
        format!("label {long_word}"),
    ] {
        long_and_wrong(&format!("{PAIR}{line}\n"), 4);
    }
    for line in [
        format!("round {}", "9".repeat(MEGABYTE)),
        format!("deliver {}", "9".repeat(MEGABYTE)),
        format!("report {}", "é".repeat(MEGABYTE)),
    ] {
        long_and_wrong(&format!("{PAIR}{line}\n"), 4);
    }
    long_and_wrong(&format!("bridges A B\nlink ab A B\nview v ab={}\n", "9".repeat(MEGABYTE)), 3);
    long_and_wrong(&format!("bridges A B\nlink ab A B\nview v{}\n", " ab=1".repeat(200_000)), 3);
    long_and_wrong(&format!("{PAIR}update{} to v\n", " A".repeat(200_000)), 4);
    let names: String = (0..200_000).map(|i| format!(" n{i}")).collect();
    long_and_wrong(&format!("bridges{names}\nview v\n"), 1);
}

#[test]
fn a_hundred_thousand_lines() {
    let many = |line: &str| format!("{PAIR}{}", format!("{line}\n").repeat(100_000));
    assert_eq!(soon(&["run"], many("report A")).last_line(), "end 100000");
    assert_eq!(soon(&["run"], many("watch all")).last_line(), "end 0");
    assert_eq!(soon(&["run"], many("label \"x\"")).last_line(), "end 0");
    assert_eq!(soon(&["run"], many("deliver all")).last_line(), "end 0");
    assert_eq!(soon(&["run"], many("send A over ab\ndeliver 0")).last_line(), "end 200000");
    let wrong = soon(&["run"], many("cutt ab"));
    assert_eq!((wrong.status, wrong.err.lines().count()), (1, 21));
    assert!(wrong.err.contains("and at least 980 more errors"));
    let json = soon(&["run", "--json"], many("report A"));
    assert_eq!(object(json.text(), true).at("told").list().len(), 100_000);
}

// ---- anything at all

/// What was met, so that a test which met nothing fails.
#[derive(Default)]
struct Met(BTreeMap<String, usize>);

impl Met {
    fn note(&mut self, what: &str) {
        *self.0.entry(what.to_string()).or_default() += 1;
    }

    fn at_least(&self, least: &[(&str, usize)]) {
        for (what, least) in least {
            assert!(self.0.get(*what).is_some_and(|count| count >= least), "{what}: fewer than {least} of {:?}", self.0);
        }
    }
}

fn shown(input: &[u8]) -> String {
    String::from_utf8_lossy(input).into_owned()
}

/// Every command on these bytes. Each ends by itself, without a panic, with a status that the others bear out; an error names a
/// line.
fn look(input: &[u8], met: &mut Met) {
    let told = planner(&["run", "-"], input);
    let begun = !told.out.is_empty();
    match (told.status, begun) {
        (0, true) => met.note("good"),
        (1, true) if told.err.is_empty() => met.note("not met"),
        (1, true) => refused(&told, input, met),
        (1, false) => wrong_text(&told, input, met),
        _ => panic!("status {}: {}\n{}", told.status, told.err, shown(input)),
    }
    let json = planner(&["run", "--json", "-"], input);
    let object = object(json.text(), begun);
    assert_eq!(
        (json.status, &json.err, object.at("good").is_true()),
        (told.status, &told.err, told.status == 0),
        "{}",
        shown(input)
    );
    let bytes = planner(&["bytes", "-"], input);
    let carried_out = begun && told.err.is_empty();
    assert_eq!((bytes.status == 0, bytes.out.is_empty()), (carried_out, !carried_out), "{}\n{}", bytes.err, shown(input));
    assert!(carried_out || bytes.err == told.err, "{}\n{}", bytes.err, told.err);
    look_as_bytes(input, met);
}

/// A refused event: one error, of the line and the number that the last line has.
fn refused(told: &Told, input: &[u8], met: &mut Met) {
    let (line, words) = place(told.err.trim_end());
    let number = number(words).unwrap_or_else(|| panic!("no number: {words}"));
    assert_eq!(told.err.lines().count(), 1, "{}", told.err);
    assert_eq!(told.last_line(), format!("refused {number} at line {line}"), "{}\n{}", told.err, shown(input));
    met.note(&format!("refused {number}"));
}

/// A text that cannot be read: errors by line, at most 20 and then how many more.
fn wrong_text(told: &Told, input: &[u8], met: &mut Met) {
    let mut errors: Vec<&str> = told.err.lines().collect();
    if errors.len() == 21 {
        assert!(errors.pop().is_some_and(|last| last.starts_with("-: ") && last.contains(" more")), "{}", told.err);
    }
    assert!((1..=20).contains(&errors.len()), "{}", told.err);
    let last = input.split(|byte| *byte == b'\n').count();
    for error in errors {
        let (line, words) = place(error);
        assert!((1..=last).contains(&line), "{}\n{}", told.err, shown(input));
        met.note(&number(words).map_or("wrong".to_string(), |number| format!("wrong {number}")));
    }
}

/// The bytes as a plan in bytes: one error by byte, or a text that can be read.
fn look_as_bytes(input: &[u8], met: &mut Met) {
    let told = planner(&["text", "-"], input);
    if told.status == 0 {
        assert!(told.err.is_empty(), "{}", told.err);
        let again = planner(&["run", "-"], &told.out);
        assert!(!again.out.is_empty(), "{}\n{}", again.err, told.text());
        return met.note("text");
    }
    let parts = told.err.strip_prefix("-: byte ").and_then(|rest| rest.trim_end().split_once(": "));
    let (byte, words) = parts.unwrap_or_else(|| panic!("no byte: {}", told.err));
    assert!(byte.parse::<usize>().is_ok_and(|byte| byte <= input.len()), "{}", told.err);
    assert_eq!((told.status, told.text(), told.err.lines().count()), (1, "", 1), "{}", told.err);
    met.note(&format!("bytes {}", number(words).unwrap_or_else(|| panic!("no number: {words}"))));
}

#[test]
fn random_bytes() {
    let (mut random, mut met) = (Random::new(1), Met::default());
    for _ in 0..200 {
        let length = random.below(200);
        let bytes: Vec<u8> = (0..length).map(|_| random.number() as u8).collect();
        look(&bytes, &mut met);
        look(&[PAIR.as_bytes(), &bytes].concat(), &mut met);
    }
    met.at_least(&[("wrong", 300), ("bytes 2", 300), ("bytes 1", 1)]);
}

#[test]
fn random_text() {
    let (mut random, mut met) = (Random::new(2), Met::default());
    for _ in 0..200 {
        let length = random.below(300);
        let text: String = (0..length).map(|_| printable(&mut random)).collect();
        look(text.as_bytes(), &mut met);
        look(format!("{SMALL}{text}").as_bytes(), &mut met);
    }
    met.at_least(&[("wrong", 1000), ("wrong 4", 80), ("bytes 2", 300)]);
}

/// Two plans, cut off after every byte.
#[test]
fn plans_cut_off() {
    let mut met = Met::default();
    for plan in [SMALL, MOVED] {
        for length in 0..=plan.len() {
            look(&plan.as_bytes()[..length], &mut met);
        }
    }
    met.at_least(&[
        ("good", 80),
        ("not met", 10),
        ("refused 12", 1),
        ("wrong", 300),
        ("wrong 4", 80),
        ("wrong 5", 6),
        ("wrong 10", 100),
    ]);
}

/// A greater one takes longer: every command at each third byte.
#[test]
fn the_hospital_cut_off() {
    let (plan, mut met) = (hospital(), Met::default());
    for length in 0..=plan.len() {
        if length % 3 == 0 {
            look(&plan.as_bytes()[..length], &mut met);
        } else {
            assert!(planner(&["run", "-"], &plan.as_bytes()[..length]).status <= 1);
        }
    }
    met.at_least(&[("good", 40), ("wrong", 90), ("wrong 4", 80), ("wrong 5", 1), ("wrong 10", 35)]);
}

#[test]
fn plans_with_other_bytes() {
    let (mut random, mut met) = (Random::new(3), Met::default());
    for i in 0..600 {
        look(&bytes_spoilt([SMALL, MOVED][i % 2].as_bytes(), &mut random), &mut met);
    }
    met.at_least(&[("good", 10), ("not met", 4), ("wrong", 300), ("wrong 10", 200)]);
}

#[test]
fn plans_with_other_lines() {
    let (mut random, mut met) = (Random::new(4), Met::default());
    for i in 0..700 {
        look(lines_spoilt([SMALL, MOVED][i % 2], &mut random).as_bytes(), &mut met);
    }
    met.at_least(&[("good", 50), ("not met", 80), ("wrong", 100), ("wrong 4", 40), ("wrong 10", 200)]);
    met.at_least(&[("refused 12", 15), ("refused 13", 8), ("refused 15", 15)]);
}

#[test]
fn plans_with_other_words() {
    let (mut random, mut met) = (Random::new(5), Met::default());
    for i in 0..1200 {
        look(words_spoilt([SMALL, MOVED][i % 2], &mut random).as_bytes(), &mut met);
    }
    met.at_least(&[("good", 60), ("not met", 40), ("wrong", 500), ("wrong 4", 2), ("wrong 7", 4), ("wrong 10", 400)]);
    met.at_least(&[("refused 11", 5), ("refused 12", 4), ("refused 15", 1)]);
}

/// Plans in bytes: cut off after every byte, and with other bytes.
#[test]
fn plans_in_bytes_spoilt() {
    let (mut random, mut met) = (Random::new(6), Met::default());
    for text in [SMALL, MOVED] {
        let plan = planner(&["bytes", "-"], text).out;
        for length in 0..=plan.len() {
            look_as_bytes(&plan[..length], &mut met);
        }
        for _ in 0..500 {
            look_as_bytes(&bytes_spoilt(&plan, &mut random), &mut met);
        }
    }
    met.at_least(&[("text", 200), ("bytes 1", 100), ("bytes 2", 100), ("bytes 3", 50), ("bytes 4", 10), ("bytes 10", 50)]);
}

// ---- what a planner needs besides

/// Standard output is closed. The program itself would find /dev/null there; the command that planners use says so.
#[test]
fn a_closed_output() {
    for (script, said) in [(">&-", "planner: cannot write standard output: it is closed\n"), (">&- 2>&-", "")] {
        let mut command = Command::new("sh");
        command.args(["-c", &format!(r#"exec "$0" run "$1" {script}"#)]).arg(root().join("scripts/planner"));
        command.arg(root().join("plans/hospital.txt"));
        let output = outcome(&mut command, b"", Duration::from_secs(30)).expect("in time");
        assert_eq!((output.status.code(), String::from_utf8_lossy(&output.stderr).as_ref()), (Some(2), said), "{script}");
    }
}

/// Signs of other white space are neither letters nor spaces: where an editor shows a new line, the planner must not see a
/// comment go on.
#[test]
fn other_white_space() {
    for c in ['\u{b}', '\u{c}', '\u{85}', '\u{2028}', '\u{2029}'] {
        for line in [format!("report{c}A"), format!("report A{c}")] {
            refused_in_line_4(format!("{PAIR}{line}\nreport A\n").as_bytes());
        }
    }
}

/// More that cannot be seen: a soft hyphen, and marks that turn the text. Two names that differ in one look the same.
#[test]
fn other_characters_that_cannot_be_seen() {
    for c in ['\u{ad}', '\u{61c}', '\u{180e}'] {
        for line in [format!("report A{c}"), format!("label \"a{c}b\"")] {
            refused_in_line_4(format!("{PAIR}{line}\nreport A\n").as_bytes());
        }
    }
}

/// A label of a megabyte is a label.
#[test]
fn a_long_label() {
    long_and_good(&format!("{PAIR}label \"{}\"\nround 2\nlabel \"short\"\nround\n", "x".repeat(MEGABYTE)), 12);
}

/// Names of 70,000 letters are names, or an error that is short; tables have room for them or leave them out.
#[test]
fn long_names() {
    let name = "x".repeat(70_000);
    let plan = format!("{PAIR}round 2\nwatch all\nreport all\npath all\ncut ab\nwhy A B\n");
    for plan in [plan.replace('A', &name), plan.replace("view v", &format!("view {name}"))] {
        let told = soon(&["run"], &plan);
        match told.status {
            0 => long_and_good(&plan, 14),
            _ => long_and_wrong(&plan, place(&told.err).0),
        }
    }
}
