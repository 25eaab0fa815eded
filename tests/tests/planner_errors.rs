//! What the planner says of plans that are wrong: the line, the word, document 01's number, and never a good end. The words
//! themselves may change, so a table names those parts of an error that a planner needs; the notation's page is what the tables
//! follow.

#[path = "plans/run.rs"]
mod run;
#[path = "planner/text_call.rs"]
mod text_call;
#[path = "planner/text_json.rs"]
mod text_json;
#[path = "planner/text_plans.rs"]
mod text_plans;
#[path = "planner/text_shape.rs"]
mod text_shape;

use run::printed;
use std::collections::BTreeSet;
use std::path::Path;
use text_call::{number, place, planner, Told, PROGRAM};
use text_json::Json;
use text_plans::MOVED;
use text_shape::object;

/// The planner on a plan that comes by standard input, so that errors begin with `-:`.
fn run_text(plan: &str) -> Told {
    planner(&["run", "-"], plan)
}

/// The errors in the object that `run --json` prints: line and number of each.
fn numbers(json: &Json) -> Vec<(usize, Option<u64>)> {
    let number = |error: &Json| (*error.at("number") != Json::Null).then(|| error.at("number").count());
    json.at("errors").list().iter().map(|error| (error.at("line").count() as usize, number(error))).collect()
}

// ---- texts that cannot be read

/// One error, in this line, that says all of this. Nothing is run and nothing printed; the other commands say the same.
fn refused_as_text(plan: &str, line: usize, says: &[&str]) {
    let told = run_text(plan);
    let errors: Vec<&str> = told.err.lines().collect();
    assert_eq!((told.status, told.text(), errors.len()), (1, "", 1), "{plan}\n{}", told.err);
    let (at, words) = place(errors[0]);
    assert_eq!(at, line, "{plan}\n{}", told.err);
    for part in says {
        assert!(words.contains(part), "{plan}\nnot said: {part}\n{}", told.err);
    }
    let wanted = says.iter().find_map(|part| number(part));
    assert_eq!(number(words), wanted, "{plan}\n{}", told.err);
    let json = planner(&["run", "--json", "-"], plan);
    assert_eq!((json.status, &json.err), (1, &told.err), "{plan}");
    let object = object(json.text(), false);
    assert_eq!((object.at("good").is_true(), numbers(&object)), (false, vec![(line, wanted)]), "{plan}");
    let bytes = planner(&["bytes", "-"], plan);
    assert_eq!((bytes.status, bytes.out, bytes.err), (1, vec![], told.err), "{plan}");
}

/// Each of these is a whole plan.
const WRONG_PLANS: &[(&str, usize, &[&str])] = &[
    // nothing, or not enough, or not in order
    ("", 1, &["no bridges", "(4)"]),
    ("\n\n", 2, &["no bridges", "(4)"]),
    ("# a plan\n\n   # to be written\n", 3, &["no bridges", "(4)"]),
    ("bridges A B\n", 1, &["no view", "(4)"]),
    ("bridges A B\nlink ab A B\n", 2, &["no view", "(4)"]),
    ("bridges A B\nbridges C D\nview v\n", 2, &["bridges", "(4)"]),
    ("bridges A B\nview v\nbridges C D\n", 3, &["bridges", "(4)"]),
    ("view v\n", 1, &["v", "bridges", "(4)"]),
    ("bridges A B\nview v\nlink ab A B\n", 3, &["ab", "(4)"]),
    ("bridges A B\nview v\nround\nlink ab A B\n", 4, &["ab", "(4)"]),
    ("bridges A B\nview v\nround\nview w\n", 4, &["w", "(4)"]),
    ("bridges A B\nround\n", 2, &["round", "view", "(4)"]),
    ("bridges A B\nlink ab A B\nreport A\n", 3, &["report", "view", "(4)"]),
    // bridges
    ("bridges\nview v\n", 1, &["bridges", "2 to 16", "(5)"]),
    ("bridges A\nview v\n", 1, &["bridges", "2 to 16", "(5)"]),
    ("bridges A B C D E F G H I J K L M N O P Q\nview v\n", 1, &["17", "2 to 16", "(5)"]),
    ("bridges A B A\nview v\n", 1, &["A", "already"]),
    ("bridges A all\nview v\n", 1, &["all"]),
    ("bridges to B\nview v\n", 1, &["to"]),
    ("bridges A over\nview v\n", 1, &["over"]),
    ("bridges A with\nview v\n", 1, &["with"]),
    ("bridges A without\nview v\n", 1, &["without"]),
    ("bridges A none\nview v\n", 1, &["none"]),
    ("bridges A -\nview v\n", 1, &["- is"]),
    ("bridges A 12\nview v\n", 1, &["12", "number"]),
    ("bridges A=B C\nview v\n", 1, &["="]),
    ("bridges \"A\" B\nview v\n", 1, &["\"A\""]),
    ("bridges A B\nview v\nreport A,\n", 3, &["A,", "comma"]),
    // links
    ("bridges A B\nlink ab A A\nview v\n", 2, &["ab", "(7)"]),
    ("bridges A B\nlink ab A X\nview v\n", 2, &["X", "(10)"]),
    ("bridges A B\nlink aa A B\nlink ab A aa\nview v\n", 3, &["aa is a link", "(10)"]),
    ("bridges A B\nlink ab A\nview v\n", 2, &["link", "ends"]),
    ("bridges A B\nlink\nview v\n", 2, &["link", "ends"]),
    ("bridges A B\nlink ab A B C\nview v\n", 2, &["C", "too many"]),
    ("bridges A B\nlink A A B\nview v\n", 2, &["A is a bridge", "line 1"]),
    ("bridges A B\nlink ab A B\nlink ab A B\nview v ab=1\n", 3, &["ab is a link", "line 2"]),
    ("bridges A B\nlink over A B\nview v\n", 2, &["over"]),
    ("bridges A B\nlink 7 A B\nview v\n", 2, &["7", "number"]),
    // views
    ("bridges A B\nlink ab A B\nview\n", 3, &["view", "ends"]),
    ("bridges A B\nlink ab A B\nview ab ab=1\n", 3, &["ab is a link", "line 2"]),
    ("bridges A B\nlink ab A B\nview A ab=1\n", 3, &["A is a bridge", "line 1"]),
    ("bridges A B\nlink ab A B\nview v ab=1\nview v ab=2\n", 4, &["v is a view", "line 3"]),
    ("bridges A B\nlink ab A B\nview v ab=0\n", 3, &["ab=0", "1 to 16777215"]),
    ("bridges A B\nlink ab A B\nview v ab=0140\n", 3, &["0140", "begins with 0"]),
    ("bridges A B\nlink ab A B\nview v ab=x\n", 3, &["x is no number"]),
    ("bridges A B\nlink ab A B\nview v ab=-1\n", 3, &["-1 is no number"]),
    ("bridges A B\nlink ab A B\nview v ab=1.5\n", 3, &["1.5 is no number"]),
    ("bridges A B\nlink ab A B\nview v ab=\u{664}\n", 3, &["\u{664} is no number"]),
    ("bridges A B\nlink ab A B\nview v ab=\n", 3, &["ends", "cost"]),
    ("bridges A B\nlink ab A B\nview v ab\n", 3, &["ab", "no cost"]),
    ("bridges A B\nlink ab A B\nview v ab=16777216\n", 3, &["16777216", "(9)"]),
    ("bridges A B\nlink ab A B\nview v ab=4294967297\n", 3, &["at most 16777215", "(9)"]),
    ("bridges A B\nlink ab A B\nview v ab=18446744073709551617\n", 3, &["at most 16777215", "(9)"]),
    ("bridges A B\nlink ab A B\nview v ab=1 ab=1\n", 3, &["ab", "twice"]),
    ("bridges A B\nlink ab A B\nview v xy=1\n", 3, &["xy", "(10)"]),
    ("bridges A B\nlink ab A B\nview v A=1\n", 3, &["A is a bridge", "(10)"]),
];

#[test]
fn wrong_plans() {
    for (plan, line, says) in WRONG_PLANS {
        refused_as_text(plan, *line, says);
    }
}

/// Three bridges in a row and two views, five lines.
const ROW: &str = "bridges A B C\nlink ab A B\nlink bc B C\nview v ab=1 bc=2\nview w = v without ab\n";

/// Each of these is the sixth line, after ROW.
const WRONG_LINES: &[(&str, &[&str])] = &[
    ("cutt ab", &["cutt", "begins no line"]),
    ("Round", &["Round", "begins no line"]),
    ("A", &["A", "begins no line"]),
    // views made of others
    ("view x = y", &["y", "(10)"]),
    ("view x = ab", &["ab is a link", "(10)"]),
    ("view x =", &["view", "ends"]),
    ("view x = x", &["x"]),
    ("view x = v without", &["without"]),
    ("view x = v without zz", &["zz", "(10)"]),
    ("view x = v without ab ab", &["ab", "twice"]),
    ("view x = v without ab with ab=4", &["ab", "twice"]),
    ("view x = w without ab", &["ab", "absent", "w"]),
    ("view x = v with ab=3 ab=4", &["ab", "twice"]),
    ("view x = v with ab", &["ab", "no cost"]),
    ("view x = v with ab=0", &["ab=0"]),
    ("view x = v with ab=16777216", &["16777216", "(9)"]),
    ("view x = v but ab=3", &["but"]),
    // update
    ("update", &["update"]),
    ("update A", &["update", "to VIEW"]),
    ("update A to", &["update", "ends"]),
    ("update X to w", &["no bridge is named X", "(10)"]),
    ("update ab to w", &["ab is a link", "(10)"]),
    ("update A to zz", &["no view is named zz", "(10)"]),
    ("update A to B", &["B is a bridge", "(10)"]),
    ("update A A to w", &["A", "twice"]),
    ("update A to w v", &["v", "too many"]),
    ("update all B to w", &["B"]),
    // messages
    ("send", &["send", "ends"]),
    ("send A", &["send", "ends", "over"]),
    ("send A over", &["send", "ends"]),
    ("send A ab", &["ab", "over"]),
    ("send X over ab", &["no bridge is named X", "(10)"]),
    ("send v over ab", &["v is a view", "(10)"]),
    ("send A over zz", &["no link is named zz", "(10)"]),
    ("send A over v", &["v is a view", "(10)"]),
    ("send A over ab B", &["B", "too many"]),
    ("deliver", &["deliver", "ends"]),
    ("deliver 01", &["01", "begins with 0"]),
    ("deliver 0 0", &["0", "too many"]),
    ("deliver x", &["x", "(10)"]),
    ("repeat X over ab", &["X", "(10)"]),
    ("lose A over zz", &["zz", "(10)"]),
    ("lose all 1", &["1", "too many"]),
    ("round 0", &["0", "1 to 1000"]),
    ("round 1001", &["1001", "1 to 1000"]),
    ("round 99999999999999999999", &["99999999999999999999", "1 to 1000"]),
    ("round two", &["two is no number"]),
    ("round 1 2", &["2", "too many"]),
    // ends
    ("cut", &["cut", "ends"]),
    ("cut zz", &["no link is named zz", "(10)"]),
    ("cut A", &["A is a bridge", "(10)"]),
    ("cut X ab", &["no bridge is named X", "(10)"]),
    ("cut A ab B", &["B", "too many"]),
    ("restore v", &["v is a view", "(10)"]),
    ("restore A zz", &["no link is named zz", "(10)"]),
    // questions
    ("report", &["report", "ends"]),
    ("report X", &["no bridge is named X", "(10)"]),
    ("report all A", &["A", "too many"]),
    ("path A", &["path", "ends"]),
    ("path A w", &["w is a view", "(10)"]),
    ("path A B C", &["C", "too many"]),
    ("why A", &["why", "ends"]),
    ("why A ab", &["ab is a link", "(10)"]),
    ("watch A A", &["watch", "itself"]),
    ("watch A", &["watch", "ends"]),
    ("watch X A", &["X", "(10)"]),
    // expectations and labels
    ("expect", &["expect", "ends"]),
    ("expect rain", &["rain"]),
    ("expect path A B", &["expect", "ends"]),
    ("expect path A B arrives", &["arrives"]),
    ("expect path A B stops X", &["X", "(10)"]),
    ("expect path A B delivered C", &["C", "too many"]),
    ("expect port A B", &["expect", "ends"]),
    ("expect port A B C", &["C is a bridge", "(10)"]),
    ("expect no", &["expect", "ends", "outage"]),
    ("expect no outage", &["expect no outage", "watch"]),
    ("label", &["label", "quotes"]),
    ("label morning", &["morning", "quotes"]),
    ("label \"morning", &["\"morning", "not closed"]),
    ("label \"a\" b", &["b", "too many"]),
    ("update A, B to w", &["A,", "comma"]),
];

#[test]
fn wrong_lines() {
    assert!(WRONG_PLANS.len() + WRONG_LINES.len() >= 120);
    for (line, says) in WRONG_LINES {
        refused_as_text(&format!("{ROW}{line}\n"), 6, says);
    }
}

/// The plan above the lines is not what was refused.
#[test]
fn the_row_is_correct() {
    let told = run_text(ROW);
    assert_eq!((told.status, told.err.as_str(), told.last_line()), (0, "", "end 0"));
}

/// `count` lines that a number makes different.
fn lines(count: usize, line: impl Fn(usize) -> String) -> String {
    (0..count).map(|i| line(i) + "\n").collect()
}

/// 32 links and 32 views are carried out, one more of either is refused by name.
#[test]
fn one_link_or_view_too_many() {
    let links = |count| format!("bridges A B\n{}view v\n", lines(count, |i| format!("link l{i} A B")));
    let views = |count| format!("bridges A B\nlink ab A B\n{}", lines(count, |i| format!("view v{i} ab={}", i + 1)));
    for plan in [links(32), views(32)] {
        assert_eq!(run_text(&plan).status, 0, "{plan}");
    }
    refused_as_text(&links(33), 34, &["l32", "33", "32", "(6)"]);
    refused_as_text(&views(33), 35, &["v32", "33", "32", "(8)"]);
}

/// A name that is nearly one of the plan's: the error names that one.
#[test]
fn a_misspelt_name() {
    refused_as_text(&MOVED.replace("\ncut icuA\n", "\ncut icua\n"), 23, &["icua", "(10)", "icuA is one"]);
}

/// Every wrong line is told, in order, each once: one plan with six mistakes.
#[test]
fn several_wrong_lines() {
    let plan = format!("{ROW}report X\nround 2\ncutt ab\nsend A over zz\nreport B\nround 0\n\nlabel \"open\nlabel open\n");
    let told = run_text(&plan);
    let at: Vec<usize> = told.err.lines().map(|error| place(error).0).collect();
    assert_eq!((told.status, told.text(), at), (1, "", vec![6, 8, 9, 11, 13, 14]), "{}", told.err);
}

/// At most 20 are told, and how many more there are.
#[test]
fn many_wrong_lines() {
    for (count, shown, rest) in [(20, 20, None), (21, 20, Some(1)), (25, 20, Some(5)), (999, 20, Some(979))] {
        let told = run_text(&(ROW.to_string() + &lines(count, |i| format!("foo{i}"))));
        let errors: Vec<&str> = told.err.lines().collect();
        assert_eq!((told.status, told.text(), errors.len()), (1, "", shown + usize::from(rest.is_some())), "{}", told.err);
        for (i, error) in errors[..shown].iter().enumerate() {
            let (line, words) = place(error);
            assert!(line == 6 + i && words.contains(&format!("foo{i} ")), "{error}");
        }
        if let Some(rest) = rest {
            let end = errors[shown];
            assert!(end.starts_with("-: ") && end.contains(&format!(" {rest} more")), "{end}");
        }
    }
}

// ---- events that are refused

/// What was printed of the events, before the summary.
fn done(told: &Told) -> &str {
    told.text().split("\n\nwatched").next().expect("a first part")
}

/// The last line of the plan is refused by this number, in one error that says all of this. What was done before it stands: the
/// same as without that line.
fn refused_event(plan: &str, number: u64, says: &[&str]) {
    let line = plan.lines().count();
    let told = run_text(plan);
    assert_eq!((told.status, told.err.lines().count()), (1, 1), "{plan}\n{}", told.err);
    let (at, words) = place(told.err.trim_end());
    assert_eq!((at, text_call::number(words)), (line, Some(number)), "{plan}\n{}", told.err);
    // A line that stands for several events is named before the one that is refused.
    let text = plan.lines().last().expect("a line");
    let named = words.starts_with(says[0]) || words.starts_with(&format!("{text}: {}", says[0]));
    assert!(named && says.iter().all(|part| words.contains(part)), "{plan}\n{says:?}\n{}", told.err);
    assert_eq!(told.last_line(), format!("refused {number} at line {line}"), "{plan}");
    let before: String = plan.lines().take(line - 1).map(|line| format!("{line}\n")).collect();
    let without = run_text(&before);
    assert_eq!((without.status, without.err.as_str()), (0, ""), "{before}");
    assert!(done(&told) == done(&without) && done(&told).contains("report C"), "{plan}\n{}", told.text());
    let json = planner(&["run", "--json", "-"], plan);
    let object = object(json.text(), true);
    assert_eq!((json.status, object.at("good").is_true(), numbers(&object)), (1, false, vec![(line, Some(number))]), "{plan}");
    let bytes = planner(&["bytes", "-"], plan);
    assert_eq!((bytes.status, bytes.out, bytes.err), (1, vec![], told.err), "{plan}");
}

/// Lines after ROW and a report, which is line 6; the last of them is refused. First of what is said, the event.
const REFUSED: &[(&str, u64, &[&str])] = &[
    ("send A over bc", 11, &["send A over bc: ", "B and C"]),
    ("cut A bc", 11, &["cut A bc: ", "B and C"]),
    ("restore C ab", 11, &["restore C ab: ", "A and B"]),
    ("cut ab\ncut ab", 12, &["cut A ab: ", "down already", "since line 7 "]),
    ("cut B ab\n\ncut B ab", 12, &["cut B ab: ", "down already", "since line 7 "]),
    ("cut B ab\ncut ab", 12, &["cut B ab: ", "down already", "since line 7 "]),
    ("cut A ab\nrestore A ab\ncut A ab\ncut ab", 12, &["cut A ab: ", "down already", "since line 9 "]),
    ("restore ab", 12, &["restore A ab: ", "up"]),
    ("cut A ab\nrestore B ab", 12, &["restore B ab: ", "up"]),
    ("cut ab\nsend A over ab", 13, &["send A over ab: the link is cut at this end since line 7 (13); restore that end first"]),
    ("cut ab\nrestore ab\nround\ncut B ab\nsend B over ab", 13, &["send B over ab: ", "since line 10 "]),
    ("send A over ab\ncut ab\ndeliver 0", 13, &["deliver 0 (A over ab): ", "B's end", "since line 8 ", "lose"]),
    (
        "send B over bc\nsend A over ab\ncut B ab\nrepeat A over ab",
        13,
        &["repeat 1 (A over ab): ", "B's end", "since line 9 ", "lose"],
    ),
    ("send A over ab\ncut B ab\ndeliver all", 13, &["deliver 0 (A over ab): ", "B's end", "since line 8 ", "lose"]),
    ("deliver 0", 15, &["deliver 0: ", "no message is in flight"]),
    ("send A over ab\ndeliver all\nrepeat 0", 15, &["repeat 0: ", "no message is in flight"]),
    ("send A over ab\nlose 1", 15, &["lose 1: ", "place 0"]),
    ("send all\ndeliver 4", 15, &["deliver 4: ", "places 0 to 3"]),
];

#[test]
fn refused_events() {
    for (lines, number, says) in REFUSED {
        refused_event(&format!("{ROW}report C\n{lines}\n"), *number, says);
    }
}

/// A message by name that is not in flight, though another is: the line, the number and both names.
#[test]
fn no_such_message() {
    for line in ["deliver B over ab", "repeat C over bc", "lose B over bc"] {
        let told = run_text(&format!("{ROW}report C\nsend A over ab\n{line}\n"));
        let (at, words) = place(told.err.trim_end());
        let names: Vec<&str> = line.split(' ').collect();
        assert_eq!((told.status, at, number(words), told.last_line()), (1, 8, Some(15), "refused 15 at line 8"), "{}", told.err);
        assert!(words.contains(&format!("{} over {}", names[1], names[3])), "{}", told.err);
    }
}

/// 64 messages fit and the 65th does not, whether it is sent alone, by all or in a round.
#[test]
fn the_65th_message() {
    let error = &["send A over ab: ", "64 messages", "deliver or lose"];
    let full = format!("{ROW}report C\n{}", lines(64, |_| "send A over ab".to_string()));
    assert_eq!(run_text(&full).status, 0);
    refused_event(&format!("{full}send A over ab\n"), 14, error);
    let by_all = format!("{ROW}report C\n{}", lines(16, |_| "send all".to_string()));
    refused_event(&format!("{by_all}send all\n"), 14, error);
    refused_event(&format!("{by_all}round\n"), 14, error);
}

/// A bridge begins with agreement number 1 and 65,535 is the greatest: 65,534 updates are carried out, and no more of that
/// bridge.
#[test]
fn agreement_numbers_run_out() {
    let updates = lines(32_767, |_| "update B to w\nupdate B to v".to_string());
    let plan = format!("{ROW}report C\n{updates}");
    let told = run_text(&plan);
    assert_eq!((told.status, told.err.as_str(), told.last_line()), (0, "", "end 65535"));
    let told = run_text(&format!("{plan}update A to w\nupdate B to w\nupdate A to v\n"));
    let (line, words) = place(told.err.trim_end());
    assert_eq!((told.status, line, number(words)), (1, 65_542, Some(16)), "{}", told.err);
    assert!(words.starts_with("update B to w: "), "{words}");
    assert_eq!(told.last_line(), "refused 16 at line 65542");
}

// ---- the planner's mistakes

/// The plan that is spoilt below is correct: every expectation is met, there is nothing to warn of, and it says so.
#[test]
fn the_careful_plan() {
    assert!((35..45).contains(&MOVED.lines().count()));
    let told = run_text(MOVED);
    assert_eq!((told.status, told.err.as_str()), (0, ""));
    assert!(told.text().contains("\nexpectations: 6 met, 0 not met\nend "), "{}", told.text());
}

/// MOVED with one line exchanged.
fn spoilt(line: &str, by: &str) -> String {
    let (line, by) = (format!("\n{line}\n"), format!("\n{by}\n"));
    assert_eq!(MOVED.matches(&line).count(), 1, "{line}");
    MOVED.replace(&line, &by)
}

/// The output's warnings.
fn warnings(told: &Told) -> Vec<&str> {
    let after = told.text().split("\nwarnings:\n").nth(1).unwrap_or("");
    after.lines().take_while(|line| line.starts_with("  ")).collect()
}

/// Mistakes that end with status 1, with an error in this line and of this number.
#[test]
fn mistakes_that_are_errors() {
    let cases = [
        ("a cost with a leading 0", "view after  = before with icuA=25", "view after  = before with icuA=0140", 13, None, "0140"),
        ("a misspelt bridge", "update RAD LAB to after", "update RAD LAV to after", 33, Some(10), "LAV"),
        ("a misspelt word", "restore ICU icuA", "restroe ICU icuA", 31, None, "restroe"),
        ("the wrong bridge in a cut", "cut icuA", "cut RAD icuA", 23, Some(11), "RAD"),
        ("the wrong link in a cut", "cut icuA", "cut radA", 30, Some(12), "icuA"),
        ("an end is cut twice", "cut icuA", "cut icuA\ncut ICU icuA", 24, Some(12), "since line 23"),
        ("an end is restored twice", "restore ICU icuA", "restore coreA icuA", 31, Some(12), "coreA"),
        ("a place that is not there", "deliver ICU over icuA", "deliver 1", 36, Some(15), "1"),
        ("the other end's message", "deliver ICU over icuA", "deliver coreA over icuA", 36, Some(15), "coreA over icuA"),
        ("one end is not restored", "restore ICU icuA", "", 34, Some(13), "ICU's end"),
        ("no link after with", "view after  = before with icuA=25", "view after  = before with icuA", 13, None, "icuA"),
    ];
    for (mistake, line, by, at, refused, says) in cases {
        let told = run_text(&spoilt(line, by));
        assert_eq!((told.status, told.err.lines().count()), (1, 1), "{mistake}: {}", told.err);
        let (found, words) = place(told.err.trim_end());
        assert_eq!((found, number(words)), (at, refused), "{mistake}: {}", told.err);
        assert!(words.contains(says), "{mistake}: {}", told.err);
    }
}

/// Mistakes that let the plan be carried out, with every expectation met: a warning names each.
#[test]
fn mistakes_that_are_warned_of() {
    let cases = [
        ("one bridge is left behind", "update RAD LAB to after", "update RAD to after", "on during: LAB"),
        (
            "a view of no use",
            "view after  = before with icuA=25",
            "view after  = before with icuA=25\nview later = after",
            " later",
        ),
        ("a message is left", "deliver ICU over icuA", "", "ICU over icuA (line 35)"),
        (
            "two messages are left",
            "deliver ICU over icuA",
            "send LAB over lab",
            "ICU over icuA (line 35), LAB over lab (line 36)",
        ),
        ("a link stays down", "path ICU LAB", "path ICU LAB\ncut lab", "lab is down at both ends, and view after counts on it"),
        ("a link has no cost", "link icuA coreA ICU", "link icuA coreA ICU\nlink idle coreA ICU", "idle is in no view"),
        ("nothing is in flight", "path ICU LAB", "path ICU LAB\ndeliver all", ": no message is in flight here"),
        ("an end is left down", "path ICU LAB", "path ICU LAB\ncut ICU icuB", "icuB is down at ICU's end"),
    ];
    for (mistake, line, by, says) in cases {
        let told = run_text(&spoilt(line, by));
        assert_eq!((told.status, told.err.as_str()), (0, ""), "{mistake}");
        let warnings = warnings(&told);
        let others = warnings.iter().filter(|warning| !warning.contains(says));
        assert_eq!((others.count(), warnings.is_empty()), (0, false), "{mistake}: {warnings:?}");
        let json = planner(&["run", "--json", "-"], spoilt(line, by));
        let listed =
            object(json.text(), true).at("warnings").list().iter().map(|text| format!("  {}", text.text())).collect::<Vec<_>>();
        assert_eq!(listed, warnings, "{mistake}");
    }
}

/// A bridge that an update in the middle forgot, and that is back with the others at the end.
#[test]
fn a_bridge_left_out_on_the_way() {
    let setup = "bridges A B C\nlink ab A B\nlink bc B C\nview u ab=1 bc=2\nview v ab=2 bc=2\nview w ab=3 bc=2\nround 2\n";
    let forgot = format!("{setup}update A B to v\nround 2\nupdate all to w\nround 2\n");
    let told = run_text(&forgot);
    assert_eq!((told.status, warnings(&told).len()), (0, 1), "{}", told.text());
    assert!(warnings(&told)[0].contains("all bridges but C were on v"), "{}", told.text());
    let whole = forgot.replace("round 2\nupdate all to w", "round 2\nupdate C to v\nupdate all to w");
    assert!(warnings(&run_text(&whole)).is_empty());
}

/// Mistakes that an expectation finds: its line is told, and the status is 1. Where a view is then of no use, that is told too.
#[test]
fn mistakes_that_break_an_expectation() {
    let cases = [
        ("no bridge goes to a view", "update all to during", "", "(lines 26, 27)", Some(" during")),
        ("a round too few", "round 2\nexpect path RAD ICU delivered", "round\nexpect path RAD ICU delivered", "(line 26)", None),
        ("another view", "update all to during", "update all to after", "(lines 26, 27)", Some(" during")),
        (
            "the link comes back too dear",
            "view after  = before with icuA=25",
            "view after  = before with icuA=250",
            "(line 39)",
            None,
        ),
    ];
    for (mistake, line, by, lines, warned) in cases {
        let told = run_text(&spoilt(line, by));
        assert_eq!((told.status, told.err.as_str()), (1, ""), "{mistake}");
        let summary = told.text().lines().find(|line| line.starts_with("expectations: ")).expect("a summary");
        assert!(summary.ends_with(lines), "{mistake}: {summary}");
        let warnings = warnings(&told);
        assert_eq!(warnings.len(), usize::from(warned.is_some()), "{mistake}: {warnings:?}");
        assert!(warned.iter().all(|warned| warnings[0].contains(warned)), "{mistake}: {warnings:?}");
    }
}

/// What comes after a refused event is not done. Each expectation there is named, by its line, as never reached.
#[test]
fn expectations_that_are_never_reached() {
    let told = run_text(&spoilt("round 2\nexpect path RAD ICU delivered", "cut icuA\nexpect path RAD ICU delivered"));
    assert_eq!((told.status, told.last_line()), (1, "refused 12 at line 25"));
    let named: BTreeSet<&str> = warnings(&told).into_iter().filter(|warning| warning.contains("never reached")).collect();
    let lines: Vec<String> = [26, 27, 38, 39].iter().map(|line| format!("  line {line} ")).collect();
    assert_eq!(named.len(), lines.len(), "{named:?}");
    assert!(named.iter().zip(&lines).all(|(warning, line)| warning.starts_with(line.as_str())), "{named:?}");
    assert!(told.text().contains("\nexpectations: 2 met, 0 not met\n"), "{}", told.text());
}

// ---- expectations

/// An expectation as the last line after these events, and whether it is met.
const EXPECTED: &[(&str, &str, bool)] = &[
    ("", "expect path A C delivered", false),
    ("", "expect path A C stops", true),
    ("", "expect path A C stops A", true),
    ("", "expect path A C stops B", false),
    ("", "expect port A C none", true),
    ("", "expect port A C -", true),
    ("", "expect port A C ab", false),
    ("round 2\n", "expect path A C delivered", true),
    ("round 2\n", "expect path A C stops", false),
    ("round 2\n", "expect path A C stops B", false),
    ("round 2\n", "expect port A C ab", true),
    ("round 2\n", "expect port A C bc", false),
    ("round 2\n", "expect port A C none", false),
    ("round 2\n", "expect port A C -", false),
    ("round 2\ncut C bc\n", "expect path A C stops B", true),
    ("round 2\ncut C bc\n", "expect path A C stops A", false),
    ("round 2\ncut C bc\n", "expect port B C bc", true),
    ("round 2\nwatch A C\n", "expect no outage", true),
    ("round 2\nwatch A C\ncut C bc\n", "expect no outage", false),
    ("round 2\nwatch A C\ncut C bc\nrestore C bc\n", "expect no outage", false),
    ("round 2\nwatch B A\ncut C bc\n", "expect no outage", true),
    ("round 2\ncut bc\nrestore bc\nwatch all\nsend all\ndeliver all\n", "expect no outage", true),
];

/// One expectation, by itself: its line, the count, the status; and the object says the same.
#[test]
fn expectations_met_and_not_met() {
    for (events, expectation, met) in EXPECTED {
        let plan = format!("{ROW}{events}{expectation}\n");
        let line = plan.lines().count();
        let told = run_text(&plan);
        assert_eq!((told.status, told.err.as_str()), (i32::from(!met), ""), "{plan}");
        let word = if *met { "met" } else { "NOT MET: " };
        let said = told.text().lines().find(|said| said.starts_with(&format!("line {line}: "))).unwrap_or("");
        assert!(said.starts_with(&format!("line {line}: {expectation}: {word}")), "{plan}\n{said}");
        let count = if *met { "1 met, 0 not met".to_string() } else { format!("0 met, 1 not met (line {line})") };
        assert!(told.text().contains(&format!("\nexpectations: {count}\n")), "{}", told.text());
        let json = planner(&["run", "--json", "-"], &plan);
        let object = object(json.text(), true);
        let unmet: Vec<u64> = object.at("expectations").at("unmet").list().iter().map(Json::count).collect();
        assert_eq!((json.status, object.at("good").is_true()), (told.status, *met), "{plan}");
        assert_eq!(object.at("expectations").at("met").count(), u64::from(*met), "{plan}");
        assert_eq!(unmet, if *met { vec![] } else { vec![line as u64] }, "{plan}");
        assert!(object.at("errors").list().is_empty(), "{plan}");
    }
}

/// One that is not met does not end the plan: those after it are looked at, and each is counted.
#[test]
fn an_expectation_that_is_not_met_ends_nothing() {
    let told = run_text(&format!("{ROW}expect port A C ab\nround 2\nexpect port A C none\nexpect port A C ab\nreport C\n"));
    assert_eq!((told.status, told.last_line()), (1, "end 17"));
    assert!(told.text().contains("\nexpectations: 1 met, 2 not met (lines 6, 8)\n"), "{}", told.text());
    assert!(told.text().contains("\nline 10, event 16: report C\n"), "{}", told.text());
}

// ---- the command line

#[test]
fn help() {
    let help = String::from_utf8(printed(PROGRAM, &[Path::new("--help")], b"")).expect("a text");
    for command in ["run FILE", "run --json FILE", "compare A B", "bytes FILE", "text FILE", "--help"] {
        assert!(help.contains(&format!("\n  planner {command} ")), "{command}: {help}");
    }
    assert!(planner(&["--help"], "").err.is_empty());
}

/// No such command: status 2, nothing on standard output, the words that were given and all that there is on standard error.
#[test]
fn no_such_command() {
    let help = printed(PROGRAM, &[Path::new("--help")], b"");
    let help = std::str::from_utf8(&help).expect("a text");
    let calls: &[&[&str]] = &[
        &[],
        &["walk"],
        &["walk", "-"],
        &["Run", "-"],
        &[""],
        &["run"],
        &["run", "-", "-"],
        &["run", "--jsn", "-"],
        &["run", "--json", "-", "-"],
        &["bytes"],
        &["bytes", "-", "-"],
        &["text"],
        &["text", "-", "-"],
        &["compare"],
        &["compare", "-"],
        &["compare", "a", "b", "c"],
        &["compare", "-", "-"],
        &["run", "--json"],
        &["--help", "-"],
        &["--version"],
    ];
    for call in calls {
        let told = planner(call, MOVED);
        assert_eq!((told.status, told.text()), (2, ""), "{call:?}");
        let first = told.err.lines().next().unwrap_or("");
        assert!(first.starts_with("planner: ") && told.err.ends_with(help), "{call:?}: {}", told.err);
        let about = call.first().copied().unwrap_or("no command");
        assert!(first.contains(about), "{call:?}: {first}");
    }
}

// ---- what a planner needs besides

/// A link before the bridges is out of order, as a view is; that its bridges have no name yet is not what is wrong.
#[test]
fn a_link_before_the_bridges() {
    let told = run_text("link ab A B\nbridges A B\nview v ab=1\n");
    let (line, words) = place(told.err.lines().next().expect("an error"));
    assert_eq!((told.status, line, number(words)), (1, 1, Some(4)), "{}", told.err);
}

/// A number that is too great is told as it was written, however great.
#[test]
fn a_cost_is_told_as_it_was_written() {
    for cost in ["4294967295", "4294967297", "18446744073709551617"] {
        refused_as_text(&format!("bridges A B\nlink ab A B\nview v ab={cost}\n"), 3, &[cost, "(9)"]);
    }
}

/// The line ends too early after `with`, as it does after `without`.
#[test]
fn nothing_after_with() {
    refused_as_text(&format!("{ROW}view x = v with\n"), 6, &["with"]);
    refused_as_text(&format!("{ROW}view x = v without ab with # ab=3\n"), 6, &["with"]);
}

/// A wrong line is told once: lines that use what it would have named are not told as well.
#[test]
fn one_mistake_is_one_error() {
    refused_as_text("bridges A B\nlink ab A X\nview v ab=1\n", 2, &["X", "(10)"]);
    refused_as_text("bridges A B,C\nlink ab A B\nview v ab=1\n", 1, &["B,C", "comma"]);
    refused_as_text(&format!("{ROW}watch A X\nexpect no outage\n"), 6, &["X", "(10)"]);
}

/// Errors come by line, whatever they are about.
#[test]
fn errors_come_by_line() {
    let told = run_text(&format!("{ROW}expect no outage\nreport X\n"));
    let at: Vec<usize> = told.err.lines().map(|error| place(error).0).collect();
    assert_eq!(at, [6, 7], "{}", told.err);
}

/// Who is not on which link is told by name, whichever line it is.
#[test]
fn not_on_the_link() {
    for event in ["send", "deliver", "repeat", "lose"] {
        let told = run_text(&format!("{ROW}{event} A over bc\n"));
        let (line, words) = place(told.err.trim_end());
        assert_eq!((told.status, line, number(words)), (1, 6, Some(11)), "{}", told.err);
        assert!(words.contains("A is not on bc"), "{}", told.err);
    }
}

/// The object of a text that cannot be read has all the names too, so that a program need not know which it was.
#[test]
fn the_object_of_a_wrong_text() {
    let told = planner(&["run", "--json", "-"], format!("{ROW}cutt ab\n"));
    text_shape::everything(&object(told.text(), false));
}
