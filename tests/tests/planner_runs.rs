//! What `planner run` tells, as compiled: held to reference/ and to rehearse on the same events, to the files beside the example plans, and
//! to a time.

// Another test file uses the rest of it.
#[allow(dead_code)]
#[path = "plans/make.rs"]
mod make;
// Likewise.
#[allow(dead_code)]
#[path = "planner/plan_call.rs"]
mod plan_call;
#[path = "planner/plan_leads.rs"]
mod plan_leads;
#[path = "planner/plan_meaning.rs"]
mod plan_meaning;
#[path = "planner/plan_names.rs"]
mod plan_names;
#[path = "planner/plan_of_bytes.rs"]
mod plan_of_bytes;
#[path = "planner/plan_rehearsal.rs"]
mod plan_rehearsal;
#[path = "planner/plan_setup.rs"]
mod plan_setup;
#[path = "planner/plan_text.rs"]
mod plan_text;
#[path = "planner/plan_told.rs"]
mod plan_told;
#[path = "planner/plan_watch.rs"]
mod plan_watch;
#[path = "plans/run.rs"]
mod run;
#[path = "planner/text_json.rs"]
mod text_json;

use bench_tests::count::Met;
use bench_tests::random::Random;
use bench_tests::root;
use plan_call::{planner, says, text_of, written};
use plan_leads::{asking_plan, questions};
use plan_meaning::{Deed, Plan};
use plan_of_bytes::plan_of_bytes;
use plan_rehearsal::{rehearsed, Rehearsal};
use plan_text::random_plan;
use plan_told::{as_rehearse, count_at, from_json, from_text, without_routes, Told};
use plan_watch::{figures_of, Figures};
use std::collections::BTreeMap;
use std::fs;
use std::path::PathBuf;
use std::time::{Duration, Instant};
use text_json::Json;

const BYTES: [&str; 2] = ["bytes", "-"];
const RUN: [&str; 2] = ["run", "-"];
const RUN_JSON: [&str; 3] = ["run", "--json", "-"];

/// What `planner run --json` says of a text: one line. Its status has to go with it.
fn json_of(text: &str) -> Json {
    let output = planner(&RUN_JSON, text.as_bytes());
    let said = text_of(&output.stdout);
    assert_eq!(said.find('\n'), Some(said.len() - 1), "one line: {said}\n{text}");
    let json = text_json::read(said).unwrap_or_else(|wrong| panic!("{wrong}: {said}"));
    assert_eq!(output.status.code(), Some(if json.at("good").is_true() { 0 } else { 1 }), "{said}\n{text}");
    json
}

// ---- reports and paths

/// The lines of expectations that were not met.
fn unmet_in(json: &Json) -> Vec<usize> {
    json.at("expectations").at("unmet").list().iter().map(|line| line.count() as usize).collect()
}

/// The count of events, and the error, if there is one.
fn check_outcome(plan: &Plan, expected: &Rehearsal, json: &Json) {
    let text = plan.text();
    assert_eq!(count_at(json, "events"), expected.events, "{text}");
    let error = |error: &Json| (count_at(error, "line"), count_at(error, "number") as u8);
    let errors: Vec<(usize, u8)> = json.at("errors").list().iter().map(error).collect();
    assert_eq!(errors, plan.refused.into_iter().collect::<Vec<_>>(), "{text}");
    assert_eq!(json.at("good").is_true(), errors.is_empty() && unmet_in(json).is_empty(), "{text}");
}

/// The same reports, paths and verdicts by JSON, by text, by rehearse and by the reference.
fn check_told(plan: &Plan, expected: &Rehearsal, json: &Json) {
    let text = plan.text();
    assert_eq!(from_json(json), expected.told, "JSON\n{text}");
    let output = planner(&RUN, text.as_bytes());
    assert_eq!(output.status.code(), Some(if json.at("good").is_true() { 0 } else { 1 }), "{text}");
    let printed = text_of(&output.stdout);
    let by_text = without_routes(&from_text(printed, plan.setup.bridges.len()));
    assert_eq!(by_text, without_routes(&expected.told), "{printed}\n{text}");
    if let Some((line, number)) = plan.refused {
        let errors = text_of(&output.stderr);
        assert!(says(errors.trim_end(), &line.to_string(), number), "{number} at line {line}: {errors}\n{text}");
    } else {
        assert_eq!(printed.lines().last(), Some(&format!("end {}", expected.events)[..]), "{text}");
    }
    // Nothing is written where an event is refused: then those before it are taken.
    let bytes = if plan.refused.is_some() { plan.bytes() } else { written(&BYTES, text.as_bytes()) };
    let printed = as_rehearse(&plan.setup, &from_json(json)) + &format!("end {}\n", count_at(json, "events"));
    assert_eq!(text_of(&run::printed("target/bin/rehearse", &[], &bytes)), printed, "rehearse\n{text}");
    assert_eq!(text_of(&reference::output(&bytes)), printed, "the reference\n{text}");
}

fn look(met: &mut Met, plan: &Plan, expected: &Rehearsal) {
    for told in &expected.told {
        match told {
            Told::Report { rows, .. } => {
                rows.iter().for_each(|row| met.note(format!("row {}", row.verdict.0)));
            }
            Told::Path { stops, .. } => met.note(if stops.is_some() { "stops" } else { "delivered" }),
            Told::Why { verdict, .. } => met.note(format!("why {}", verdict.0)),
        }
    }
    met.note(if plan.refused.is_some() { "refused" } else { "accepted" });
}

fn reports_and_paths(first_seed: u64, plans: u64, make: fn(&mut Random) -> Plan) -> Met {
    let mut met = Met::default();
    for seed in first_seed..first_seed + plans {
        println!("seed {seed}");
        let plan = make(&mut Random::new(seed));
        let (expected, json) = (rehearsed(&plan), json_of(&plan.text()));
        check_told(&plan, &expected, &json);
        check_outcome(&plan, &expected, &json);
        look(&mut met, &plan, &expected);
    }
    println!("{met:?}");
    met
}

#[test]
fn reports_and_paths_of_texts() {
    let met = reports_and_paths(11_000_000, 700, random_plan);
    met.at_least("rows", &[0, 1, 2, 3, 4, 5, 6].map(|number| format!("row {number}")), 100);
    met.at_least("paths", &["stops", "delivered"], 2_000);
    met.at_least("verdicts", &[0, 1, 2, 3, 4, 5, 6].map(|number| format!("why {number}")), 20);
    met.at_least("plans", &["refused", "accepted"], 50);
}

#[test]
fn reports_and_paths_of_bytes() {
    let met = reports_and_paths(12_000_000, 300, plan_of_bytes);
    met.at_least("rows", &[0, 1, 2, 3, 4, 5, 6].map(|number| format!("row {number}")), 200);
    met.at_least("paths", &["stops", "delivered"], 1_000);
    met.at_least("plans", &["refused", "accepted"], 50);
}

/// Expectations are met exactly where the reference has it so.
#[test]
fn expectations_of_texts() {
    let [mut met, mut unmet] = [0; 2];
    for seed in 16_000_000..16_000_500 {
        println!("seed {seed}");
        let plan = random_plan(&mut Random::new(seed));
        let (expected, json) = (rehearsed(&plan), json_of(&plan.text()));
        assert_eq!(unmet_in(&json), expected.unmet, "{}", plan.text());
        assert_eq!(count_at(json.at("expectations"), "met"), expected.met, "{}", plan.text());
        met += expected.met;
        unmet += expected.unmet.len();
    }
    assert!(met > 500 && unmet > 200, "{met} met, {unmet} not");
}

// ---- outages

/// How often a pair is lost.
fn times_lost(figures: &Figures) -> BTreeMap<&plan_watch::Names, usize> {
    let mut times = BTreeMap::new();
    figures.outages.iter().for_each(|outage| *times.entry(&outage.pair).or_default() += 1);
    times
}

fn look_at_outages(met: &mut Met, plan: &Plan, figures: &Figures) {
    let regained = figures.outages.iter().filter(|outage| outage.regained.is_some()).count();
    met.note_times("regained", regained);
    met.note_times("lasting", figures.outages.len() - regained);
    met.note_times("lost twice", times_lost(figures).values().filter(|&&times| times > 1).count());
    met.note_times("never", figures.never);
    let longest = figures.longest.as_ref().map(|longest| longest.events);
    let as_long = figures.outages.iter().filter(|outage| Some(outage.events) == longest).count();
    met.note_times("as long as the longest", as_long.saturating_sub(1));
    let watches = plan.lines.iter().filter(|line| matches!(line.deed, Deed::Watch(_))).count();
    met.note(["not watched", "watched once"].get(watches).copied().unwrap_or("watched by several lines"));
    let is_first = plan.lines.first().is_some_and(|line| matches!(line.deed, Deed::Watch(_)));
    met.note(if is_first { "watched from the start" } else { "not watched from the start" });
    if let (Some(longest), Some(worst)) = (&figures.longest, &figures.worst) {
        met.note(if longest.pair == *worst { "longest of the worst" } else { "longest of another" });
    }
}

fn outages(first_seed: u64, plans: u64, make: fn(&mut Random) -> Plan) -> Met {
    let mut met = Met::default();
    for seed in first_seed..first_seed + plans {
        println!("seed {seed}");
        let plan = make(&mut Random::new(seed));
        let expected = rehearsed(&plan).figures;
        assert_eq!(figures_of(&json_of(&plan.text())), expected, "{}", plan.text());
        look_at_outages(&mut met, &plan, &expected);
    }
    println!("{met:?}");
    met
}

const OUTAGES: [&str; 9] = [
    "regained",
    "lasting",
    "lost twice",
    "never",
    "as long as the longest",
    "watched once",
    "watched by several lines",
    "watched from the start",
    "not watched from the start",
];

#[test]
fn outages_of_texts() {
    let met = outages(13_000_000, 1_000, random_plan);
    met.at_least("outages", &OUTAGES, 100);
    met.at_least("outages", &["regained", "lasting"], 500);
    met.at_least("outages", &["longest of the worst", "longest of another"], 10);
}

#[test]
fn outages_of_bytes() {
    let met = outages(14_000_000, 500, plan_of_bytes);
    met.at_least("outages", &["regained", "lasting", "lost twice", "never", "watched by several lines"], 100);
}

// ---- why, and what leads on

/// Verdicts are the reference's. What is to lead on from one of 3 to 6 is accepted, comes to what was said, and leads on. It may be missing
/// only where the far end of the link is down, or where no message more can be sent.
#[test]
fn what_leads_on() {
    let (mut met, mut wrong) = (Met::default(), Vec::new());
    for seed in 15_000_000..15_000_550 {
        println!("seed {seed}");
        let plan = asking_plan(&mut Random::new(seed));
        let json = json_of(&plan.text());
        assert_eq!(from_json(&json), rehearsed(&plan).told, "{}", plan.text());
        for question in questions(&plan, &json) {
            met.note(question.verdict().0.to_string());
            for found in question.follow(json_of) {
                match found {
                    Ok(found) => met.note(found),
                    Err(error) => wrong.push(error),
                }
            }
        }
    }
    println!("{met:?}");
    wrong.sort_by_key(String::len);
    let some: String = wrong.iter().take(3).map(|error| format!("\n{error}")).collect();
    assert!(wrong.is_empty(), "{} times wrong, beside {met:?}:{some}", wrong.len());
    met.at_least("why", &["3", "4", "5", "6"], 200);
    met.at_least("why", &["0", "1", "2"], 20);
    met.at_least("then", &["3: then 0", "4: then 0", "5: then 0", "6: then 0"], 100);
    met.at_least("then", &["3: then 4", "3: then 5", "3: then 6", "5: then 6", "6: then 6"], 15);
    let none = ["4: the far end is down", "5: the far end is down", "4: the flight is full", "6: the flight is full"];
    met.at_least("nothing leads on", &none, 5);
}

// ---- the examples

/// The files of plans/ with this ending, by name without it.
fn examples(ending: &str) -> BTreeMap<String, PathBuf> {
    let entries = fs::read_dir(root().join("plans")).expect("the examples");
    let paths = entries.map(|entry| entry.expect("a readable folder").path());
    let with_ending = paths.filter(|path| path.extension().is_some_and(|e| e == ending));
    with_ending.map(|path| (path.file_stem().expect("a name").to_string_lossy().into_owned(), path)).collect()
}

/// Each example says what it is said to, from the first line to the last. It is run by the name that a reader of the repository gives.
#[test]
fn examples_print_what_stands_beside_them() {
    let plans = examples("txt");
    assert!(plans.len() >= 5, "only {:?}", plans.keys());
    assert!(plans.keys().eq(examples("run").keys()), "each plans/NAME.txt has a plans/NAME.run, and no other is there");
    for (name, path) in plans {
        let printed = printed_of(&["run", &format!("plans/{name}.txt")]);
        let expected = fs::read_to_string(path.with_extension("run")).expect("an output");
        assert_eq!(printed, expected, "{name}");
    }
}

/// What the planner prints, started in the repository's folder. It has to end with status 0.
fn printed_of(words: &[&str]) -> String {
    let mut command = std::process::Command::new(root().join("target/cargo/release/planner"));
    let output = run::outcome(command.args(words).current_dir(root()), b"", Duration::from_secs(30)).expect("an end in time");
    assert_eq!(output.status.code(), Some(0), "{words:?}: {}", text_of(&output.stderr));
    text_of(&output.stdout).to_string()
}

/// Where an example is there as text and as bytes, they are the same plan.
#[test]
fn examples_have_their_bytes() {
    let plans = examples("plan");
    let both: Vec<(String, PathBuf)> = examples("txt").into_iter().filter(|(name, _)| plans.contains_key(name)).collect();
    assert!(both.len() >= 4, "only {both:?}");
    for (name, path) in both {
        let bytes = written(&BYTES, &fs::read(path).expect("a plan"));
        assert!(bytes == fs::read(&plans[&name]).expect("a plan"), "{name}");
    }
}

// ---- two plans side by side

const COMPARED: [&str; 2] = ["plans/hospital.txt", "plans/hospital_in_steps.txt"];

/// The rows of a table whose columns stand apart by two spaces or more: what comes first, and a figure for each plan.
fn rows_of(table: &str) -> BTreeMap<String, [String; 2]> {
    let cells =
        |line: &str| line.split("  ").map(str::trim).filter(|cell| !cell.is_empty()).map(String::from).collect::<Vec<_>>();
    let row = |line: &str| match &cells(line)[..] {
        [name, first, second] => (name.clone(), [first.clone(), second.clone()]),
        other => panic!("no row: {other:?}"),
    };
    let (names, rows) = table.split_once('\n').expect("a first line");
    assert_eq!(cells(names), COMPARED);
    rows.lines().map(row).collect()
}

/// The same figures by JSON.
fn figures_in(json: &Json) -> Vec<(&'static str, String)> {
    let figures = figures_of(json);
    let questions = from_json(json).iter().filter(|told| !matches!(told, Told::Why { .. })).count();
    let events = count_at(json, "events");
    let end = |outage: &plan_watch::Outage| if outage.regained.is_none() { ", not over" } else { "" };
    let longest = figures.longest.map_or("0".to_string(), |outage| format!("{}{}", outage.events, end(&outage)));
    let worst = figures.worst.map_or("-".to_string(), |[from, to]| format!("{from} to {to}"));
    let unmet = json.at("expectations").at("unmet").list().len();
    let is_refused = !json.at("errors").list().is_empty();
    vec![
        ("events", events.to_string()),
        ("events but reports and paths", (events - questions).to_string()),
        ("pairs watched", figures.pairs.to_string()),
        ("pairs lost", figures.lost.to_string()),
        ("outages", figures.outages.len().to_string()),
        ("longest outage, in events", longest),
        ("worst pair", worst),
        ("pairs still lost at the end", figures.still_lost.to_string()),
        ("pairs that never had a path", figures.never.to_string()),
        ("warnings", json.at("warnings").list().len().to_string()),
        ("expectations not met", unmet.to_string()),
        ("refused", if is_refused { "yes" } else { "no" }.to_string()),
    ]
}

#[test]
fn compared_figures() {
    let rows = rows_of(&printed_of(&["compare", COMPARED[0], COMPARED[1]]));
    let figures = COMPARED.map(|plan| figures_in(&text_json::read(&printed_of(&["run", "--json", plan])).expect("JSON")));
    for (k, (name, first)) in figures[0].iter().enumerate() {
        assert_eq!(rows.get(*name), Some(&[first.clone(), figures[1][k].1.clone()]), "{name}");
    }
    assert_eq!(rows.len(), figures[0].len(), "{rows:?}");
    assert_ne!(rows["pairs lost"][0], rows["pairs lost"][1], "the plans differ");
}

// ---- time

/// 16 bridges, each with links to the next and the one after, and 1,000 events with all 240 pairs watched.
fn long_plan() -> String {
    let mut lines = vec!["bridges ".to_string() + &(0..16).map(|bridge| format!("b{bridge} ")).collect::<String>()];
    lines.extend((0..32).map(|link| format!("link l{link} b{} b{}", link % 16, (link + 1 + link / 16) % 16)));
    for view in 0..2 {
        let costs: String = (0..32).map(|link| format!(" l{link}={}", 10 + (link * 7 + view * 5) % 9)).collect();
        lines.push(format!("view v{view}{costs}"));
    }
    lines.push("watch all".to_string());
    for k in 0..8 {
        lines.push(format!("update all to v{}", k % 2));
        lines.extend((k < 6).then(|| "round".to_string()));
    }
    lines.extend((0..26).flat_map(|link| [format!("cut l{link}"), format!("restore l{link}")]));
    lines.join("\n") + "\n"
}

/// A thousand events with all pairs watched take well under a second; machines are noisy.
#[test]
fn a_thousand_events() {
    let text = long_plan();
    let json = json_of(&text);
    assert_eq!([count_at(&json, "events"), count_at(json.at("watch"), "pairs")], [1_000, 240]);
    assert!(count_at(json.at("watch"), "lost") > 100, "pairs are lost on the way");
    let mut times: Vec<Duration> = (0..9).map(|_| time_of(&text)).collect();
    times.sort();
    println!("1,000 events, 240 pairs: best {:?}, median {:?}", times[0], times[4]);
    assert!(times[4] < Duration::from_millis(1_500), "{times:?}");
}

fn time_of(text: &str) -> Duration {
    let start = Instant::now();
    written(&RUN, text.as_bytes());
    start.elapsed()
}
