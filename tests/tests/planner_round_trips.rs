//! Plans of bytes turned into text and back, and plans of text turned into bytes, by the planner as compiled. What is meant is worked out
//! here and by reference/.

#[path = "plans/make.rs"]
mod make;
#[path = "planner/plan_call.rs"]
mod plan_call;
// Another test file uses the rest of it.
#[allow(dead_code)]
#[path = "planner/plan_meaning.rs"]
mod plan_meaning;
#[path = "planner/plan_names.rs"]
mod plan_names;
#[path = "planner/plan_setup.rs"]
mod plan_setup;
#[path = "planner/plan_text.rs"]
mod plan_text;
// Likewise.
#[allow(dead_code)]
#[path = "plans/run.rs"]
mod run;
#[path = "plans/spoil.rs"]
mod spoil;

use bench_tests::count::Met;
use bench_tests::random::Random;
use plan_call::{planner, refusal, says, text_of, written};
use plan_meaning::Plan;
use plan_text::random_plan;

const TEXT: [&str; 2] = ["text", "-"];
const BYTES: [&str; 2] = ["bytes", "-"];

// ---- from bytes to text and back

/// The number and the offset with which the reference refuses a plan of bytes; nothing where it is carried out to its end.
fn refused(plan: &[u8]) -> Option<(u8, usize)> {
    let output = reference::output(plan);
    let last = text_of(&output).lines().last().expect("a last line").to_string();
    match last.split(' ').collect::<Vec<_>>()[..] {
        ["end", _] => None,
        ["refused", number, "at", offset] => Some((number.parse().expect("a number"), offset.parse().expect("an offset"))),
        _ => panic!("{last}"),
    }
}

/// Is the event one that has a text, though the network as it stands then refuses it.
fn has_text(number: u8) -> bool {
    (11..=15).contains(&number)
}

fn field_length(field: &[u8]) -> usize {
    3 + usize::from(u16::from_be_bytes([field[1], field[2]]))
}

/// The refusal of the first field that no text stands for: it cannot be read, or names what the plan does not have. An event that has a text,
/// though it is refused, gives way to one of its length that is always accepted: a report or a path of bridge 0.
fn without_text(plan: &[u8]) -> Option<(u8, usize)> {
    let mut plan = plan.to_vec();
    while let Some((number, offset)) = refused(&plan) {
        if !has_text(number) {
            return Some((number, offset));
        }
        let accepted: &[u8] = if field_length(&plan[offset..]) == 4 { &[11, 0, 1, 0] } else { &[12, 0, 2, 0, 0] };
        plan[offset..offset + accepted.len()].copy_from_slice(accepted);
    }
    None
}

/// The line that stands for the field at this offset: there is one for each.
fn line_of(plan: &[u8], offset: usize) -> usize {
    let (mut line, mut at) = (1, 0);
    while at < offset {
        at += field_length(&plan[at..]);
        line += 1;
    }
    assert_eq!(at, offset, "no field begins there");
    line
}

/// No such bridge, view or link.
const NO_SUCH: u8 = 10;

/// What is noted where such an event is passed over for a later field that cannot be read. None may be; all else is checked first.
const PASSED_OVER: &str = "10 passed over";

/// A plan of bytes to text, and the text back. What it is that was met.
fn turn(plan: &[u8]) -> String {
    if let Some((number, offset)) = without_text(plan) {
        let said = refusal(&TEXT, plan);
        if number == NO_SUCH && !says(&said, &format!(" byte {offset}"), number) {
            return format!("{PASSED_OVER}: {said}");
        }
        assert!(says(&said, &format!(" byte {offset}"), number), "{number} at byte {offset}: {said}");
        let first = refused(plan).map(|refused| refused.0);
        return format!("{}no text, {number}", if first == Some(number) { "" } else { "refused before, and " });
    }
    let text = written(&TEXT, plan);
    let Some((number, offset)) = refused(plan) else {
        let back = written(&BYTES, &text);
        assert!(back == plan, "{plan:?} became {back:?} by way of\n{}", text_of(&text));
        return "the same bytes".to_string();
    };
    let (said, line) = (refusal(&BYTES, &text), line_of(plan, offset));
    assert!(says(&said, &line.to_string(), number), "{number} at line {line}: {said}\n{}", text_of(&text));
    format!("text, then {number}")
}

/// So many plans from these seeds. A plan that fails is told by its seed.
fn turns(first_seed: u64, plans: u64, make: fn(&mut Random) -> Vec<u8>) -> Met {
    let mut met = Met::default();
    for seed in first_seed..first_seed + plans {
        println!("seed {seed}");
        met.note(turn(&make(&mut Random::new(seed))));
    }
    println!("{met:?}");
    met
}

/// The first wrong field of a plan is the one that is told.
fn none_passed_over(met: &Met) {
    let passed_over: Vec<&String> = met.0.keys().filter(|what| what.starts_with(PASSED_OVER)).collect();
    assert!(passed_over.is_empty(), "{passed_over:#?}");
}

#[test]
fn sensible_bytes() {
    let met = turns(5_000_000, 1_000, make::sensible);
    met.at_least("sensible", &["the same bytes"], 500);
    met.at_least("sensible", &[11, 12, 13, 14, 15].map(|number| format!("text, then {number}")), 10);
    met.at_least("sensible", &["no text, 10"], 10);
    none_passed_over(&met);
}

#[test]
fn damaged_bytes() {
    let met = turns(6_000_000, 1_000, spoil::damaged);
    met.at_least("damaged", &["the same bytes"], 50);
    let numbers = (1..=10).chain([18]);
    met.at_least("damaged", &numbers.map(|number| format!("no text, {number}")).collect::<Vec<_>>(), 7);
    none_passed_over(&met);
}

#[test]
fn arbitrary_bytes() {
    let met = turns(7_000_000, 1_000, spoil::arbitrary);
    met.at_least("arbitrary", &["the same bytes"], 100);
    met.at_least("arbitrary", &[11, 12, 14, 15].map(|number| format!("text, then {number}")), 5);
    met.at_least("arbitrary", &[1, 2, 3, 4, 10, 18].map(|number| format!("no text, {number}")), 10);
    met.at_least("arbitrary", &["refused before, and no text, 10"], 10);
    none_passed_over(&met);
}

// ---- from text to bytes

/// Lines that plans of bytes do not have.
const NO_BYTES: [&str; 4] = ["watch", "why", "expect", "label"];

/// The planner's note names those that the plan has, and there is none where it has none.
fn check_note(plan: &Plan, note: &str) {
    let (_, named) = note.trim_end().rsplit_once(": ").unwrap_or_default();
    let named: Vec<&str> = named.split(", ").filter(|word| !word.is_empty()).collect();
    let has = |word: &&&str| plan.kinds.iter().any(|kind| kind.split(' ').next() == Some(word));
    for word in NO_BYTES.iter().filter(has) {
        assert!(named.contains(word), "{word} is not in: {note}");
    }
    let count = NO_BYTES.iter().filter(has).count();
    assert_eq!(named.len(), count, "{note}");
}

/// The bytes of a plan of text have to be those that are meant, or its refusal the one that is due.
fn check_bytes(plan: &Plan) {
    let text = plan.text();
    if let Some((line, number)) = plan.refused {
        let said = refusal(&BYTES, text.as_bytes());
        assert!(says(&said, &line.to_string(), number), "{number} at line {line}: {said}\n{text}");
        return;
    }
    let output = planner(&BYTES, text.as_bytes());
    let errors = text_of(&output.stderr);
    assert_eq!(output.status.code(), Some(0), "{errors}\n{text}");
    assert!(output.stdout == plan.bytes(), "{:?}\nin place of\n{:?}\nfrom\n{text}", output.stdout, plan.bytes());
    check_note(plan, errors);
}

/// All kinds of lines.
const KINDS: [&str; 34] = [
    "view by costs",
    "view with",
    "view without",
    "view with and without",
    "update some",
    "update all",
    "send",
    "send all",
    "deliver place",
    "deliver all",
    "deliver by name",
    "repeat place",
    "repeat all",
    "repeat by name",
    "lose place",
    "lose all",
    "lose by name",
    "round",
    "round times",
    "cut both",
    "cut one",
    "restore both",
    "restore one",
    "report",
    "report all",
    "path",
    "path all",
    "watch",
    "watch all",
    "why",
    "expect path",
    "expect port",
    "expect no outage",
    "label",
];

#[test]
fn texts() {
    let mut met = Met::default();
    for seed in 8_000_000..8_001_200 {
        println!("seed {seed}");
        let plan = random_plan(&mut Random::new(seed));
        check_bytes(&plan);
        plan.kinds.iter().for_each(|&kind| met.note(kind));
        met.note(plan.refused.map_or("accepted".to_string(), |(_, number)| format!("refused {number}")));
    }
    println!("{met:?}");
    met.at_least("texts", &KINDS, 300);
    met.at_least("texts", &["accepted"], 1_000);
    met.at_least("texts", &[11, 12, 13, 14, 15].map(|number| format!("refused {number}")), 5);
}

/// The text that the planner writes is the normal form: one line a field, and another turn changes nothing.
#[test]
fn normal_form() {
    let mut changed = 0;
    for seed in 9_000_000..9_000_500 {
        println!("seed {seed}");
        let plan = random_plan(&mut Random::new(seed));
        if plan.refused.is_some() {
            continue;
        }
        let bytes = written(&BYTES, plan.text().as_bytes());
        let normal = written(&TEXT, &bytes);
        assert_eq!(text_of(&normal).lines().count(), line_of(&bytes, bytes.len()) - 1);
        assert!(written(&BYTES, &normal) == bytes);
        assert_eq!(text_of(&written(&TEXT, &written(&BYTES, &normal))), text_of(&normal));
        changed += usize::from(normal != plan.text().into_bytes());
    }
    assert!(changed > 300, "{changed}");
}
