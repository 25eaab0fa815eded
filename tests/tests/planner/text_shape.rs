//! What `planner run --json` prints: one object on one line, with the names that the page of the notation gives.

use crate::text_json::{read, Json};

/// The object that was printed. A text that cannot be read has its file and its errors; a plan that was begun has everything.
pub fn object(out: &str, begun: bool) -> Json {
    let line = out.strip_suffix('\n').unwrap_or_else(|| panic!("the output does not end its line: {}", short(out)));
    assert!(!line.contains('\n'), "more than one line: {}", short(out));
    let json = read(line).unwrap_or_else(|wrong| panic!("{wrong}: {}", short(out)));
    json.at("file").text();
    json.at("good").is_true();
    json.at("errors").list().iter().for_each(error);
    if begun {
        everything(&json);
    }
    json
}

fn short(out: &str) -> String {
    out.chars().take(500).collect()
}

/// There is no number where document 01 has none, and an empty advice where there is nothing to advise.
fn error(error: &Json) {
    assert!(error.at("line").count() > 0);
    assert!(!error.at("what").text().is_empty());
    error.at("advice").text();
    if *error.at("number") != Json::Null {
        error.at("number").count();
    }
}

/// All that the page names, also where it is empty.
pub fn everything(json: &Json) {
    json.at("events").count();
    json.at("told").list();
    json.at("stretches").list();
    json.at("warnings").list().iter().for_each(|warning| assert!(!warning.text().is_empty()));
    json.at("expectations").at("met").count();
    json.at("expectations").at("unmet").list().iter().for_each(|line| assert!(line.count() > 0));
    let watch = json.at("watch");
    for name in ["pairs", "lost", "never", "still_lost"] {
        watch.at(name).count();
    }
    watch.at("longest");
    watch.at("worst");
    watch.at("outages").list().iter().for_each(outage);
}

fn outage(outage: &Json) {
    assert_ne!(outage.at("from").text(), outage.at("to").text());
    let lost = moment(outage.at("lost"));
    match outage.at("regained") {
        Json::Null => {}
        regained => assert!(moment(regained) > lost, "regained before it was lost: {outage:?}"),
    }
    outage.at("events").count();
}

/// The event and the line of a moment; later events come later.
fn moment(at: &Json) -> (u64, u64) {
    (at.at("event").count(), at.at("line").count())
}
