//! What `planner run` tells of ports, distances, paths and verdicts, in one form for all who tell it: the planner's JSON, its text, and
//! what reference/ says (plan_rehearsal.rs).

use crate::plan_meaning::Setup;
use crate::text_json::Json;

/// The number of a verdict, and the link that it names.
pub type Verdict = (usize, Option<String>);

/// A bridge in a report.
#[derive(Clone, Debug, PartialEq)]
pub struct Row {
    pub bridge: String,
    pub view: String,
    pub distance: Option<usize>,
    pub link: Option<String>,
    pub verdict: Verdict,
}

#[derive(Clone, Debug, PartialEq)]
pub enum Told {
    Report {
        line: usize,
        event: usize,
        to: String,
        rows: Vec<Row>,
    },
    /// Where it stops, if it is not delivered, and by which bridges it goes; the table of `path all` does not tell the latter.
    Path {
        line: usize,
        event: usize,
        from: String,
        to: String,
        stops: Option<String>,
        hops: usize,
        route: Vec<String>,
    },
    Why {
        line: usize,
        bridge: String,
        to: String,
        verdict: Verdict,
    },
}

// ---- from JSON

/// Nothing for null.
pub fn unless_null(value: &Json) -> Option<&Json> {
    Some(value).filter(|value| **value != Json::Null)
}

pub fn count_at(object: &Json, name: &str) -> usize {
    object.at(name).count() as usize
}

pub fn text_at(object: &Json, name: &str) -> String {
    object.at(name).text().to_string()
}

fn text_or_null_at(object: &Json, name: &str) -> Option<String> {
    unless_null(object.at(name)).map(|value| value.text().to_string())
}

pub fn verdict_of(verdict: &Json) -> Verdict {
    (count_at(verdict, "number"), text_or_null_at(verdict, "link"))
}

fn row_of(row: &Json) -> Row {
    Row {
        bridge: text_at(row, "bridge"),
        view: text_at(row, "view"),
        distance: unless_null(row.at("distance")).map(|distance| distance.count() as usize),
        link: text_or_null_at(row, "link"),
        verdict: verdict_of(row.at("verdict")),
    }
}

/// The paths of one line: their events follow each other.
fn paths_of(told: &Json) -> Vec<Told> {
    let (line, first) = (count_at(told, "line"), count_at(told, "event"));
    let path = |(k, path): (usize, &Json)| {
        let stops = text_or_null_at(path, "stops");
        assert_eq!(path.at("delivered").is_true(), stops.is_none(), "{path:?}");
        let [from, to] = ["from", "to"].map(|name| text_at(path, name));
        let route = path.at("route").list().iter().map(|bridge| bridge.text().to_string()).collect();
        Told::Path { line, event: first + k, from, to, stops, hops: count_at(path, "hops"), route }
    };
    told.at("paths").list().iter().enumerate().map(path).collect()
}

/// What the planner's JSON tells.
pub fn from_json(run: &Json) -> Vec<Told> {
    let of = |told: &Json| {
        let line = count_at(told, "line");
        match told.at("kind").text() {
            "report" => {
                let rows = told.at("bridges").list().iter().map(row_of).collect();
                vec![Told::Report { line, event: count_at(told, "event"), to: text_at(told, "to"), rows }]
            }
            "paths" => paths_of(told),
            "why" => {
                let [bridge, to] = ["bridge", "to"].map(|name| text_at(told, name));
                vec![Told::Why { line, bridge, to, verdict: verdict_of(told.at("verdict")) }]
            }
            "label" | "expected" | "moved" => Vec::new(),
            other => panic!("{other} is told"),
        }
    };
    run.at("told").list().iter().flat_map(of).collect()
}

// ---- from the planner's text

fn number(word: &str) -> usize {
    word.parse().unwrap_or_else(|_| panic!("no number: {word}"))
}

/// A link or a number, `-` standing for none.
fn unless_dash(word: &str) -> Option<String> {
    Some(word.to_string()).filter(|word| word != "-")
}

/// `forwards on L`, `reason 1: words` or, from 3 on, `reason 3: words: L`.
fn verdict_in(words: &[&str]) -> Verdict {
    match words {
        ["forwards", "on", link] => (0, Some(link.to_string())),
        ["reason", numbered, .., last] => {
            let number = number(numbered.strip_suffix(':').unwrap_or_else(|| panic!("no number: {words:?}")));
            (number, (number > 2).then(|| last.to_string()))
        }
        _ => panic!("no verdict: {words:?}"),
    }
}

fn row_in(line: &str) -> Row {
    let words: Vec<&str> = line.split_whitespace().collect();
    let [bridge, view, distance, link, reason @ ..] = &words[..] else { panic!("no row: {line}") };
    let link = unless_dash(link);
    let verdict = if link.is_some() { (0, link.clone()) } else { verdict_in(reason) };
    let distance = unless_dash(distance).map(|word| number(&word));
    Row { bridge: bridge.to_string(), view: view.to_string(), distance, link, verdict }
}

/// `path A B: delivered after 1 hop: A B` or `path A C: stops at B after 1 hop: A B; why`. Its line and event are put in later.
fn path_in(line: &str) -> Told {
    let words: Vec<&str> = line.split_whitespace().collect();
    let (stops, hops, rest) = match &words[3..] {
        ["delivered", "after", hops, _, rest @ ..] => (None, number(hops), rest),
        ["stops", "at", stop, "after", hops, _, rest @ ..] => (Some(stop.to_string()), number(hops), rest),
        _ => panic!("no path: {line}"),
    };
    let mut route: Vec<String> = rest[..=hops].iter().map(|bridge| bridge.to_string()).collect();
    if stops.is_some() {
        let last = route.pop().and_then(|last| last.strip_suffix(';').map(String::from));
        route.push(last.unwrap_or_else(|| panic!("no reason: {line}")));
    }
    let to = words[2].strip_suffix(':').unwrap_or_else(|| panic!("no path: {line}")).to_string();
    Told::Path { line: 0, event: 0, from: words[1].to_string(), to, stops, hops, route }
}

/// The same at a line and an event.
fn path_at(place: (usize, usize), told: Told) -> Told {
    match told {
        Told::Path { from, to, stops, hops, route, .. } => {
            Told::Path { line: place.0, event: place.1, from, to, stops, hops, route }
        }
        other => other,
    }
}

/// The table of `path all`, each cell by its row and column: hops, or `-` for a path that is told of below the table.
fn cells_in(table: &[&str]) -> Vec<(String, String, String)> {
    let rows: Vec<Vec<&str>> = table.iter().map(|line| line.split_whitespace().collect()).collect();
    let cell = |row: &[&str], k: usize| (row[0].to_string(), rows[0][k].to_string(), row[k + 1].to_string());
    rows[1..].iter().flat_map(|row| (0..rows[0].len()).map(|k| cell(row, k))).filter(|cell| cell.2 != ".").collect()
}

/// The lines below `path all`: a table, then a line for each path that stops. The count in its heading has to be right.
fn all_paths_in(line: usize, event: usize, heading: &str, below: &[&str], bridges: usize) -> Vec<Told> {
    let (table, stopped) = below.split_at(bridges + 1);
    let cells = cells_in(table);
    let mut stopped = stopped.iter().map(|line| path_in(line));
    let mut told = Vec::new();
    for (k, (from, to, hops)) in cells.iter().enumerate() {
        let path = if hops == "-" {
            stopped.next().expect("a line for a path that stops")
        } else {
            let (from, to) = (from.clone(), to.clone());
            Told::Path { line, event, from, to, stops: None, hops: number(hops), route: Vec::new() }
        };
        told.push(path_at((line, event + k), path));
    }
    assert_eq!(stopped.next(), None, "{heading}");
    let delivered = told.iter().filter(|told| matches!(told, Told::Path { stops: None, .. })).count();
    assert!(heading.starts_with(&format!("path all: {delivered} of {} delivered;", cells.len())), "{heading}");
    told
}

/// What a line at the margin tells, with the indented ones below it.
fn told_in(heading: &str, below: &[&str], bridges: usize) -> Vec<Told> {
    let Some((place, what)) = heading.strip_prefix("line ").and_then(|rest| rest.split_once(": ")) else { return Vec::new() };
    let words: Vec<&str> = what.split_whitespace().collect();
    let (line, event) = match place.split_once(", event ") {
        // An event that took or gave paths.
        Some((_, event)) if event.contains(',') => return Vec::new(),
        Some((line, event)) => (number(line), number(event)),
        None => (number(place), 0),
    };
    match words[..] {
        ["report", to] => {
            assert_eq!(below.len(), bridges + 1, "{heading}");
            vec![Told::Report { line, event, to: to.to_string(), rows: below[1..].iter().map(|row| row_in(row)).collect() }]
        }
        ["path", "all:", ..] => all_paths_in(line, event, what, below, bridges),
        ["path", ..] => vec![path_at((line, event), path_in(what))],
        ["why", bridge, to, ..] => {
            let to = to.strip_suffix(':').unwrap_or_else(|| panic!("{heading}")).to_string();
            vec![Told::Why { line, bridge: bridge.to_string(), to, verdict: verdict_in(&words[3..]) }]
        }
        ["expect", ..] => Vec::new(),
        _ => panic!("{heading}"),
    }
}

/// What the planner's text tells.
pub fn from_text(text: &str, bridges: usize) -> Vec<Told> {
    let lines: Vec<&str> = text.lines().collect();
    let is_below = |line: &&&str| line.starts_with("  ");
    let mut told = Vec::new();
    for (k, line) in lines.iter().enumerate() {
        let below = lines[k + 1..].iter().take_while(is_below).count();
        told.extend(told_in(line, &lines[k + 1..k + 1 + below], bridges));
    }
    told
}

/// The same without the routes of delivered paths, which the table of `path all` does not have.
pub fn without_routes(told: &[Told]) -> Vec<Told> {
    let bare = |told: &Told| match told.clone() {
        Told::Path { line, event, from, to, stops: None, hops, .. } => {
            Told::Path { line, event, from, to, stops: None, hops, route: Vec::new() }
        }
        other => other,
    };
    told.iter().map(bare).collect()
}

// ---- as rehearse prints it

fn place(names: &[String], name: &str) -> usize {
    names.iter().position(|own| own == name).unwrap_or_else(|| panic!("{name} is not among {names:?}"))
}

fn or_dash(number: Option<usize>) -> String {
    number.map_or("-".to_string(), |number| number.to_string())
}

/// The reports and paths, with numbers for names.
pub fn as_rehearse(setup: &Setup, told: &[Told]) -> String {
    let bridge = |name: &str| place(&setup.bridges, name);
    let mut printed = String::new();
    for told in told {
        match told {
            Told::Report { to, rows, .. } => {
                printed += &format!("dest {}\n", bridge(to));
                for row in rows {
                    let link = row.link.as_ref().map(|link| place(&setup.links, link));
                    printed += &format!("{} {} {}\n", bridge(&row.bridge), or_dash(row.distance), or_dash(link));
                }
            }
            Told::Path { from, to, stops: None, hops, .. } => {
                printed += &format!("path {} {} delivered {hops}\n", bridge(from), bridge(to));
            }
            Told::Path { from, to, stops: Some(stop), hops, .. } => {
                printed += &format!("path {} {} stops {} {hops}\n", bridge(from), bridge(to), bridge(stop));
            }
            Told::Why { .. } => {}
        }
    }
    printed
}
