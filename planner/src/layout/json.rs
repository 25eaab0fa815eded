//! Lays out as JSON what happened: one object, with the planner's names.

use crate::notation::fault::Fault;
use crate::notation::item::{Plan, Setup};
use crate::proved::library::{PathEnd, Verdict};
use crate::rehearsal::port::{condition, Port};
use crate::rehearsal::story::{Entry, Row, Story, Way, What};
use crate::rehearsal::watch::{Moment, Outage, Watched};
use crate::rehearsal::why::{Opening, Reason};

/// A value in JSON.
enum Json {
    Null,
    Flag(bool),
    Number(u64),
    Text(String),
    List(Vec<Json>),
    Object(Vec<(&'static str, Json)>),
}

use Json::{Flag, List, Null, Object};

fn number(n: usize) -> Json {
    Json::Number(n as u64)
}

fn text(words: &str) -> Json {
    Json::Text(words.to_string())
}

fn list<T>(items: impl IntoIterator<Item = T>, one: impl Fn(T) -> Json) -> Json {
    List(items.into_iter().map(one).collect())
}

fn or_null<T>(value: Option<T>, some: impl Fn(T) -> Json) -> Json {
    value.map_or(Null, some)
}

fn figure(value: Option<u32>) -> Json {
    or_null(value, |n| Json::Number(n.into()))
}

impl Json {
    fn write(&self, out: &mut String) {
        match self {
            Null => out.push_str("null"),
            Flag(flag) => out.push_str(if *flag { "true" } else { "false" }),
            Json::Number(n) => out.push_str(&n.to_string()),
            Json::Text(words) => quote(words, out),
            List(items) => {
                out.push('[');
                for (place, item) in items.iter().enumerate() {
                    out.push_str(if place == 0 { "" } else { "," });
                    item.write(out);
                }
                out.push(']');
            }
            Object(fields) => {
                out.push('{');
                for (place, (name, value)) in fields.iter().enumerate() {
                    out.push_str(if place == 0 { "" } else { "," });
                    quote(name, out);
                    out.push(':');
                    value.write(out);
                }
                out.push('}');
            }
        }
    }

    fn line(&self) -> String {
        let mut out = String::new();
        self.write(&mut out);
        out + "\n"
    }
}

fn quote(words: &str, out: &mut String) {
    out.push('"');
    for c in words.chars() {
        match c {
            '"' => out.push_str("\\\""),
            '\\' => out.push_str("\\\\"),
            c if c.is_control() => out.push_str(&format!("\\u{:04x}", c as u32)),
            c => out.push(c),
        }
    }
    out.push('"');
}

fn fault(one: &Fault) -> Json {
    let refusal = or_null(one.number, |n| number(n.into()));
    Object(vec![("line", number(one.line)), ("number", refusal), ("what", text(&one.what)), ("advice", text(&one.advice))])
}

/// A plan that could not be read.
pub fn faults(file: &str, all: &[Fault]) -> String {
    let expectations = Object(vec![("met", number(0)), ("unmet", List(Vec::new()))]);
    Object(vec![
        ("file", text(file)),
        ("good", Flag(false)),
        ("errors", list(all, fault)),
        ("events", number(0)),
        ("told", List(Vec::new())),
        ("watch", nothing_watched()),
        ("stretches", List(Vec::new())),
        ("expectations", expectations),
        ("warnings", List(Vec::new())),
    ])
    .line()
}

/// A plan that was carried out, as far as it went.
pub fn story(file: &str, plan: &Plan, story: &Story) -> String {
    let setup = &plan.setup;
    Object(vec![
        ("file", text(file)),
        ("good", Flag(story.is_good())),
        ("errors", list(&story.refused, fault)),
        ("events", number(story.events.len())),
        ("told", list(&story.entries, |entry| told(setup, entry))),
        ("watch", watch(setup, story)),
        ("stretches", stretches(story)),
        ("expectations", Object(vec![("met", number(story.met)), ("unmet", list(&story.unmet, |&line| number(line)))])),
        ("warnings", list(&story.warnings, |warning| text(warning))),
    ])
    .line()
}

fn told(setup: &Setup, entry: &Entry) -> Json {
    let bridge = |b: usize| text(&setup.bridges[b]);
    let (kind, mut more) = match &entry.what {
        What::Label(label) => ("label", vec![("text", text(label))]),
        What::Report { dest, rows } => (
            "report",
            vec![("to", bridge(*dest)), ("bridges", list(rows.iter().enumerate(), |(b, row)| report_row(setup, b, row)))],
        ),
        What::Paths { ways, .. } => ("paths", vec![("paths", list(ways, |way| path(setup, way)))]),
        What::Why(reason) => ("why", why(setup, reason)),
        What::Moved { by, pairs } => (
            "moved",
            vec![
                ("by", text(by)),
                ("lost", list(&pairs.lost, |&one| pair(setup, one))),
                ("regained", list(&pairs.regained, |&one| pair(setup, one))),
                ("gained", list(&pairs.gained, |&one| pair(setup, one))),
            ],
        ),
        What::Expected { text: words, found } => {
            ("expected", vec![("text", text(words)), ("met", Flag(found.is_none())), ("found", or_null(found.as_deref(), text))])
        }
    };
    let mut fields = vec![("kind", text(kind)), ("line", number(entry.line)), ("event", or_null(entry.event, number))];
    fields.append(&mut more);
    Object(fields)
}

fn pair(setup: &Setup, (start, dest): (usize, usize)) -> Json {
    Object(vec![("from", text(&setup.bridges[start])), ("to", text(&setup.bridges[dest]))])
}

fn link_name(setup: &Setup, link: Option<usize>) -> Json {
    or_null(link, |link| text(&setup.links[link].name))
}

fn verdict(setup: &Setup, one: Verdict) -> Json {
    let words = text(condition(one.number));
    Object(vec![("number", number(one.number as usize)), ("words", words), ("link", link_name(setup, one.link))])
}

fn report_row(setup: &Setup, bridge: usize, row: &Row) -> Json {
    Object(vec![
        ("bridge", text(&setup.bridges[bridge])),
        ("view", text(&setup.views[row.view].name)),
        ("distance", figure(row.distance)),
        ("link", link_name(setup, row.link)),
        ("verdict", verdict(setup, row.port.verdict)),
        ("dies", Flag(row.port.dies)),
    ])
}

/// Where a frame comes to: the bridge where it stops, or null.
fn stops(setup: &Setup, end: PathEnd) -> Json {
    if end.delivered {
        Null
    } else {
        text(&setup.bridges[end.last])
    }
}

fn path(setup: &Setup, way: &Way) -> Json {
    let stopped = |port: Port| Object(vec![("verdict", verdict(setup, port.verdict)), ("dies", Flag(port.dies))]);
    Object(vec![
        ("from", text(&setup.bridges[way.start])),
        ("to", text(&setup.bridges[way.dest])),
        ("delivered", Flag(way.end.delivered)),
        ("stops", stops(setup, way.end)),
        ("hops", number(way.end.hops as usize)),
        ("route", list(&way.route, |&bridge| text(&setup.bridges[bridge]))),
        ("port", or_null(way.stop, stopped)),
    ])
}

fn why(setup: &Setup, reason: &Reason) -> Vec<(&'static str, Json)> {
    let limit =
        |(link, limit): &(usize, Option<u32>)| Object(vec![("link", text(&setup.links[*link].name)), ("limit", figure(*limit))]);
    let view = |(view, distance): &(usize, u32)| {
        Object(vec![("view", text(&setup.views[*view].name)), ("distance", figure(Some(*distance)))])
    };
    let held = or_null(reason.held, |held| Object(vec![("limit", figure(held))]));
    let far = or_null(reason.far_end_down, |end| text(&setup.bridges[setup.bridge_at(end)]));
    vec![
        ("bridge", text(&setup.bridges[reason.bridge])),
        ("to", text(&setup.bridges[reason.dest])),
        ("verdict", verdict(setup, reason.verdict)),
        ("view", text(&setup.views[reason.view].name)),
        ("agreement", number(reason.agreement as usize)),
        ("distance", figure(reason.distance)),
        ("chosen", link_name(setup, reason.chosen)),
        ("held", held),
        ("sent", list(&reason.sent, limit)),
        ("elsewhere", list(&reason.elsewhere, view)),
        ("openings", list(&reason.openings, |one| opening(setup, one))),
        ("far_end_down", far),
        ("flight_full", Flag(reason.flight_full)),
        ("stops", or_null(reason.path, |end| stops(setup, end))),
    ]
}

fn opening(setup: &Setup, one: &Opening) -> Json {
    Object(vec![("words", text(&one.words)), ("lines", list(&one.lines, |line| text(line))), ("then", verdict(setup, one.then))])
}

fn moment(one: Moment) -> Json {
    Object(vec![("line", number(one.line)), ("event", number(one.event))])
}

fn nothing_watched() -> Json {
    let counts = ["pairs", "lost", "never", "still_lost"].map(|name| (name, number(0)));
    let none = [("longest", Null), ("worst", Null), ("outages", List(Vec::new()))];
    Object(counts.into_iter().chain(none).collect())
}

fn watch(setup: &Setup, story: &Story) -> Json {
    let watch = &story.watch;
    let outage = |(pair, one): (&Watched, Outage)| {
        Object(vec![
            ("from", text(&setup.bridges[pair.start])),
            ("to", text(&setup.bridges[pair.dest])),
            ("lost", moment(one.lost)),
            ("regained", or_null(one.regained, moment)),
            ("events", number(one.length(story.changes))),
        ])
    };
    let worst = |one: &Watched| {
        Object(vec![
            ("from", text(&setup.bridges[one.start])),
            ("to", text(&setup.bridges[one.dest])),
            ("events", number(one.without(story.changes))),
            ("outages", number(one.outages.len())),
        ])
    };
    Object(vec![
        ("pairs", number(watch.pairs.len())),
        ("lost", number(watch.lost().count())),
        ("never", number(watch.never().len())),
        ("still_lost", number(watch.still_lost())),
        ("longest", or_null(watch.longest(story.changes), outage)),
        ("worst", or_null(watch.worst(story.changes), worst)),
        ("outages", list(watch.outages(), outage)),
    ])
}

fn stretches(story: &Story) -> Json {
    list(story.stretches.iter().enumerate(), |(place, stretch)| {
        let begun = story.begun_in(place);
        Object(vec![
            ("label", or_null(stretch.label.as_deref(), text)),
            ("line", number(stretch.line)),
            ("events", number(stretch.events)),
            ("outages", number(begun.len())),
            ("longest", or_null(begun.into_iter().max(), number)),
        ])
    })
}
