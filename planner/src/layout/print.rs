//! Lays out in text what happened.

use crate::layout::table::Table;
use crate::notation::fault::shown;
use crate::notation::item::{Plan, Setup};
use crate::proved::library::PathEnd;
use crate::rehearsal::port::{death, port_words, verdict_words, FORWARDS};
use crate::rehearsal::story::{count, end_words, Entry, Row, Story, Way, What};
use crate::rehearsal::watch::{Moment, Moved, Outage, Watched};
use crate::rehearsal::why::{Limit, Opening, Reason};

/// The most pairs that are named where an event moved them; the list of outages has them all.
const NAMED: usize = 6;

pub fn text(file: &str, plan: &Plan, story: &Story) -> String {
    let setup = &plan.setup;
    let mut lines = vec![format!(
        "{file}: {}, {}, {}",
        count(setup.bridges.len(), "bridge"),
        count(setup.links.len(), "link"),
        count(setup.views.len(), "view")
    )];
    for entry in &story.entries {
        lines.extend(told(setup, entry));
    }
    lines.push(String::new());
    lines.extend(summary(setup, story));
    if !story.warnings.is_empty() {
        lines.push("warnings:".into());
        lines.extend(story.warnings.iter().map(|warning| format!("  {warning}")));
    }
    lines.push(last_line(story));
    lines.join("\n") + "\n"
}

/// As `rehearse` ends, but for the place of a refusal.
fn last_line(story: &Story) -> String {
    match &story.refused {
        None => format!("end {}", story.events.len()),
        Some(fault) => {
            let number = fault.number.map_or(String::new(), |number| format!(" {number}"));
            format!("refused{number} at line {}", fault.line)
        }
    }
}

// ---- one entry

fn told(setup: &Setup, entry: &Entry) -> Vec<String> {
    let at = match entry.event {
        Some(event) => format!("line {}, event {event}", entry.line),
        None => format!("line {}", entry.line),
    };
    match &entry.what {
        What::Label(text) => vec![String::new(), format!("\"{text}\" (line {})", entry.line)],
        What::Report { dest, rows } => {
            let head = format!("{at}: report {}", setup.bridges[*dest]);
            [vec![head], indented(report(setup, rows))].concat()
        }
        What::Paths { all: false, ways } => ways.iter().map(|way| format!("{at}: {}", path(setup, way))).collect(),
        What::Paths { all: true, ways } => {
            let delivered = ways.iter().filter(|way| way.end.delivered).count();
            let head =
                format!("{at}: path all: {delivered} of {} delivered; hops by start (down) and destination (across)", ways.len());
            [vec![head], indented(matrix(setup, ways))].concat()
        }
        What::Why(reason) => [vec![format!("{at}: {}", why_head(setup, reason))], indented(why(setup, reason))].concat(),
        What::Moved { by, pairs } => vec![format!("{at}, {by}: {}", moved(setup, pairs))],
        What::Expected { text, found: None } => vec![format!("{at}: {text}: met")],
        What::Expected { text, found: Some(found) } => vec![format!("{at}: {text}: NOT MET: {found}")],
    }
}

fn indented(lines: Vec<String>) -> Vec<String> {
    lines.into_iter().map(|line| format!("  {line}")).collect()
}

fn or_dash(number: Option<u32>) -> String {
    number.map_or("-".into(), |number| number.to_string())
}

fn report(setup: &Setup, rows: &[Row]) -> Vec<String> {
    let mut table = Table::new(&["bridge", "view", "distance", "forwards on", ""]);
    for (bridge, row) in rows.iter().enumerate() {
        let link = row.link.map_or("-".into(), |link| setup.links[link].name.clone());
        let why = match row.port.verdict.number {
            FORWARDS => death(setup, row.port).unwrap_or_default(),
            _ => verdict_words(setup, row.port.verdict),
        };
        table.row(vec![setup.bridges[bridge].clone(), setup.views[row.view].name.clone(), or_dash(row.distance), link, why]);
    }
    table.lines()
}

fn pair(setup: &Setup, (start, dest): (usize, usize)) -> String {
    format!("{} to {}", setup.bridges[start], setup.bridges[dest])
}

fn path(setup: &Setup, way: &Way) -> String {
    let route: Vec<&str> = way.route.iter().map(|&bridge| setup.bridges[bridge].as_str()).collect();
    let stop = way.stop.map_or(String::new(), |port| format!("; {}", port_words(setup, port)));
    let [start, dest] = [way.start, way.dest].map(|bridge| &setup.bridges[bridge]);
    format!("path {start} {dest}: {}: {}{stop}", end_words(&setup.bridges, way.end), route.join(" "))
}

/// Hops for each pair, `-` where the path stops; then where those stop.
fn matrix(setup: &Setup, ways: &[Way]) -> Vec<String> {
    let names: Vec<&str> = [""].into_iter().chain(setup.bridges.iter().map(String::as_str)).collect();
    let mut table = Table::new(&names);
    for start in 0..setup.bridges.len() {
        let mut row = vec![".".to_string(); names.len()];
        row[0].clone_from(&setup.bridges[start]);
        for way in ways.iter().filter(|way| way.start == start) {
            row[1 + way.dest] = if way.end.delivered { way.end.hops.to_string() } else { "-".into() };
        }
        table.row(row);
    }
    let stopped = ways.iter().filter(|way| !way.end.delivered).map(|way| path(setup, way));
    table.lines().into_iter().chain(stopped).collect()
}

fn pairs(setup: &Setup, pairs: &[(usize, usize)]) -> String {
    let named: Vec<String> = pairs.iter().take(NAMED).map(|&one| pair(setup, one)).collect();
    let more = pairs.len().saturating_sub(NAMED);
    let more = if more == 0 { String::new() } else { format!(" and {more} more") };
    format!("{}{more}", named.join(", "))
}

fn moved(setup: &Setup, moved: &Moved) -> String {
    let part = |word: &str, list: &[(usize, usize)]| (!list.is_empty()).then(|| format!("{word} {}", pairs(setup, list)));
    let parts =
        [part("LOST", &moved.lost), part("regained", &moved.regained), part("path now, none since watched:", &moved.gained)];
    parts.into_iter().flatten().collect::<Vec<_>>().join("; ")
}

// ---- why

fn why_head(setup: &Setup, reason: &Reason) -> String {
    let Reason { bridge, dest, verdict, .. } = *reason;
    format!("why {} {}: {}", setup.bridges[bridge], setup.bridges[dest], verdict_words(setup, verdict))
}

fn why(setup: &Setup, reason: &Reason) -> Vec<String> {
    let link = |link: usize| setup.links[link].name.as_str();
    let own = &setup.bridges[reason.bridge];
    let mut lines = vec![format!(
        "{own} is on view {}, with agreement number {}; its distance is {}",
        setup.views[reason.view].name,
        reason.agreement,
        or_dash(reason.distance)
    )];
    if let Some(chosen) = reason.chosen {
        lines.push(format!("chosen link: {}", link(chosen)));
        if let Some(held) = reason.held {
            lines.push(format!(
                "held limit on {}: {}; it has to be at most the distance{}",
                link(chosen),
                limit(held),
                no_offer(&[held])
            ));
        }
    }
    if !reason.sent.is_empty() {
        let sent: Vec<String> = reason.sent.iter().map(|&(l, sent)| format!("{} {}", link(l), limit(sent))).collect();
        let limits: Vec<Limit> = reason.sent.iter().map(|one| one.1).collect();
        lines.push(format!("sent limits: {}; each has to be above the distance{}", sent.join(", "), no_offer(&limits)));
    }
    lines.extend(opens(setup, reason));
    lines
}

/// What an absent limit counts as, where there is one.
fn no_offer(limits: &[Limit]) -> &'static str {
    if limits.contains(&None) {
        " (no offer is above every distance)"
    } else {
        ""
    }
}

fn limit(limit: Limit) -> String {
    limit.map_or("no offer".into(), |limit| limit.to_string())
}

/// What would open the port, where that follows from the records; or what becomes of the frames of an open one.
fn opens(setup: &Setup, reason: &Reason) -> Vec<String> {
    let mut lines = Vec::new();
    if reason.distance.is_none() {
        lines.push(elsewhere(setup, reason));
    }
    for (place, one) in reason.openings.iter().enumerate() {
        lines.extend(opening(setup, one, if place == 0 { "what leads on" } else { "or" }));
    }
    if reason.flight_full {
        lines.push("64 messages are in flight, so that none can be sent: deliver or lose some, and ask again".into());
    }
    if let Some(end) = reason.far_end_down {
        let (bridge, link) = (&setup.bridges[setup.bridge_at(end)], &setup.links[end / 2].name);
        lines.push(format!(
            "{bridge}'s end of {link} is down: until it is restored {bridge} can send nothing over it, and no frame crosses it"
        ));
    }
    lines.extend(
        reason.path.filter(|end| !end.delivered && end.last != reason.bridge).map(|end| stops_elsewhere(setup, reason, end)),
    );
    lines
}

fn elsewhere(setup: &Setup, reason: &Reason) -> String {
    let one = |&(view, distance): &(usize, u32)| format!("{} ({distance})", setup.views[view].name);
    let views: Vec<String> = reason.elsewhere.iter().map(one).collect();
    if views.is_empty() {
        return "no view of the plan has a way there".into();
    }
    format!("views with a way there, and the distance: {}", views.join(", "))
}

fn opening(setup: &Setup, one: &Opening, head: &str) -> Vec<String> {
    let then = verdict_words(setup, one.then);
    vec![format!("{head}: {}; then: {then}", one.words), format!("  as lines: {}", one.lines.join(" | "))]
}

/// The port forwards, and the frame comes no farther than another bridge.
fn stops_elsewhere(setup: &Setup, reason: &Reason, end: PathEnd) -> String {
    let (last, dest) = (&setup.bridges[end.last], &setup.bridges[reason.dest]);
    format!("but the path stops at {last}: ask why {last} {dest}")
}

// ---- the summary

fn summary(setup: &Setup, story: &Story) -> Vec<String> {
    let mut lines = watched(setup, story);
    if story.stretches.len() > 1 {
        lines.push("stretches:".into());
        lines.extend(indented(stretches(story)));
    }
    if story.met + story.unmet.len() > 0 {
        let unmet: Vec<String> = story.unmet.iter().map(usize::to_string).collect();
        let at = match unmet.len() {
            0 => String::new(),
            1 => format!(" (line {})", unmet[0]),
            _ => format!(" (lines {})", unmet.join(", ")),
        };
        lines.push(format!("expectations: {} met, {} not met{at}", story.met, unmet.len()));
    }
    lines
}

fn watched(setup: &Setup, story: &Story) -> Vec<String> {
    let watch = &story.watch;
    if watch.pairs.is_empty() {
        return vec!["watched: nothing (\"watch all\" tells which pairs lose their path, and when)".into()];
    }
    let (lost, still, never) = (watch.lost().count(), watch.still_lost(), watch.never());
    let total = count(watch.pairs.len(), "pair");
    let mut lines =
        vec![format!("watched {total}: {lost} lost the path, {still} of them still at the end; {} never had one", never.len())];
    if !never.is_empty() {
        let never: Vec<(usize, usize)> = never.iter().map(|pair| (pair.start, pair.dest)).collect();
        lines.push(format!("never a path: {}", pairs(setup, &never)));
    }
    let Some((longest, outage)) = watch.longest(story.changes) else { return lines };
    lines.push(format!("longest outage: {}, {}", length(outage, story.changes), pair(setup, (longest.start, longest.dest))));
    if let Some(worst) = watch.worst(story.changes) {
        let events = count(worst.without(story.changes), "event");
        let outages = count(worst.outages.len(), "outage");
        lines.push(format!("worst pair: {}, {events} without a path in {outages}", pair(setup, (worst.start, worst.dest))));
    }
    lines.push("outages (their events leave out reports and paths):".into());
    lines.extend(indented(outages(setup, story)));
    lines
}

/// An outage's length in words.
fn length(outage: Outage, changes: usize) -> String {
    let events = count(outage.length(changes), "event");
    match outage.regained {
        Some(_) => events,
        None => format!("{events} to the plan's end, not over"),
    }
}

fn moment(moment: Moment) -> String {
    format!("line {}, event {}", moment.line, moment.event)
}

fn outages(setup: &Setup, story: &Story) -> Vec<String> {
    let mut table = Table::new(&["pair", "lost", "regained", "events"]);
    let row = |(watched, outage): (&Watched, Outage)| {
        let regained = outage.regained.map_or("not in this plan".into(), moment);
        let length = outage.length(story.changes).to_string();
        vec![pair(setup, (watched.start, watched.dest)), moment(outage.lost), regained, length]
    };
    story.watch.outages().into_iter().for_each(|one| table.row(row(one)));
    table.lines()
}

fn stretches(story: &Story) -> Vec<String> {
    let mut table = Table::new(&["stretch", "events", "outages begun", "longest"]);
    for (place, stretch) in story.stretches.iter().enumerate() {
        if place == 0 && stretch.events == 0 {
            continue;
        }
        let name = stretch.label.as_ref().map_or("before the first label".into(), |label| format!("\"{}\"", shown(label)));
        let lengths = story.begun_in(place);
        let longest = lengths.iter().max().map_or("-".into(), usize::to_string);
        table.row(vec![name, stretch.events.to_string(), lengths.len().to_string(), longest]);
    }
    table.lines()
}
