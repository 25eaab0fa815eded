//! Two orders of the same work, side by side.

use crate::layout::table::Table;
use crate::notation::item::Setup;
use crate::rehearsal::story::Story;

/// A plan by its name.
pub type Named<'a> = (&'a str, &'a Setup, &'a Story);

/// What is compared of one plan, a row each.
fn rows((name, setup, story): Named) -> Vec<(&'static str, String)> {
    let watch = &story.watch;
    let longest = watch.longest(story.changes).map_or("0".into(), |(_, outage)| {
        let over = if outage.regained.is_some() { "" } else { ", not over" };
        format!("{}{over}", outage.length(story.changes))
    });
    let pair = |start: usize, dest: usize| format!("{} to {}", setup.bridges[start], setup.bridges[dest]);
    vec![
        ("", name.to_string()),
        ("events", story.events.len().to_string()),
        ("events but reports and paths", story.changes.to_string()),
        ("pairs watched", watch.pairs.len().to_string()),
        ("pairs lost", watch.lost().count().to_string()),
        ("outages", watch.outages().len().to_string()),
        ("longest outage, in events", longest),
        ("worst pair", watch.worst(story.changes).map_or("-".into(), |one| pair(one.start, one.dest))),
        ("pairs still lost at the end", watch.still_lost().to_string()),
        ("pairs that never had a path", watch.never().len().to_string()),
        ("expectations not met", story.unmet.len().to_string()),
        ("warnings", story.warnings.len().to_string()),
        ("refused", story.refused.as_ref().map_or("no".into(), |fault| format!("at line {}", fault.line))),
    ]
}

/// What makes the two unlike from the start.
fn notes(one: Named, other: Named) -> Vec<String> {
    let links = |setup: &Setup| setup.links.clone();
    let pairs = |story: &Story| -> Vec<(usize, usize)> { story.watch.pairs.iter().map(|pair| (pair.start, pair.dest)).collect() };
    let mut notes = Vec::new();
    if one.1.bridges != other.1.bridges || links(one.1) != links(other.1) {
        notes.push("note: the two plans have different bridges or links".to_string());
    } else if pairs(one.2) != pairs(other.2) {
        notes.push("note: the two plans watch different pairs".to_string());
    }
    if one.2.refused.is_some() || other.2.refused.is_some() {
        notes.push("note: a plan that was refused is compared up to there".to_string());
    }
    notes
}

pub fn text(one: Named, other: Named) -> String {
    let (left, right) = (rows(one), rows(other));
    let mut table = Table::new(&[left[0].0, &left[0].1, &right[0].1]);
    for ((name, one), (_, other)) in left.into_iter().zip(right).skip(1) {
        table.row(vec![name.to_string(), one, other]);
    }
    [table.lines(), notes(one, other)].concat().join("\n") + "\n"
}
