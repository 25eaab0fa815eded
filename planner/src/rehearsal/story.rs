//! What happened when a plan was carried out. How it is laid out is in `layout`.

use crate::notation::fault::Fault;
use crate::proved::field::Event;
use crate::proved::library::PathEnd;
use crate::rehearsal::port::Port;
use crate::rehearsal::watch::{Moved, Watch};
use crate::rehearsal::why::Reason;

/// A line of a report.
#[derive(Clone, Debug, PartialEq)]
pub struct Row {
    pub distance: Option<u32>,
    pub link: Option<usize>,
    pub port: Port,
    pub view: usize,
}

/// Where a frame went: its bridges, how it ended, and if it stopped, the port of the last bridge.
#[derive(Clone, Debug, PartialEq)]
pub struct Way {
    pub start: usize,
    pub dest: usize,
    pub route: Vec<usize>,
    pub end: PathEnd,
    pub stop: Option<Port>,
}

#[derive(Clone, Debug, PartialEq)]
pub enum What {
    Label(String),
    Report {
        dest: usize,
        rows: Vec<Row>,
    },
    Paths {
        all: bool,
        ways: Vec<Way>,
    },
    Why(Reason),
    /// An event moved watched pairs.
    Moved {
        by: String,
        pairs: Moved,
    },
    /// An expectation, and what was found in its place.
    Expected {
        text: String,
        found: Option<String>,
    },
}

/// Something to tell: its line, and the number of its event where it is one (of the first, where there are several).
#[derive(Clone, Debug, PartialEq)]
pub struct Entry {
    pub line: usize,
    pub event: Option<usize>,
    pub what: What,
}

/// Events from one label to the next.
#[derive(Clone, Debug, PartialEq)]
pub struct Stretch {
    pub label: Option<String>,
    pub line: usize,
    pub events: usize,
}

pub struct Story {
    pub entries: Vec<Entry>,
    /// The events that were carried out.
    pub events: Vec<Event>,
    /// How many of them were not reports or paths.
    pub changes: usize,
    pub refused: Option<Fault>,
    pub stretches: Vec<Stretch>,
    pub watch: Watch,
    pub met: usize,
    pub unmet: Vec<usize>,
    pub warnings: Vec<String>,
}

impl Story {
    /// The lengths of the outages that began in a stretch.
    pub fn begun_in(&self, stretch: usize) -> Vec<usize> {
        let outages = self.watch.outages();
        let begun = outages.iter().filter(|(_, outage)| outage.lost.stretch == stretch);
        begun.map(|(_, outage)| outage.length(self.changes)).collect()
    }

    /// Was all carried out, and every expectation met?
    pub fn is_good(&self) -> bool {
        self.refused.is_none() && self.unmet.is_empty()
    }
}

/// Where a frame came to, in words.
pub fn end_words(bridges: &[String], end: PathEnd) -> String {
    let hops = if end.hops == 1 { "1 hop".to_string() } else { format!("{} hops", end.hops) };
    if end.delivered {
        format!("delivered after {hops}")
    } else {
        format!("stops at {} after {hops}", bridges[end.last])
    }
}

/// So many of something.
pub fn count(number: usize, what: &str) -> String {
    let plural = if number == 1 { "" } else { "s" };
    format!("{number} {what}{plural}")
}
