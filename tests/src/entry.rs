//! Document 01's ranges, and what the calls of layer 2 refuse with 17 at their entry. Nothing in reference/ corresponds to it, since a
//! plan cannot reach 17.

use crate::call::{FLAGS, LIMITS, MESSAGE, RECORD, RECORDS, TABLE, VERDICT};
use crate::case::{Call, Case};
use crate::records_numbers::{Field, BYTES, MESSAGE_FIELDS, NO_VIEW, RECORD_FIELDS};
use crate::view::MAX_COST;
use std::collections::BTreeSet;

// ---- the ranges

pub fn is_bridge_count(count: usize) -> bool {
    (2..=16).contains(&count)
}

pub fn is_link_count(count: usize) -> bool {
    count <= 32
}

pub fn is_view_count(count: usize) -> bool {
    (1..=32).contains(&count)
}

pub fn is_view(number: u32, views: usize) -> bool {
    (number as usize) < views
}

pub fn is_received_view(number: u32, views: usize) -> bool {
    is_view(number, views) || number == NO_VIEW
}

// ---- layer 2

/// Every reason for which a call is refused.
pub type Causes = BTreeSet<String>;

fn add(causes: &mut Causes, cause: &str, holds: bool) {
    if holds {
        causes.insert(cause.into());
    }
}

/// Each number that does not fit its field is a cause.
fn add_too_great(causes: &mut Causes, whose: &str, numbers: &[u32], fields: [Field; 3]) {
    for (&number, (field, values)) in numbers.iter().zip(fields) {
        if number >= values {
            causes.insert(too_great(field, whose));
        }
    }
}

pub fn too_great(field: &str, whose: &str) -> String {
    format!("{field} of {whose} too great")
}

/// Does a number fit the field of a received view, though no such view can be received.
fn is_unknown_view(number: u32, views: usize) -> bool {
    number < BYTES && !is_received_view(number, views)
}

impl Call {
    /// How many numbers the call needs for its answer.
    pub fn answer_length(self) -> usize {
        match self {
            Call::Offer | Call::Port => 1,
            Call::Verdict => VERDICT,
            Call::Carry | Call::Deliver => MESSAGE,
            Call::Start | Call::Update => 0,
        }
    }
}

impl Case {
    pub fn causes(&self, which: Call) -> Causes {
        let mut causes = Causes::new();
        let c = &mut causes;
        if which != Call::Carry {
            self.view_causes(c);
        }
        if matches!(which, Call::Offer | Call::Start | Call::Update | Call::Deliver) {
            add(c, "no such end", self.end / 2 >= self.lent.links);
        }
        if matches!(which, Call::Start | Call::Update | Call::Deliver) || which.is_choice() {
            add(c, "sent limits short", self.sent.len() < LIMITS);
            add(c, "held limits short", self.held.len() < LIMITS);
        }
        if matches!(which, Call::Start | Call::Update | Call::Carry | Call::Deliver) {
            add(c, "record short", self.fields.len() < RECORD);
        }
        if matches!(which, Call::Update | Call::Carry | Call::Deliver) || which.is_choice() {
            add(c, "view count", !is_view_count(self.views));
        }
        if matches!(which, Call::Update | Call::Carry | Call::Deliver) {
            add(c, "no such view", usize::from(self.view) >= self.views);
            let unknown = self.fields.get(1).is_some_and(|&view| is_unknown_view(view, self.views));
            add(c, "received view of the record", unknown);
            add_too_great(c, "the record", &self.fields, RECORD_FIELDS);
        }
        if which == Call::Deliver {
            add(c, "message short", self.message.len() < MESSAGE);
            let unknown = self.message.first().is_some_and(|&view| view < BYTES && !is_view(view, self.views));
            add(c, "view of the message", unknown);
            add_too_great(c, "the message", &self.message, MESSAGE_FIELDS);
        }
        if which.is_choice() {
            self.choice_causes(c);
        }
        add(c, "no such destination", (which == Call::Offer || which.is_choice()) && self.dest >= self.lent.bridges);
        add(c, "out short", self.out.len() < which.answer_length());
        causes
    }

    fn view_causes(&self, causes: &mut Causes) {
        let a = &self.lent;
        add(causes, "bridge count", !is_bridge_count(a.bridges));
        add(causes, "link count", !is_link_count(a.links));
        add(causes, "ends short", a.ends.len() / 2 < a.links);
        add(causes, "costs short", a.costs.len() < a.links);
        add(causes, "table short", a.table.len() < TABLE);
        for [first, second] in a.pairs() {
            add(causes, "end that is no bridge", first >= a.bridges || second >= a.bridges);
            add(causes, "link with equal ends", first == second);
        }
        add(causes, "cost too large", a.costs.iter().take(a.links).any(|&c| c > MAX_COST));
    }

    fn choice_causes(&self, causes: &mut Causes) {
        add(causes, "no such bridge", self.bridge >= self.lent.bridges);
        add(causes, "flags short", self.down.len() < FLAGS);
        add(causes, "records short", self.records.len() < RECORDS);
        let ends = if is_link_count(self.lent.links) { 2 * self.lent.links } else { 0 };
        for (end, record) in self.records.chunks_exact(RECORD).take(RECORDS / RECORD).enumerate() {
            let whose = if end < ends { "a record" } else { "a record past the links" };
            add_too_great(causes, whose, record, RECORD_FIELDS);
            add(causes, "received view of a record", end < ends && is_unknown_view(record[1], self.views));
        }
    }
}
