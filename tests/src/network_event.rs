//! What is counted of calls on layer 3 and their outcomes.

use crate::model::{Call, Reply};
use crate::verdict::{name_of, shut_by_names, verdict_events, OWN_END_DOWN};
use reference::forwarding::PathEnd;
use reference::map::End;
use reference::network::Network;

/// An error is document 01's number.
pub type Outcome = Result<Reply, u8>;

pub fn name(call: Call) -> String {
    format!("{call:?}").split('(').next().unwrap_or_default().to_lowercase()
}

/// What is counted of a call.
pub fn event(call: Call, outcome: &Outcome) -> String {
    let what = match (call, outcome) {
        (_, Err(number)) => number.to_string(),
        (_, Ok(Reply::Done)) => "done".into(),
        (_, Ok(Reply::Answered(answer, _))) => format!("{answer:?}").to_lowercase(),
        (_, Ok(Reply::Port(None))) => "closed".into(),
        (_, Ok(Reply::Port(Some(_)))) => "open".into(),
        (_, Ok(Reply::Verdict((case, _)))) => name_of(*case).into(),
        (_, Ok(Reply::Report(rows))) if rows.iter().all(|row| row.1.is_none()) => "without ports".into(),
        (_, Ok(Reply::Report(_))) => "with ports".into(),
        (Call::Path(_, dest), Ok(Reply::Path(end))) if end.last == dest && end.hops == 0 => "delivered at once".into(),
        (Call::Path(_, dest), Ok(Reply::Path(end))) if end.last == dest => "delivered".into(),
        (_, Ok(Reply::Path(PathEnd { hops: 0, .. }))) => "stops at once".into(),
        (_, Ok(Reply::Path(_))) => "stops on the way".into(),
    };
    format!("{} {what}", name(call))
}

/// All that `event` says, but for verdicts.
pub const EVENTS: [&str; 39] = [
    "update done",
    "update 10",
    "update 16",
    "cut done",
    "cut 10",
    "cut 11",
    "cut 12",
    "restore done",
    "restore 10",
    "restore 11",
    "restore 12",
    "send done",
    "send 10",
    "send 11",
    "send 13",
    "send 14",
    "deliver stale",
    "deliver agreed",
    "deliver noted",
    "deliver 13",
    "deliver 15",
    "repeat stale",
    "repeat agreed",
    "repeat noted",
    "repeat 13",
    "repeat 15",
    "lose done",
    "lose 15",
    "port open",
    "port closed",
    "port 10",
    "report with ports",
    "report without ports",
    "report 10",
    "path delivered",
    "path delivered at once",
    "path stops at once",
    "path stops on the way",
    "path 10",
];

// ---- the ends of links

/// The end that a call is about: the bridge's of a send, a cut or a restore, and the receiver's of a message in flight.
pub fn end_of(network: &Network, call: Call) -> Option<End> {
    match call {
        Call::Send(bridge, link) | Call::Cut(bridge, link) | Call::Restore(bridge, link) => {
            let link = Some(link).filter(|&link| link < network.map.link_count())?;
            network.map.end_at(bridge, link)
        }
        Call::Deliver(place) | Call::Repeat(place) | Call::Lose(place) => {
            network.flight.get(place).map(|message| message.from.far())
        }
        _ => None,
    }
}

/// What is counted of a call about this end that has left this network: what `event` says, and what it was like at the ends of the link,
/// or what goes with a verdict.
pub fn events(network: &Network, call: Call, end: Option<End>, outcome: &Outcome) -> Vec<String> {
    if let (Call::Verdict(bridge, dest), Ok(_)) = (call, outcome) {
        return verdict_events(network, bridge, dest);
    }
    let event = event(call, outcome);
    let more = at_ends(network, call, end, outcome).map(|more| match outcome {
        Ok(Reply::Answered(..)) => format!("{} done, {more}", name(call)),
        _ => format!("{event}, {more}"),
    });
    [Some(event), more].into_iter().flatten().collect()
}

fn at_ends(network: &Network, call: Call, end: Option<End>, outcome: &Outcome) -> Option<&'static str> {
    match (call, outcome) {
        (Call::Send(bridge, link) | Call::Cut(bridge, link) | Call::Restore(bridge, link), Err(10)) => {
            Some(missing(bridge < network.map.bridge_count(), link < network.map.link_count()))
        }
        (Call::Lose(_), Ok(_)) => end.map(|end| if network.is_up(end) { "end up" } else { "end down" }),
        (_, Ok(Reply::Done | Reply::Answered(..)) | Err(12 | 13)) => {
            end.map(|end| if network.is_up(end.far()) { "far end up" } else { "far end down" })
        }
        (Call::Port(bridge, dest), Ok(Reply::Port(port))) => of_port(network, bridge, dest, port.is_some()),
        (Call::Report(dest), Ok(Reply::Report(rows))) => {
            let dies = |bridge: usize| rows[bridge].1.is_some() && network.hop(bridge, dest).is_none();
            (0..rows.len()).any(dies).then_some("frame dies")
        }
        (Call::Path(_, dest), Ok(Reply::Path(end))) if end.last != dest => Some(of_stop(network, end.last, dest)),
        _ => None,
    }
}

fn missing(has_bridge: bool, has_link: bool) -> &'static str {
    match (has_bridge, has_link) {
        (false, false) => "no such bridge and link",
        (false, true) => "no such bridge",
        _ => "no such link",
    }
}

fn of_port(network: &Network, bridge: usize, dest: usize, open: bool) -> Option<&'static str> {
    match network.hop(bridge, dest) {
        Some(_) => Some("frame crosses"),
        None if open => Some("frame dies"),
        None => Some(name_of(OWN_END_DOWN)).filter(|&down| shut_by_names(network, bridge, dest) == [down]),
    }
}

/// Why a path stops at a bridge.
fn of_stop(network: &Network, last: usize, dest: usize) -> &'static str {
    match (network.port(last, dest), network.hop(last, dest)) {
        (None, _) => "no port",
        (_, None) => "frame dies",
        _ => "by its length",
    }
}

/// What `events` says of the ends beside what `event` says, from any network that a fresh one leads to.
pub const END_EVENTS: [&str; 39] = [
    "cut done, far end up",
    "cut done, far end down",
    "cut 10, no such bridge",
    "cut 10, no such link",
    "cut 10, no such bridge and link",
    "cut 12, far end up",
    "cut 12, far end down",
    "restore done, far end up",
    "restore done, far end down",
    "restore 10, no such bridge",
    "restore 10, no such link",
    "restore 10, no such bridge and link",
    "restore 12, far end up",
    "restore 12, far end down",
    "send done, far end up",
    "send done, far end down",
    "send 10, no such bridge",
    "send 10, no such link",
    "send 10, no such bridge and link",
    "send 13, far end up",
    "send 13, far end down",
    "deliver done, far end up",
    "deliver done, far end down",
    "deliver 13, far end up",
    "deliver 13, far end down",
    "repeat done, far end up",
    "repeat done, far end down",
    "repeat 13, far end up",
    "repeat 13, far end down",
    "lose done, end up",
    "lose done, end down",
    "port open, frame crosses",
    "port open, frame dies",
    "port closed, own end down",
    "report with ports, frame dies",
    "path stops at once, no port",
    "path stops at once, frame dies",
    "path stops on the way, no port",
    "path stops on the way, frame dies",
];

/// What it says besides from one that no fresh one leads to.
pub const STOPPED_BY_LENGTH: &str = "path stops on the way, by its length";
