//! The events that a line stands for, in the network as it is.

use crate::notation::item::{Fate, Item, Setup, Which};
use crate::proved::field::Event;
use crate::proved::library::Network;

/// The events of a line that stands for the same ones in every network; nothing for any other line.
pub fn fixed(item: &Item) -> Option<Vec<Event>> {
    let byte = |number: usize| number as u8;
    Some(match *item {
        Item::Update { ref bridges, view } => {
            bridges.iter().map(|&bridge| Event::Update { bridge: byte(bridge), view: byte(view) }).collect()
        }
        Item::Send { bridge, link } => vec![Event::Send { bridge: byte(bridge), link: byte(link) }],
        Item::Message(fate, Which::Place(place)) => vec![fate.of(place)],
        Item::Switch { down, bridge: Some(bridge), link } => vec![switch(down, bridge, link)],
        Item::Report(Some(dest)) => vec![Event::Report { dest: byte(dest) }],
        Item::Path(Some((start, dest))) => vec![Event::Path { start: byte(start), dest: byte(dest) }],
        _ => return None,
    })
}

fn switch(down: bool, bridge: usize, link: usize) -> Event {
    let (bridge, link) = (bridge as u8, link as u8);
    if down {
        Event::Cut { bridge, link }
    } else {
        Event::Restore { bridge, link }
    }
}

/// The events of any line. Lines that only ask the planner's program have none. An error says that there is no such message.
pub fn events(item: &Item, setup: &Setup, network: &Network) -> Result<Vec<Event>, String> {
    if let Some(events) = fixed(item) {
        return Ok(events);
    }
    let flight = network.messages().len();
    Ok(match *item {
        Item::SendAll => sends(setup, network),
        Item::Round(rounds) => round(setup, network, flight).repeat(rounds as usize),
        Item::Message(fate, Which::All) => all(fate, flight),
        Item::Message(fate, Which::Oldest { bridge, link }) => {
            let place = oldest(setup, network, bridge, link).map_err(|none| format!("{}: {none}", fate.word()))?;
            vec![fate.of(place)]
        }
        Item::Switch { down, link, .. } => setup.links[link].ends.map(|bridge| switch(down, bridge, link)).to_vec(),
        Item::Report(None) => (0..setup.bridges.len()).map(|dest| Event::Report { dest: dest as u8 }).collect(),
        Item::Path(None) => {
            setup.all_pairs().into_iter().map(|(start, dest)| Event::Path { start: start as u8, dest: dest as u8 }).collect()
        }
        _ => Vec::new(),
    })
}

/// Every end that is up sends, link after link.
fn sends(setup: &Setup, network: &Network) -> Vec<Event> {
    let up = (0..2 * setup.links.len()).filter(|&end| !network.is_down(end));
    up.map(|end| Event::Send { bridge: setup.bridge_at(end) as u8, link: (end / 2) as u8 }).collect()
}

/// Every end that is up sends, and these messages are delivered, oldest first. What was in flight before stays there.
fn round(setup: &Setup, network: &Network, flight: usize) -> Vec<Event> {
    let mut events = sends(setup, network);
    let sent = events.len();
    events.extend(vec![Event::Deliver { place: flight as u8 }; sent]);
    events
}

/// Oldest first. One that is taken out lets the others move up.
fn all(fate: Fate, flight: usize) -> Vec<Event> {
    (0..flight as u8).map(|place| fate.of(if fate == Fate::Repeat { place } else { 0 })).collect()
}

/// The place of the bridge's oldest message over the link.
pub fn oldest(setup: &Setup, network: &Network, bridge: usize, link: usize) -> Result<u8, String> {
    let from = |end: usize| network.messages().iter().position(|message| 2 * message.link + message.side == end);
    let place = setup.end_of(bridge, link).and_then(from);
    place.map(|place| place as u8).ok_or_else(|| {
        let (bridge, link) = (&setup.bridges[bridge], &setup.links[link].name);
        format!("no message of {bridge} over {link} is in flight")
    })
}
