//! Runs a plan and prints its reports ('Plan file').

use std::fmt::{Display, Write};

use crate::distances::NONE;
use crate::map::Map;
use crate::network::Network;
use crate::plan::{read_field, Event, Field, Phase};
use crate::refusal::Refusal;

/// The longest plan that is read, in bytes.
const LONGEST_PLAN: usize = 61_440;

/// All that the program prints for a plan.
pub fn output(plan: &[u8]) -> String {
    let mut text = String::new();
    let ending = if plan.len() > LONGEST_PLAN { Err((Refusal::PlanTooLong, LONGEST_PLAN)) } else { run(plan, &mut text) };
    match ending {
        Ok(events) => line(&mut text, format_args!("end {events}")),
        Err((refusal, offset)) => line(&mut text, format_args!("refused {} at {offset}", refusal.number())),
    }
    text
}

/// Appends a line. Writing to a string does not fail.
fn line(text: &mut String, content: impl Display) {
    let _ = writeln!(text, "{content}");
}

/// Carries out the fields of a plan one after the other. The reply is the count of events, or the refusal
/// with the offset of the refused field.
fn run(plan: &[u8], text: &mut String) -> Result<usize, (Refusal, usize)> {
    let mut map = Map::default();
    let mut network: Option<Network> = None;
    let mut phase = Phase::Start;
    let mut events = 0;
    let mut rest = plan;
    loop {
        let offset = plan.len() - rest.len();
        let refused = |refusal| (refusal, offset);
        let Some((field, next)) = read_field(rest, phase, map.link_count()).map_err(refused)? else { return Ok(events) };
        match field {
            Field::Bridges(count) => map.set_bridges(count),
            Field::Link(ends) => map.add_link(ends),
            Field::View(costs) => map.add_view(costs),
            Field::Event(event) => {
                events += 1;
                // Views come before events, so the map is complete at the first event.
                apply(network.get_or_insert_with(|| Network::fresh(map.clone())), event, text)
            }
        }
        .map_err(refused)?;
        phase = Phase::after(&field);
        rest = next;
    }
}

/// Carries out one event.
fn apply(network: &mut Network, event: Event, text: &mut String) -> Result<(), Refusal> {
    match event {
        Event::Update { bridge, view } => network.update(bridge, view),
        Event::Send { bridge, link } => network.send(bridge, link),
        Event::Deliver { place } => network.deliver(place).map(|_| ()),
        Event::Repeat { place } => network.repeat(place).map(|_| ()),
        Event::Lose { place } => network.lose(place),
        Event::Cut { bridge, link } => network.set_end(bridge, link, true),
        Event::Restore { bridge, link } => network.set_end(bridge, link, false),
        Event::Report { destination } => report(network, destination, text),
        Event::Path { start, destination } => path(network, start, destination, text),
    }
}

/// Prints `dest D`, then for each bridge `bridge distance link`, with `-` for NONE or no port.
fn report(network: &Network, destination: u8, text: &mut String) -> Result<(), Refusal> {
    let destination = network.bridge(destination)?;
    line(text, format_args!("dest {destination}"));
    for bridge in 0..network.map.bridge_count() {
        let distance = Some(network.distance(bridge, destination)).filter(|&distance| distance != NONE);
        let link = network.port(bridge, destination).map(|port| port.link);
        let _ = write!(text, "{bridge} ");
        or_dash(text, distance);
        text.push(' ');
        or_dash(text, link);
        text.push('\n');
    }
    Ok(())
}

/// Appends the number, or `-` if there is none.
fn or_dash(text: &mut String, number: Option<impl Display>) {
    match number {
        Some(number) => {
            let _ = write!(text, "{number}");
        }
        None => text.push('-'),
    }
}

/// Prints `path S D delivered H` or `path S D stops B H`, where B is the last bridge.
fn path(network: &Network, start: u8, destination: u8, text: &mut String) -> Result<(), Refusal> {
    let start = network.bridge(start)?;
    let destination = network.bridge(destination)?;
    let end = network.path(start, destination);
    if end.last == destination {
        line(text, format_args!("path {start} {destination} delivered {}", end.hops));
    } else {
        line(text, format_args!("path {start} {destination} stops {} {}", end.last, end.hops));
    }
    Ok(())
}
