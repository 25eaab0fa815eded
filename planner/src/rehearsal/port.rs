//! What is told of a port: the library's verdict, and whether the frames that it forwards die on the link.

use crate::notation::item::Setup;
use crate::proved::library::{Network, Verdict};

/// Document 02's conditions, by their numbers.
const CONDITIONS: [&str; 7] = [
    "forwards",
    "is the destination",
    "no path: its view has no way there",
    "chosen link down at this end",
    "nothing held",
    "held limit too great",
    "sent limit not above the distance",
];

pub const FORWARDS: u32 = 0;

/// A condition in words.
pub fn condition(number: u32) -> &'static str {
    CONDITIONS.get(number as usize).copied().unwrap_or("no link reaches the distance")
}

#[derive(Clone, Copy, Debug, PartialEq)]
pub struct Port {
    pub bridge: usize,
    pub verdict: Verdict,
    /// It forwards, and the frame does not cross the link.
    pub dies: bool,
}

/// The port of a bridge for a destination.
pub fn port(network: &Network, bridge: usize, dest: usize) -> Result<Port, u8> {
    let verdict = network.verdict(bridge, dest)?;
    let mut dies = false;
    if verdict.number == FORWARDS {
        let end = network.path(bridge, dest)?;
        dies = !end.delivered && end.last == bridge;
    }
    Ok(Port { bridge, verdict, dies })
}

/// What the library says of a port.
pub fn verdict_words(setup: &Setup, verdict: Verdict) -> String {
    let link = verdict.link.map_or("", |link| setup.links[link].name.as_str());
    match (verdict.number, link) {
        (FORWARDS, link) => format!("forwards on {link}"),
        (number, "") => format!("reason {number}: {}", condition(number)),
        (number, link) => format!("reason {number}: {}: {link}", condition(number)),
    }
}

/// Where frames die, if they do.
pub fn death(setup: &Setup, port: Port) -> Option<String> {
    let link = port.verdict.link.filter(|_| port.dies)?;
    let far = setup.end_of(port.bridge, link)? ^ 1;
    Some(format!("its frames die on {}: {}'s end is down", setup.links[link].name, setup.bridges[setup.bridge_at(far)]))
}

/// Why nothing goes on from here.
pub fn port_words(setup: &Setup, port: Port) -> String {
    death(setup, port).unwrap_or_else(|| verdict_words(setup, port.verdict))
}
