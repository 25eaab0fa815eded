//! Document 01's numbers for a refused event, in words, with what to do.

use crate::notation::item::Setup;
use crate::proved::field::Event;
use crate::proved::library::Network;

/// Since which line each end is down.
pub type DownSince = [Option<usize>; 64];

/// What was refused, and what to do about it.
pub struct Words {
    pub what: String,
    pub advice: String,
}

fn words(what: impl Into<String>, advice: impl Into<String>) -> Words {
    Words { what: what.into(), advice: advice.into() }
}

/// An event that the library refused with this number.
pub fn refusal(setup: &Setup, network: &Network, down_since: &DownSince, event: Event, number: u8) -> Words {
    let since = |end: Option<usize>| match end.and_then(|end| down_since[end]) {
        Some(line) => format!(" since line {line}"),
        None => String::new(),
    };
    let reason = match (event, number) {
        (Event::Send { bridge, link }, 13) => {
            let end = setup.end_of(bridge.into(), link.into());
            words(format!("the link is cut at this end{}", since(end)), "restore that end first")
        }
        (Event::Deliver { place } | Event::Repeat { place }, 13) => arrives_nowhere(setup, network, place, since),
        (Event::Cut { bridge, link }, 12) => {
            let end = setup.end_of(bridge.into(), link.into());
            words(format!("that end is down already{}", since(end)), "leave it out, or name the other end")
        }
        (_, 12) => words("that end is up", "leave it out, or name the other end"),
        (Event::Send { bridge, link } | Event::Cut { bridge, link } | Event::Restore { bridge, link }, 11) => {
            let [one, other] = setup.links[usize::from(link)].ends.map(|end| &setup.bridges[end]);
            let (bridge, link) = (&setup.bridges[usize::from(bridge)], &setup.links[usize::from(link)].name);
            words(format!("{bridge} is not on {link}"), format!("{link} joins {one} and {other}: name one of them"))
        }
        (_, 14) => words("64 messages are in flight already", "deliver or lose some first"),
        (_, 15) => no_message(network.messages().len()),
        (_, 16) => words(
            "the bridge has used up its agreement numbers, which end at 65535",
            "a bridge can change its view 65534 times in one plan",
        ),
        (_, 10) => words("there is no such bridge, view or link", "name one that there is"),
        _ => words("the library refused it", "this should not happen"),
    };
    Words { what: format!("{}: {}", named(setup, network, event), reason.what), ..reason }
}

/// The event in words; a message by its sender and link too.
pub fn named(setup: &Setup, network: &Network, event: Event) -> String {
    let place = match event {
        Event::Deliver { place } | Event::Repeat { place } | Event::Lose { place } => usize::from(place),
        _ => return setup.words(event),
    };
    match network.messages().get(place) {
        Some(message) => {
            let link = &setup.links[message.link];
            format!("{} ({} over {})", setup.words(event), setup.bridges[link.ends[message.side]], link.name)
        }
        None => setup.words(event),
    }
}

fn arrives_nowhere(setup: &Setup, network: &Network, place: u8, since: impl Fn(Option<usize>) -> String) -> Words {
    let Some(message) = network.messages().get(usize::from(place)).copied() else { return no_message(0) };
    let end = 2 * message.link + (1 - message.side);
    let receiver = &setup.bridges[setup.bridge_at(end)];
    let what = format!("the link is cut at {receiver}'s end, where it arrives,{}", since(Some(end)));
    words(what.trim_end_matches(','), "restore that end first, or lose the message")
}

fn no_message(flight: usize) -> Words {
    match flight {
        0 => words("no message is in flight", "send one first"),
        1 => words("no message is there", "one is in flight, at place 0"),
        _ => words("no message is there", format!("{flight} are in flight, at places 0 to {}", flight - 1)),
    }
}
