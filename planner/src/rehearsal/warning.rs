//! What a planner is told when a plan is over.

use crate::notation::item::Setup;
use crate::proved::library::{Message, Network};

/// The most messages or views that are named in one warning.
const NAMED: usize = 6;

/// Has a bridge ever been on a view? By view, then by bridge.
pub type BeenOn = Vec<Vec<bool>>;

/// What is left over: messages in flight, bridges on different views, links that are down and counted on.
pub fn left_over(setup: &Setup, network: &Network, sent_at: &[usize]) -> Vec<String> {
    let flight = in_flight(setup, network, sent_at);
    let views = on_different_views(setup, network).map(|views| format!("the bridges are on different views; {views}"));
    let links = (0..setup.links.len()).filter_map(|link| left_down(setup, network, link));
    flight.into_iter().chain(views).chain(links).collect()
}

/// What the plan seems to have forgotten: views that no bridge was on, or all but a few; links in no view.
/// Bridges that are on different views at the end are told of by that.
pub fn forgotten(setup: &Setup, network: &Network, been_on: &BeenOn) -> Vec<String> {
    let looks = on_different_views(setup, network).is_none();
    let few =
        setup.views.iter().zip(been_on).filter_map(|(view, bridges)| left_behind(setup, &view.name, bridges)).filter(|_| looks);
    let links = (0..setup.links.len()).filter_map(|link| in_no_view(setup, link));
    never_used(setup, been_on).into_iter().chain(few).chain(links).collect()
}

/// Fewer than half of the bridges were never on a view that all others were on.
fn left_behind(setup: &Setup, view: &str, been: &[bool]) -> Option<String> {
    let behind: Vec<String> = setup.bridges.iter().zip(been).filter(|(_, &been)| !been).map(|(name, _)| name.clone()).collect();
    let few = !behind.is_empty() && 2 * behind.len() < been.len();
    few.then(|| format!("all bridges but {} were on {view} at some time: was an update forgotten?", listed(&behind)))
}

/// The first few, and how many more there are.
fn listed(names: &[String]) -> String {
    let more = names.len().saturating_sub(NAMED);
    let more = if more == 0 { String::new() } else { format!(" and {more} more") };
    names[..names.len().min(NAMED)].join(", ") + &more
}

fn never_used(setup: &Setup, been_on: &BeenOn) -> Option<String> {
    let unused = setup.views.iter().zip(been_on).filter(|(_, bridges)| !bridges.contains(&true));
    let names: Vec<String> = unused.map(|(view, _)| view.name.clone()).collect();
    (!names.is_empty()).then(|| format!("no bridge was ever on {}: was an update forgotten?", listed(&names)))
}

fn in_flight(setup: &Setup, network: &Network, sent_at: &[usize]) -> Option<String> {
    let one = |(message, line): (&Message, &usize)| {
        let link = &setup.links[message.link];
        format!("{} over {} (line {line})", setup.bridges[link.ends[message.side]], link.name)
    };
    let names: Vec<String> = network.messages().iter().zip(sent_at).map(one).collect();
    match names.len() {
        0 => None,
        1 => Some(format!("a message is still in flight: {}", names[0])),
        count => Some(format!("{count} messages are still in flight: {}", listed(&names))),
    }
}

/// Which bridges are on which view, unless all are on one.
fn on_different_views(setup: &Setup, network: &Network) -> Option<String> {
    let on = |view: usize| -> Vec<&str> {
        let bridges = (0..setup.bridges.len()).filter(|&bridge| network.view(bridge) == view);
        bridges.map(|bridge| setup.bridges[bridge].as_str()).collect()
    };
    let views = (0..setup.views.len()).map(|view| (&setup.views[view].name, on(view))).filter(|(_, bridges)| !bridges.is_empty());
    let groups: Vec<String> = views.map(|(view, bridges)| format!("on {view}: {}", bridges.join(" "))).collect();
    (groups.len() > 1).then(|| groups.join("; "))
}

/// A link that is down at one end alone, or at both while a bridge's view counts on it.
fn left_down(setup: &Setup, network: &Network, link: usize) -> Option<String> {
    let name = &setup.links[link].name;
    let ends = [2 * link, 2 * link + 1];
    match ends.map(|end| network.is_down(end)) {
        [false, false] => None,
        [true, true] => {
            let view =
                (0..setup.bridges.len()).map(|bridge| network.view(bridge)).find(|&view| setup.views[view].costs[link] != 0)?;
            Some(format!("{name} is down at both ends, and view {} counts on it", setup.views[view].name))
        }
        [first, _] => {
            let end = if first { ends[0] } else { ends[1] };
            Some(format!("{name} is down at {}'s end alone", setup.bridges[setup.bridge_at(end)]))
        }
    }
}

fn in_no_view(setup: &Setup, link: usize) -> Option<String> {
    let absent = setup.views.iter().all(|view| view.costs[link] == 0);
    absent.then(|| format!("{} is in no view: was its cost forgotten?", setup.links[link].name))
}
