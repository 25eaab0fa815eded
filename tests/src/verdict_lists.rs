//! Random lists from fresh networks in which every reason for a shut port is met, many of them at once.

use crate::model::Call;
use crate::network_numbers::is_question;
use crate::network_random::{map_of, random_call, random_cost, random_map};
use crate::network_run::{across, pairs_of, Run};
use crate::random::Random;
use crate::verdict::{verdict, Verdict, HELD_TOO_GREAT, NOTHING_HELD, OWN_END_DOWN, SENT_TOO_LOW};
use reference::map::Map;

/// How many lists a test takes.
pub const LISTS: u64 = 300;
const EVENTS: usize = 40;

/// Every bridge and destination, with what is named of them.
pub fn all_named(run: &Run) -> impl Iterator<Item = (usize, usize, Verdict)> + '_ {
    pairs_of(run.map().bridge_count()).map(|(bridge, dest)| (bridge, dest, verdict(None, run.network(), bridge, dest)))
}

/// A bridge of which this case is named for some destination, and the link.
fn any_named(random: &mut Random, run: &Run, case: u8) -> Option<(usize, usize)> {
    let links = all_named(run).filter(|(.., named)| named.0 == case);
    let links: Vec<(usize, usize)> = links.filter_map(|(bridge, _, (_, link))| Some((bridge, link?))).collect();
    (!links.is_empty()).then(|| random.pick(&links))
}

/// What a planner may do who goes by the verdict: the end whose sent limit is blamed is cut, one that is down is restored, and what is not
/// held, or too great, is sent anew; or its end is cut, which is then named instead.
fn heed(random: &mut Random, run: &mut Run) -> Result<(), String> {
    let case = random.pick(&[OWN_END_DOWN, NOTHING_HELD, HELD_TOO_GREAT, HELD_TOO_GREAT, SENT_TOO_LOW, SENT_TOO_LOW]);
    let Some((bridge, link)) = any_named(random, run, case) else { return Ok(()) };
    match case {
        OWN_END_DOWN => run.call(Call::Restore(bridge, link)),
        SENT_TOO_LOW => run.call(Call::Cut(bridge, link)),
        _ if random.one_in(3) => run.call(Call::Cut(bridge, link)),
        _ => {
            run.call(Call::Send(across(run.map(), link, bridge), link))?;
            run.call(Call::Deliver(run.network().flight.len().max(1) - 1))
        }
    }
}

/// Events after which bridges are on unlike views and have agreed to some of them, and some ends are down.
fn unsettle(random: &mut Random, run: &mut Run) -> Result<(), String> {
    match random.below(16) {
        0..=1 => run.move_to_one_view(random),
        2..=3 => run.agree(random),
        4 => run.pull(random),
        5..=7 => {
            let [bridge, view] = [run.map().bridge_count(), run.map().view_count()].map(|count| random.below(count));
            run.call(Call::Update(bridge, view))
        }
        8..=11 => heed(random, run),
        _ => {
            let call = random_call(random, run.network());
            run.call(call)
        }
    }
}

/// Few bridges, many links and small costs: there the limits of some view are often on the other side of the distances of another.
fn dense_map(random: &mut Random) -> Map {
    let bridges = 3 + random.below(4);
    let mut link = || {
        let first = random.below(bridges);
        [first, (first + 1 + random.below(bridges - 1)) % bridges].map(|bridge| bridge as u8)
    };
    let links: Vec<[u8; 2]> = (0..2 * bridges).map(|_| link()).collect();
    let views = 2 + random.below(3);
    let views: Vec<Vec<u32>> = (0..views).map(|_| links.iter().map(|_| random_cost(random, true)).collect()).collect();
    map_of(bridges, &links, &views)
}

/// Ends whose sent limit is blamed are cut: another link is blamed then, or the port forwards.
fn cut_blamed(random: &mut Random, run: &mut Run) -> Result<(), String> {
    for _ in 0..3 {
        let Some((bridge, link)) = any_named(random, run, SENT_TOO_LOW) else { break };
        run.call(Call::Cut(bridge, link))?;
    }
    Ok(())
}

/// A fresh network after up to two rounds, and events on it.
pub fn random_list(random: &mut Random) -> Result<(Run, Vec<Call>), String> {
    let map = if random.one_in(3) { random_map(random) } else { dense_map(random) };
    let mut start = Run::fresh(random, &map)?;
    for _ in 0..random.below(3) {
        start.round(random)?;
    }
    let mut run = start.copy();
    while run.events() < EVENTS {
        unsettle(random, &mut run)?;
    }
    cut_blamed(random, &mut run)?;
    let events = run.trail.into_iter().filter(|&call| !is_question(call)).collect();
    Ok((start, events))
}

/// The network after every few events of a list, and at its end.
pub fn in_list(random: &mut Random) -> Result<Vec<Run>, String> {
    let (mut run, events) = random_list(random)?;
    let mut networks = Vec::new();
    for few in events.chunks(6) {
        few.iter().try_for_each(|&event| run.call(event))?;
        networks.push(run.copy());
    }
    Ok(networks)
}
