//! Random maps and calls, buffers with a map in them, and damage to a network.

use crate::call::RECORD;
use crate::entry::too_great;
use crate::guard::Buffer;
use crate::model::Call;
use crate::network_call::{Lent, BENCH, COSTS, DOWN, ENDS, LIMITS, MESSAGES, NUMBER, RECORDS, ROWS, VIEW};
use crate::network_entry::{field_at, is_counted};
use crate::random::Random;
use crate::random_case::any_record;
use crate::records_numbers::{BYTES, NUMBERS};
use crate::view::{random_arguments, MAX_COST};
use reference::map::{End, Map};
use reference::network::Network;
use std::collections::BTreeSet;

/// A map of bridges, links and the costs of views, with the distances that the reference computes.
pub fn map_of(bridges: usize, links: &[[u8; 2]], views: &[Vec<u32>]) -> Map {
    let mut map = Map::default();
    map.set_bridges(bridges as u8).expect("a bridge count");
    links.iter().for_each(|&ends| map.add_link(ends).expect("a link"));
    for costs in views {
        let value: Vec<u8> = costs.iter().flat_map(|cost| cost.to_be_bytes()).collect();
        map.add_view(&value).expect("a view");
    }
    map
}

/// The bridges that a link joins.
pub fn pair(map: &Map, link: usize) -> [usize; 2] {
    [0, 1].map(|side| map.bridge_at(End { link, side }))
}

/// Small costs have many paths of equal length; the others are any.
pub fn random_cost(random: &mut Random, small: bool) -> u32 {
    match random.below(6) {
        0 => 0,
        1 if !small => MAX_COST,
        _ if small => 1 + random.below(4) as u32,
        _ => 1 + random.below(MAX_COST as usize) as u32,
    }
}

/// Views that differ from the first at some of the links, as after a change in the network.
pub fn random_map(random: &mut Random) -> Map {
    let bridges = 2 + random.below(15);
    let graph = random_arguments(random, bridges);
    let links: Vec<[u8; 2]> = graph.ends.chunks_exact(2).take(graph.links).map(|pair| [pair[0], pair[1]]).collect();
    let small = random.one_in(2);
    let first: Vec<u32> = (0..graph.links).map(|_| random_cost(random, small)).collect();
    let count = match random.below(12) {
        0 => 32,
        1 | 2 => 1 + random.below(32),
        _ => 1 + random.below(5),
    };
    let mut views = vec![first];
    while views.len() < count {
        let mut view = views[0].clone();
        for cost in &mut view {
            if random.one_in(4) {
                *cost = random_cost(random, small);
            }
        }
        views.push(view);
    }
    map_of(bridges, &links, &views)
}

/// Any numbers that fit their fields, from an end or a view of a bench on.
pub(crate) fn fill(random: &mut Random, b: &mut [u32], from: usize) {
    b[from..NUMBER].iter_mut().for_each(|x| *x = random.below(BYTES as usize) as u32);
    b[NUMBER..RECORDS].iter_mut().for_each(|x| *x = random.below(NUMBERS as usize) as u32);
    b[RECORDS..DOWN].chunks_exact_mut(RECORD).for_each(|record| record.copy_from_slice(&any_record(random)));
    b[DOWN..BENCH].iter_mut().for_each(|flag| *flag = random.number());
}

/// The map's counts, ends and costs in buffers with unlike numbers in all other places, those of a bench such that they fit. Some
/// buffers are longer than needed.
pub fn lend(random: &mut Random, map: &Map) -> Lent {
    let mut buffer = |length: usize| {
        let more = if random.one_in(2) { 0 } else { random.below(20) };
        Buffer::of(&random.numbers(length + more))
    };
    let [bench, costs, sent, held, messages, out] = [BENCH, COSTS, LIMITS, LIMITS, MESSAGES, ROWS].map(&mut buffer);
    let mut lent = Lent { bench, costs, sent, held, messages, out };
    let b = lent.bench.numbers_mut();
    fill(random, b, ENDS);
    b[..3].copy_from_slice(&[map.bridge_count(), map.link_count(), map.view_count()].map(|x| x as u32));
    for (link, ends) in b[ENDS..VIEW].chunks_exact_mut(2).take(map.link_count()).enumerate() {
        ends.copy_from_slice(&pair(map, link).map(|bridge| bridge as u32));
    }
    for (view, costs) in lent.costs.numbers_mut().chunks_exact_mut(32).take(map.view_count()).enumerate() {
        (0..map.link_count()).for_each(|link| costs[link] = map.cost(view, link));
    }
    lent
}

/// A place of a bench whose field has a width, each kind of field as often.
fn narrow_place(random: &mut Random) -> usize {
    let [end, bridge] = [64, 16].map(|count| random.below(count));
    let record = RECORDS + RECORD * end;
    random.pick(&[ENDS + end, VIEW + bridge, NUMBER + bridge, record, record + 1, record + 2])
}

const COUNTED: &str = "the bench";
const NOT_COUNTED: &str = "the bench past the counts";

/// Makes the number at a place of a bench too great for its field, and says which. `None` where any number fits.
pub fn widen(random: &mut Random, lent: &mut Lent, place: usize) -> Option<String> {
    let (field, values) = field_at(place)?;
    let whose = if is_counted(lent, place) { COUNTED } else { NOT_COUNTED };
    let number = &mut lent.bench.numbers_mut()[place];
    *number = random.beyond(*number, values);
    Some(too_great(field, whose))
}

/// All that `widen` says.
pub fn widened() -> BTreeSet<String> {
    let fields = (0..BENCH).filter_map(field_at);
    fields.flat_map(|(field, _)| [COUNTED, NOT_COUNTED].map(|whose| too_great(field, whose))).collect()
}

/// What `damage` says beside what `widen` says.
pub const OUT_OF_RANGE: [&str; 14] = [
    "bridge count",
    "link count",
    "view count",
    "messages in flight",
    "view",
    "end that is no bridge",
    "link with equal ends",
    "received view",
    "cost too large",
    "link of a message",
    "direction of a message",
    "view of a message",
    "number of a message",
    "discarded number of a message",
];

/// Damages one number of a network that is in range, and says which. `None` where there is none of the kind chosen.
pub fn damage(random: &mut Random, lent: &mut Lent) -> Option<String> {
    if random.one_in(3) {
        let place = narrow_place(random);
        return widen(random, lent, place);
    }
    let [bridges, links, views, count] = lent.counts();
    let far = random.pick(&[1, 2, 100, u32::MAX - 70_000]);
    let b = lent.bench.numbers_mut();
    let m = lent.messages.numbers_mut();
    let view = VIEW + random.below(bridges);
    let (link, side, place) = (random.below(links.max(1)), random.below(2), 5 * random.below(count.max(1)));
    let (end, received) = (ENDS + 2 * link, RECORDS + RECORD * (2 * link + side) + 1);
    let (other_end, cost) = (b[end + 1], 32 * random.below(views) + link);
    let [unknown_view, no_bridge] = [views, bridges].map(|least| (least + random.below(255 - least)) as u32);
    let (cause, number, damaged) = match random.below(14) {
        0 => ("bridge count", &mut b[0], random.pick(&[0, 1, 16 + far])),
        1 => ("link count", &mut b[1], 32 + far),
        2 => ("view count", &mut b[2], random.pick(&[0, 32 + far])),
        3 => ("messages in flight", &mut b[3], 64 + far),
        4 => ("view", &mut b[view], unknown_view),
        5 if links > 0 => ("end that is no bridge", &mut b[end + side], no_bridge),
        6 if links > 0 => ("link with equal ends", &mut b[end], other_end),
        7 if links > 0 => ("received view", &mut b[received], unknown_view),
        8 if links > 0 => ("cost too large", &mut lent.costs.numbers_mut()[cost], MAX_COST.saturating_add(far)),
        9 if count > 0 => ("link of a message", &mut m[place], links as u32 + far - 1),
        10 if count > 0 => ("direction of a message", &mut m[place + 1], 1 + far),
        11 if count > 0 => ("view of a message", &mut m[place + 2], views as u32 + far - 1),
        12 if count > 0 => ("number of a message", &mut m[place + 3], 65_535 + far),
        13 if count > 0 => ("discarded number of a message", &mut m[place + 4], 65_535 + far),
        _ => return None,
    };
    *number = damaged;
    Some(cause.into())
}

/// A number that is mostly below the count, or past it, or far past it.
fn loose(random: &mut Random, count: usize) -> usize {
    match random.below(4) {
        0 => count,
        1 => random.pick(&[count + 1, 255, 256, 65_536, 1 << 32, (1 << 32) + 1, usize::MAX]),
        _ => random.below(count.max(1)),
    }
}

fn loose_call(random: &mut Random, network: &Network) -> Call {
    let map = &network.map;
    let counts = [map.bridge_count(), map.link_count(), map.view_count(), network.flight.len()];
    let [bridge, link, view, place] = counts.map(|n| loose(random, n));
    let dest = loose(random, counts[0]);
    match random.below(10) {
        0 => Call::Update(bridge, view),
        1 => Call::Cut(bridge, link),
        2 => Call::Restore(bridge, link),
        3 => Call::Send(bridge, link),
        4 => Call::Deliver(place),
        5 => Call::Repeat(place),
        6 => Call::Lose(place),
        7 => Call::Port(bridge, dest),
        8 => Call::Report(dest),
        _ => Call::Path(bridge, dest),
    }
}

/// A restore of an end that is down, or now and then of any.
fn restore(random: &mut Random, network: &Network) -> Call {
    let ends = network.ends.concat();
    let down: Vec<End> = ends.iter().copied().filter(|&end| !network.is_up(end)).collect();
    let any = down.is_empty() || random.one_in(4);
    let end = random.pick(if any { &ends } else { &down });
    Call::Restore(network.map.bridge_at(end), end.link)
}

/// A call that is mostly accepted.
pub fn random_call(random: &mut Random, network: &Network) -> Call {
    let map = &network.map;
    let [bridge, dest, view] = [map.bridge_count(), map.bridge_count(), map.view_count()].map(|count| random.below(count));
    let any_bridge = loose(random, map.bridge_count());
    if map.link_count() == 0 {
        return if random.one_in(4) { Call::Update(bridge, view) } else { loose_call(random, network) };
    }
    let link = random.below(map.link_count());
    let on_link = random.pick(&pair(map, link));
    let place = random.below(network.flight.len().max(1));
    match random.below(100) {
        0..=24 => Call::Send(on_link, link),
        25..=47 => Call::Deliver(place),
        48..=55 => Call::Repeat(place),
        56..=59 => Call::Lose(place),
        60..=68 => Call::Update(bridge, view),
        69..=73 => Call::Cut(on_link, link),
        74..=77 => restore(random, network),
        // mostly at a link that the bridge is not at
        78 => Call::Cut(bridge, link),
        79 => Call::Restore(bridge, link),
        80..=81 => random.pick(&[Call::Send, Call::Cut, Call::Restore])(any_bridge, link),
        82 => Call::Port(bridge, dest),
        83..=84 => Call::Report(dest),
        85..=86 => Call::Path(bridge, dest),
        87 => Call::Send(bridge, link),
        _ => loose_call(random, network),
    }
}
