//! Networks that no fresh one leads to: any views, numbers, records, limits, ends that are down and messages in flight that are in range.

use crate::call::RECORD;
use crate::network_call::{Lent, DOWN, NUMBER, RECORDS, VIEW};
use crate::network_random::{fill, pair};
use crate::random::Random;
use crate::random_case::random_down;
use crate::records_numbers::{NO_VIEW, NUMBERS};
use crate::view::NONE;
use reference::map::Map;

/// The limits of a network.
#[derive(Clone, Copy, Debug, PartialEq)]
pub enum Limits {
    /// Any numbers.
    Any,
    /// Nearly every frame passes, so that rings occur.
    Loose,
    /// Some that let a frame pass, some at the distances, some others.
    Near,
}

/// Agreement numbers: any, or small ones, which meet often, or such that end soon.
#[derive(Clone, Copy)]
enum Numbers {
    Any,
    Small,
    Last,
}

impl Numbers {
    fn number(self, random: &mut Random) -> u32 {
        match self {
            _ if random.one_in(8) => NUMBERS - 1,
            Numbers::Any => random.below(NUMBERS as usize) as u32,
            Numbers::Small => random.below(6) as u32,
            Numbers::Last => NUMBERS - 5 + random.below(5) as u32,
        }
    }
}

/// Puts a network in the place of what stands in buffers that hold the map: all that is counted is in range, and all else fits. Says which
/// limits it has.
pub fn hand_in(random: &mut Random, map: &Map, lent: &mut Lent) -> Limits {
    let limits = random.pick(&[Limits::Any, Limits::Loose, Limits::Loose, Limits::Near]);
    let numbers = random.pick(&[Numbers::Any, Numbers::Small, Numbers::Last]);
    hand_in_bench(random, map, lent, numbers, limits == Limits::Loose);
    hand_in_messages(random, map, lent, numbers);
    hand_in_limits(random, map, lent, limits);
    limits
}

/// Where it is loose, something is held at each end, and few ends are down.
fn hand_in_bench(random: &mut Random, map: &Map, lent: &mut Lent, numbers: Numbers, loose: bool) {
    let (links, views) = (map.link_count(), map.view_count());
    let b = lent.bench.numbers_mut();
    fill(random, b, VIEW);
    for y in 0..map.bridge_count() {
        b[VIEW + y] = random.below(views) as u32;
        b[NUMBER + y] = numbers.number(random);
    }
    for record in b[RECORDS..DOWN].chunks_exact_mut(RECORD).take(2 * links) {
        let seen = if random.one_in(4) { NO_VIEW } else { random.below(views) as u32 };
        let [highest, discarded] = [0; 2].map(|_: u32| numbers.number(random));
        let holding = if loose { 1 } else { random.pick(&[0, 1, 1, 2, NONE]) };
        record.copy_from_slice(&[highest, seen, discarded, holding]);
    }
    for flags in b[DOWN..].chunks_exact_mut(2).take(links) {
        let down = random_down(random, if loose { 10 } else { 2 });
        flags.copy_from_slice(&down.map(|down| if down { random.pick(&[1, 3, NONE]) } else { 0 }));
    }
}

fn hand_in_messages(random: &mut Random, map: &Map, lent: &mut Lent, numbers: Numbers) {
    let (links, views) = (map.link_count(), map.view_count());
    let count = if links == 0 { 0 } else { random.below(65) };
    lent.bench.numbers_mut()[3] = count as u32;
    for message in lent.messages.numbers_mut().chunks_exact_mut(5).take(count) {
        let [link, direction, view] = [links, 2, views].map(|n| random.below(n) as u32);
        message.copy_from_slice(&[link, direction, view, numbers.number(random), numbers.number(random)]);
    }
}

fn hand_in_limits(random: &mut Random, map: &Map, lent: &mut Lent, limits: Limits) {
    for end in 0..2 * map.link_count() {
        let bridge = pair(map, end / 2)[end % 2];
        let view = lent.bench.numbers()[VIEW + bridge] as usize;
        let down = lent.bench.numbers()[DOWN + end] != 0;
        for dest in 0..map.bridge_count() {
            let distance = map.distance(view, dest, bridge);
            // at an end that is down any sent limit lets a frame pass
            let passes = if down { random.pick(&[0, NONE]) } else { NONE };
            lent.sent.numbers_mut()[16 * end + dest] = limit(random, limits, passes, distance);
            lent.held.numbers_mut()[16 * end + dest] = limit(random, limits, 1, distance);
        }
    }
}

/// The limit of an end for a destination: `passes` lets nearly every frame pass, and the bridge has this distance.
fn limit(random: &mut Random, limits: Limits, passes: u32, distance: u32) -> u32 {
    match (limits, random.below(50)) {
        (Limits::Loose, 1..) | (Limits::Near, 0..=19) => passes,
        (Limits::Near, 20..=23) => NONE,
        (Limits::Near, 24..=27) => random.below(8) as u32,
        (Limits::Near, 28..=45) => random.pick(&[distance.saturating_add(1), distance, distance.saturating_sub(1)]),
        _ => random.number(),
    }
}
