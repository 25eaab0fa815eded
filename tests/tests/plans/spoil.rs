//! Random plans, most of which are refused somewhere: sensible ones spoilt at one point, and ones of arbitrary fields or bytes.

use crate::make::{filled, Maker};
use bench_tests::plan_bytes::{field, LONGEST};
use bench_tests::random::Random;

// ---- one point spoilt

/// Spoils one point of a sensible plan: among its fields, among its bytes, or where document 01 sets a limit. Now and then the
/// plan is cut short as well.
pub fn damaged(random: &mut Random) -> Vec<u8> {
    let mut maker = filled(random);
    match maker.random.below(5) {
        0 | 1 => misplace(&mut maker),
        2 | 3 => alter(&mut maker),
        _ => exceed(&mut maker),
    }
    if maker.random.one_in(12) {
        return cut_short(&mut maker);
    }
    maker.fields.concat()
}

/// The place of a field, often near the beginning, where the setup stands.
fn place(maker: &mut Maker) -> usize {
    let fields = maker.fields.len();
    let reach = if maker.random.one_in(2) { fields.min(12) } else { fields };
    maker.random.below(reach)
}

/// Moves, adds, drops or repeats a field.
fn misplace(maker: &mut Maker) {
    let [at, other] = [place(maker), place(maker)];
    match maker.random.below(4) {
        0 => maker.fields.swap(at, other),
        1 => {
            any_field(maker);
            let added = maker.fields.pop().expect("a field was added");
            maker.fields.insert(at, added);
        }
        2 => drop(maker.fields.remove(at)),
        _ => {
            let again = maker.fields[at].clone();
            maker.fields.insert(other, again);
        }
    }
}

/// Changes or drops a byte.
fn alter(maker: &mut Maker) {
    let at = place(maker);
    let bytes = &mut maker.fields[at];
    let byte = maker.random.below(bytes.len());
    match maker.random.below(4) {
        // A byte of the length.
        0 => bytes[1 + maker.random.below(2)] = maker.random.below(8) as u8,
        1 => bytes[byte] = maker.random.below(256) as u8,
        2 => bytes[byte] ^= 1 << maker.random.below(8),
        _ => drop(bytes.remove(byte)),
    }
}

/// Goes beyond a limit: of bridges, links, views, costs, messages in flight or bytes.
fn exceed(maker: &mut Maker) {
    match maker.random.below(6) {
        0 => maker.fields[0][3] = [0, 1, 17, 17 + maker.random.below(239)][maker.random.below(4)] as u8,
        1 => too_many_links(maker),
        2 => too_many_views(maker),
        3 => too_high_a_cost(maker),
        4 => more_sends(maker),
        _ => about_the_longest(maker),
    }
}

/// The first view's place among the fields.
fn first_view(maker: &Maker) -> usize {
    1 + maker.ends.len()
}

/// The 33rd has any ends: the count is checked first.
fn too_many_links(maker: &mut Maker) {
    let at = first_view(maker);
    for link in maker.ends.len()..33 {
        let ends = if link == 32 { [maker.random.below(20), maker.random.below(20)] } else { [0, 1] };
        maker.fields.insert(at + link - maker.ends.len(), field(2, &ends.map(|end| end as u8)));
    }
}

/// The 33rd has any costs: the count is checked first.
fn too_many_views(maker: &mut Maker) {
    let past = first_view(maker) + maker.views;
    let view = maker.fields[past - 1].clone();
    let any: Vec<u8> = (0..4 * maker.ends.len()).map(|_| maker.random.below(256) as u8).collect();
    let more = (maker.views..32).map(|_| view.clone()).chain([field(3, &any)]);
    maker.fields.splice(past..past, more);
}

/// Above 16,777,215, half of the time by one. Without links there is no cost.
fn too_high_a_cost(maker: &mut Maker) {
    if maker.ends.is_empty() {
        return;
    }
    let view = first_view(maker) + maker.random.below(maker.views);
    let cost = 3 + 4 * maker.random.below(maker.ends.len());
    if maker.random.one_in(2) {
        maker.fields[view][cost..cost + 4].copy_from_slice(&[1, 0, 0, 0]);
    } else {
        maker.fields[view][cost] = 1 + maker.random.below(255) as u8;
    }
}

/// A send again and again, so that most later places are other messages, or so that no message more is taken.
fn more_sends(maker: &mut Maker) {
    let sends: Vec<usize> = (0..maker.fields.len()).filter(|&at| maker.fields[at][0] == 5).collect();
    if sends.is_empty() {
        return;
    }
    let at = sends[maker.random.below(sends.len())];
    let again = vec![maker.fields[at].clone(); maker.random.below(100)];
    maker.fields.splice(at..at, again);
}

/// Of the greatest length, or up to two bytes less or more. Updates take 5 bytes and reports 4, so any length can be reached.
fn about_the_longest(maker: &mut Maker) {
    let target = LONGEST - 2 + maker.random.below(5);
    let mut length = maker.fields.concat().len();
    while length < target {
        let bridge = maker.random.below(maker.bridges);
        if (target - length) % 5 == 0 {
            let view = maker.random.below(maker.views);
            maker.put(4, &[bridge, view]);
        } else {
            maker.put(11, &[bridge]);
        }
        length += maker.fields[maker.fields.len() - 1].len();
    }
}

fn cut_short(maker: &mut Maker) -> Vec<u8> {
    let mut bytes = maker.fields.concat();
    bytes.truncate(maker.random.below(bytes.len()));
    bytes
}

// ---- arbitrary fields and bytes

/// How many values each item of a field may have, about; nothing for an unknown tag.
fn ranges(maker: &Maker, tag: usize) -> Vec<usize> {
    let (bridges, links) = (maker.bridges, maker.ends.len());
    match tag {
        1 => vec![17],
        2 | 12 => vec![bridges, bridges],
        3 => vec![2; 4 * links],
        4 => vec![bridges, maker.views],
        5 | 9 | 10 => vec![bridges, links],
        6..=8 => vec![maker.flight.len()],
        11 => vec![bridges],
        _ => vec![],
    }
}

/// Mostly an event with its values in range, and nine times in ten with the length that its tag asks for.
fn any_field(maker: &mut Maker) {
    let tag = match maker.random.below(30) {
        0 => maker.random.below(256),
        1 => maker.random.below(4),
        _ => 4 + maker.random.below(9),
    };
    let mut value = ranges(maker, tag);
    for item in &mut value {
        let most = if *item == 0 || maker.random.one_in(20) { 256 } else { *item };
        *item = maker.random.below(most);
    }
    maker.put(tag as u8, &value);
    if maker.random.one_in(10) {
        let [high, low] = [maker.random.below(256) >> maker.random.below(16), maker.random.below(8)];
        let bytes = maker.fields.last_mut().expect("a field was added");
        match maker.random.below(3) {
            0 => bytes[1..3].copy_from_slice(&[high as u8, low as u8]),
            // The length is said rightly, and the value is another.
            1 => drop(bytes.pop()),
            _ => bytes.push(low as u8),
        }
    }
}

/// Any fields after a setup that is in order, in each plan among another share of sensible events. A fifth are any bytes.
pub fn arbitrary(random: &mut Random) -> Vec<u8> {
    if random.one_in(5) {
        return any_bytes(random);
    }
    let mut maker = Maker::new(random);
    match maker.random.below(3) {
        0 => {}
        1 => (0..2).for_each(|_| maker.round()),
        _ => maker.crowd(),
    }
    let rarity = [1, 3, 10, 40][maker.random.below(4)];
    let most = [8, 40, 160][maker.random.below(3)];
    for _ in 0..maker.random.below(most) {
        if maker.random.one_in(rarity) {
            any_field(&mut maker);
        } else {
            maker.event();
        }
    }
    if maker.random.one_in(2) {
        maker.conclude();
    }
    if maker.random.one_in(12) {
        return cut_short(&mut maker);
    }
    maker.fields.concat()
}

/// Half of the time with small values, and half of the time after a small setup: both come further.
fn any_bytes(random: &mut Random) -> Vec<u8> {
    let length = [random.below(20), random.below(2_000), LONGEST - 500 + random.below(1_000)][random.below(3)];
    let most = if random.one_in(2) { 256 } else { 13 };
    let mut bytes: Vec<u8> = (0..length).map(|_| random.below(most) as u8).collect();
    if random.one_in(2) {
        bytes.splice(0..0, [1, 0, 1, 3, 2, 0, 2, 0, 1, 3, 0, 4, 0, 0, 0, 9]);
    }
    bytes
}
