//! The bytes of a plan: its fields, and the event at the head of some of them.

use crate::model::{byte, Call};

/// The longest plan that is read, in bytes.
pub const LONGEST: usize = 61_440;

pub fn field(tag: u8, value: &[u8]) -> Vec<u8> {
    let length = u16::try_from(value.len()).expect("a short value").to_be_bytes();
    [&[tag][..], &length, value].concat()
}

/// The field of an event, `None` for a port or a verdict, which are none.
pub fn event_field(call: Call) -> Option<Vec<u8>> {
    let one = |tag: u8, number: usize| Some(field(tag, &[byte(number)]));
    let two = |tag: u8, first: usize, second: usize| Some(field(tag, &[byte(first), byte(second)]));
    match call {
        Call::Update(bridge, view) => two(4, bridge, view),
        Call::Send(bridge, link) => two(5, bridge, link),
        Call::Deliver(place) => one(6, place),
        Call::Repeat(place) => one(7, place),
        Call::Lose(place) => one(8, place),
        Call::Cut(bridge, link) => two(9, bridge, link),
        Call::Restore(bridge, link) => two(10, bridge, link),
        Call::Report(dest) => one(11, dest),
        Call::Path(start, dest) => two(12, start, dest),
        Call::Port(..) | Call::Verdict(..) => None,
    }
}

/// The event at the head of the bytes, and how many of them it takes. `None` where no whole event stands there.
pub fn first_event(bytes: &[u8]) -> Option<(Call, usize)> {
    let one = |call: fn(usize) -> Call, number: u8| Some((call(number.into()), 4));
    let two = |call: fn(usize, usize) -> Call, first: u8, second: u8| Some((call(first.into(), second.into()), 5));
    match *bytes {
        [4, 0, 2, bridge, view, ..] => two(Call::Update, bridge, view),
        [5, 0, 2, bridge, link, ..] => two(Call::Send, bridge, link),
        [6, 0, 1, place, ..] => one(Call::Deliver, place),
        [7, 0, 1, place, ..] => one(Call::Repeat, place),
        [8, 0, 1, place, ..] => one(Call::Lose, place),
        [9, 0, 2, bridge, link, ..] => two(Call::Cut, bridge, link),
        [10, 0, 2, bridge, link, ..] => two(Call::Restore, bridge, link),
        [11, 0, 1, dest, ..] => one(Call::Report, dest),
        [12, 0, 2, start, dest, ..] => two(Call::Path, start, dest),
        _ => None,
    }
}
