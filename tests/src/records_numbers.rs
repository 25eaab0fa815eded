//! The records of a link end as the numbers that are lent to the calls of layers 2 and 3: four numbers, and a row of each limit table.
//! A number that does not fit its field is refused; any number but 0 stands for true.

use crate::call::{MESSAGE, RECORD};
use crate::view::NONE;
use reference::map::{End, Map};
use reference::records::{Answer, Held, Message, Records};
use std::ops::Range;

/// In the place of a received view: none was received.
pub const NO_VIEW: u32 = 255;

/// How many values a field of an end or a view has, and how many one of an agreement number.
pub const BYTES: u32 = 256;
pub const NUMBERS: u32 = 65_536;

/// A field's name, and how many values it has.
pub type Field = (&'static str, u32);

/// The fields of a record, which a flag follows, and those of a message. Any number fits a flag.
pub const RECORD_FIELDS: [Field; 3] = [("received number", NUMBERS), ("received view", BYTES), ("discarded number", NUMBERS)];
pub const MESSAGE_FIELDS: [Field; 3] = [("view", BYTES), ("number", NUMBERS), ("discarded number", NUMBERS)];

/// An agreement number that fits its field.
pub fn agreement_number(number: u32) -> u16 {
    u16::try_from(number).expect("a number that fits its field")
}

/// Where an end's limits for so many bridges stand in a limit table.
fn row(end: usize, bridges: usize) -> Range<usize> {
    16 * end..16 * end + bridges
}

/// The records of an end, of numbers that fit. What stands in the held row is a limit only where a view is held.
pub fn records_in(fields: &[u32], sent: &[u32], held: &[u32], end: usize, bridges: usize) -> Records {
    Records {
        highest: agreement_number(fields[0]),
        received: (fields[1] != NO_VIEW).then_some(fields[1] as usize),
        discarded: agreement_number(fields[2]),
        held: if fields[3] != 0 { Held::Limits(held[row(end, bridges)].to_vec()) } else { Held::Nothing },
        sent: sent[row(end, bridges)].to_vec(),
    }
}

/// The four numbers of an end.
pub fn fields_of(records: &Records) -> [u32; RECORD] {
    let received = records.received.map_or(NO_VIEW, |view| view as u32);
    [records.highest.into(), received, records.discarded.into(), (records.held != Held::Nothing).into()]
}

/// An end's limits go into the tables. The held row stays as it is where nothing is held.
pub fn put_limits(map: &Map, end: End, records: &Records, sent: &mut [u32], held: &mut [u32]) {
    let row = row(2 * end.link + end.side, map.bridge_count());
    sent[row.clone()].copy_from_slice(&records.sent);
    if records.held != Held::Nothing {
        for (dest, limit) in held[row].iter_mut().enumerate() {
            *limit = records.held_limit(map, end, dest);
        }
    }
}

/// The same for the fresh records of an end, which come with a held row of NONE.
pub fn put_fresh_limits(map: &Map, end: End, records: &Records, sent: &mut [u32], held: &mut [u32]) {
    held[row(2 * end.link + end.side, map.bridge_count())].fill(NONE);
    put_limits(map, end, records, sent, held);
}

/// A delivery's answer: stale, agreed or noted, and the number and view taken.
pub fn answer_numbers(answer: Answer, message: Message) -> [u32; MESSAGE] {
    let taken = [message.number.into(), message.view as u32];
    match answer {
        Answer::Stale => [0, 0, 0],
        Answer::Agreed => [1, taken[0], taken[1]],
        Answer::Noted => [2, taken[0], taken[1]],
    }
}
