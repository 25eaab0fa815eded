//! What a list of calls is to do: the single calls of reference/, one after the other.

use crate::count::Met;
use crate::guard::Buffer;
use crate::list_call::{List, COUNTS, MOST_EVENTS};
use crate::model::{Call, Model};
use crate::network_call::{ANSWER, ROWS};
use crate::network_entry::{holds_bench, is_turned_down, needed};
use crate::network_event::{end_of, events};
use crate::network_numbers::{compare, compare_buffer, expect, put_bench};
use crate::plan_bytes::first_event;
use std::mem::replace;

/// What a list ends before: the end of the bytes, an event too many, no event, one without room for its answer, or a refused one.
#[derive(Clone, Copy, Debug, PartialEq)]
pub enum Stop {
    End,
    Most,
    NoEvent,
    Room,
    Refused,
}

// ---- refusals at the entry

/// The least length of each buffer, in the order of `Lent::buffers`: those of a delivery, whose answer is as long as the counts.
pub fn list_needs() -> [usize; 6] {
    needed(Some(Call::Deliver(0)))
}

/// What a list leaves that is refused with 17: all as it was, and counts of 0 where a bench is there and room for them. `None` where it is
/// not refused so.
pub fn turned_down(list: &List) -> Option<List> {
    if !holds_bench(&list.lent) || list.lent.out.numbers().len() < COUNTS {
        return Some(list.clone());
    }
    is_turned_down(&list.lent, Some(Call::Deliver(0))).then(|| unmade(list))
}

/// What a list leaves that makes nothing: all as it was, but for the counts.
pub fn unmade(list: &List) -> List {
    let mut expected = list.clone();
    put_counts(&mut expected, [0; COUNTS]);
    expected
}

fn put_counts(list: &mut List, counts: [usize; COUNTS]) {
    list.lent.out.numbers_mut()[..COUNTS].copy_from_slice(&counts.map(|count| count as u32));
}

// ---- lists that are made

/// How many numbers an event answers with.
pub fn answer_size(call: Call, bridges: usize) -> usize {
    match call {
        Call::Report(_) => 2 * bridges,
        Call::Path(..) | Call::Deliver(_) | Call::Repeat(_) => ANSWER,
        _ => 0,
    }
}

/// Makes the calls that the list is to make, up to where it is to stop: its reply, and why there. All buffers are as it leaves them.
fn expect_calls(model: &mut Model, list: &mut List, met: &mut Met) -> (u8, Stop) {
    let out = replace(&mut list.lent.out, Buffer::of(&[0; ROWS]));
    let [mut made, mut used, mut answered] = [0; COUNTS];
    let end = loop {
        let rest = &list.rest.numbers()[used..];
        if rest.is_empty() {
            break (0, Stop::End);
        }
        if made == MOST_EVENTS {
            break (0, Stop::Most);
        }
        let Some((call, length)) = first_event(rest) else { break (0, Stop::NoEvent) };
        let size = answer_size(call, model.network.map.bridge_count());
        let Some(answer) = list.answers.numbers_mut().get_mut(answered..answered + size) else {
            met.note_times("no room for a refused event", model.clone().call(call).is_err().into());
            break (0, Stop::Room);
        };
        let at = end_of(&model.network, call);
        let outcome = expect(model, call, &mut list.lent);
        events(&model.network, call, at, &outcome).into_iter().for_each(|event| met.note(event));
        if let Err(number) = outcome {
            met.note_times("the last event refused", (rest.len() == length).into());
            break (number, Stop::Refused);
        }
        answer.copy_from_slice(&list.lent.out.numbers()[..size]);
        made += 1;
        used += length;
        answered += size;
    };
    if made > 0 {
        put_bench(&model.network, list.lent.bench.numbers_mut());
    }
    list.lent.out = out;
    put_counts(list, [made, used, answered]);
    end
}

/// A list on the network that the buffers hold, whose numbers are in range: made both ways, and compared. An error says where they differ.
pub fn run_both(model: &mut Model, list: &mut List, met: &mut Met) -> Result<Stop, String> {
    let mut expected = list.clone();
    let (number, stop) = expect_calls(model, &mut expected, met);
    let [made, used, answered] = expected.counts();
    let label = format!("{made} events, {used} bytes, {answered} numbers, then {stop:?}");
    let reply = list.run();
    if reply != number {
        return Err(format!("{label}: reply {reply} in place of {number}"));
    }
    compare_lists(&expected, list).map_err(|difference| format!("{label}: {difference}"))?;
    let when = match made {
        0 => "at once",
        1..=39 => "after few events",
        _ => "after many events",
    };
    met.note(format!("{stop:?} {when}"));
    Ok(stop)
}

/// Says where buffers differ from the expected ones.
pub fn compare_lists(expected: &List, found: &List) -> Result<(), String> {
    compare(&expected.lent, &found.lent)?;
    compare_buffer("rest", &expected.rest, &found.rest)?;
    compare_buffer("answers", &expected.answers, &found.answers)
}
