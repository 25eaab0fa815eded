//! What the calls of layer 3 refuse with 17 at their entry: buffers that are too short, numbers that do not fit their field, and numbers
//! outside document 01's ranges.

use crate::call::{RECORD, VERDICT};
use crate::entry::{is_bridge_count, is_link_count, is_received_view, is_view, is_view_count};
use crate::model::Call;
use crate::network_call::{Lent, ANSWER, BENCH, COSTS, DOWN, ENDS, LIMITS, MESSAGES, NUMBER, RECORDS, ROWS, VIEW};
use crate::records_numbers::{Field, BYTES, NUMBERS, RECORD_FIELDS};
use crate::view::MAX_COST;
use reference::network::MOST_IN_FLIGHT;

pub fn reads_views(call: Call) -> bool {
    !matches!(call, Call::Cut(..) | Call::Restore(..) | Call::Send(..) | Call::Lose(_))
}

pub fn reads_messages(call: Call) -> bool {
    matches!(call, Call::Send(..) | Call::Deliver(_) | Call::Repeat(_) | Call::Lose(_))
}

fn answer_length(call: Call) -> usize {
    match call {
        Call::Deliver(_) | Call::Repeat(_) | Call::Path(..) => ANSWER,
        Call::Port(..) => 1,
        Call::Verdict(..) => VERDICT,
        Call::Report(_) => ROWS,
        _ => 0,
    }
}

/// The least length of each buffer, in the order of `Lent::buffers`, 0 for one that is not lent to the call; `None` is `fresh`.
pub fn needed(call: Option<Call>) -> [usize; 6] {
    let Some(call) = call else { return [BENCH, COSTS, LIMITS, LIMITS, 0, 0] };
    let views = |length: usize| if reads_views(call) { length } else { 0 };
    let messages = if reads_messages(call) { MESSAGES } else { 0 };
    [BENCH, views(COSTS), views(LIMITS), views(LIMITS), messages, answer_length(call)]
}

/// Is the call refused with 17.
pub fn is_turned_down(lent: &Lent, call: Option<Call>) -> bool {
    let short = lent.buffers().iter().zip(needed(call)).any(|((_, buffer), length)| buffer.numbers().len() < length);
    short
        || !bench_fits(lent)
        || !counts_in_range(lent)
        || !links_in_range(lent)
        || (call.map_or(true, reads_views) && !costs_in_range(lent))
        || (call.is_some() && !records_in_range(lent))
        || (call.is_some_and(reads_messages) && !messages_in_range(lent))
}

/// The field at a place of a bench, `None` where any number fits: in counts, in flags, and past the bench.
pub fn field_at(place: usize) -> Option<Field> {
    match place {
        _ if (ENDS..VIEW).contains(&place) => Some(("end", BYTES)),
        _ if (VIEW..NUMBER).contains(&place) => Some(("view", BYTES)),
        _ if (NUMBER..RECORDS).contains(&place) => Some(("number", NUMBERS)),
        _ if (RECORDS..DOWN).contains(&place) => RECORD_FIELDS.get((place - RECORDS) % RECORD).copied(),
        _ => None,
    }
}

/// Is the field at a place that of a link, a bridge or an end below the counts.
pub fn is_counted(lent: &Lent, place: usize) -> bool {
    let [bridges, links, ..] = lent.counts();
    match place {
        _ if place < VIEW => place - ENDS < 2 * links,
        _ if place < NUMBER => place - VIEW < bridges,
        _ if place < RECORDS => place - NUMBER < bridges,
        _ => (place - RECORDS) / RECORD < 2 * links,
    }
}

/// Do the numbers hold a bench, of whatever counts.
pub(crate) fn holds_bench(lent: &Lent) -> bool {
    lent.bench.numbers().len() >= BENCH && bench_fits(lent)
}

/// Each number fits its field, also past the counts.
fn bench_fits(lent: &Lent) -> bool {
    let bench = lent.bench.numbers();
    (0..BENCH).all(|place| field_at(place).map_or(true, |(_, values)| bench[place] < values))
}

fn counts_in_range(lent: &Lent) -> bool {
    let [bridges, links, views, _] = lent.counts();
    is_bridge_count(bridges) && is_link_count(links) && is_view_count(views)
}

fn links_in_range(lent: &Lent) -> bool {
    let [bridges, ..] = lent.counts();
    lent.pairs().iter().all(|&[first, second]| first < bridges && second < bridges && first != second)
}

fn costs_in_range(lent: &Lent) -> bool {
    let [_, links, views, _] = lent.counts();
    lent.costs.numbers().chunks_exact(32).take(views).all(|view| view[..links].iter().all(|&cost| cost <= MAX_COST))
}

/// Of the bridges and of the link ends, and how many messages are in flight.
fn records_in_range(lent: &Lent) -> bool {
    let [bridges, links, views, flight] = lent.counts();
    let bench = lent.bench.numbers();
    let mut records = bench[RECORDS..DOWN].chunks_exact(RECORD).take(2 * links);
    flight <= MOST_IN_FLIGHT
        && bench[VIEW..VIEW + bridges].iter().all(|&view| is_view(view, views))
        && records.all(|record| is_received_view(record[1], views))
}

fn messages_in_range(lent: &Lent) -> bool {
    let [_, links, views, flight] = lent.counts();
    lent.messages.numbers().chunks_exact(5).take(flight).all(|message| {
        let [link, direction, view] = [message[0], message[1], message[2]].map(|x| x as usize);
        link < links && direction < 2 && view < views && message[3..].iter().all(|&number| number < NUMBERS)
    })
}
