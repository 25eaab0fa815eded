//! A network as the numbers that are lent to the calls of layer 3: the network that stands in them, and what a call is to leave.
//! A number that does not fit its field is refused; any number but 0 stands for true.

use crate::call::RECORD;
use crate::guard::{Buffer, Guard};
use crate::model::{byte, Call, Model, Reply};
use crate::network_call::{Lent, BENCH, DOWN, NUMBER, RECORDS, VIEW};
use crate::network_entry::{reads_messages, reads_views};
use crate::network_random::map_of;
use crate::records_numbers::{agreement_number, answer_numbers, fields_of, put_fresh_limits, put_limits, records_in, NO_VIEW};
use crate::verdict::verdict_numbers;
use crate::view::NONE;
use reference::map::{End, Map};
use reference::network::Network;
use reference::records::{Bridge, Message};
use std::fmt::Display;

// ---- the network in the numbers

/// Bridges, links and costs as they stand in the numbers, with the distances that the reference computes.
fn map_in(lent: &Lent) -> Map {
    let [bridges, links, views, _] = lent.counts();
    let pairs: Vec<[u8; 2]> = lent.pairs().into_iter().map(|pair| pair.map(byte)).collect();
    let costs = lent.costs.numbers().chunks_exact(32).take(views);
    map_of(bridges, &pairs, &costs.map(|view| view[..links].to_vec()).collect::<Vec<_>>())
}

/// The network that stands in numbers which are in range.
pub fn network_in(lent: &Lent) -> Network {
    let [bridges, links, _, flight] = lent.counts();
    let b = lent.bench.numbers();
    let mut network = Network::fresh(map_in(lent));
    for (y, bridge) in network.bridges.iter_mut().enumerate() {
        *bridge = Bridge { view: b[VIEW + y] as usize, number: agreement_number(b[NUMBER + y]) };
    }
    for end in 0..2 * links {
        let fields = &b[RECORDS + RECORD * end..];
        let records = records_in(fields, lent.sent.numbers(), lent.held.numbers(), end, bridges);
        network.records[end / 2][end % 2] = records;
    }
    network.down = b[DOWN..].chunks_exact(2).take(links).map(|flags| [flags[0], flags[1]].map(|flag| flag != 0)).collect();
    network.flight = lent.messages.numbers().chunks_exact(5).take(flight).map(message_in).collect();
    network
}

fn message_in(numbers: &[u32]) -> Message {
    let [link, side, view] = [0, 1, 2].map(|k| numbers[k] as usize);
    let [number, discarded] = [3, 4].map(|k| agreement_number(numbers[k]));
    Message { from: End { link, side }, view, number, discarded }
}

// ---- what a call leaves

/// The network goes into the buffers that are lent to the call. What is no part of it stays.
fn put_network(network: &Network, call: Call, lent: &mut Lent) {
    put_bench(network, lent.bench.numbers_mut());
    if reads_views(call) {
        for &end in network.ends.iter().flatten() {
            let records = &network.records[end.link][end.side];
            put_limits(&network.map, end, records, lent.sent.numbers_mut(), lent.held.numbers_mut());
        }
    }
    if reads_messages(call) {
        for (x, numbers) in network.flight.iter().zip(lent.messages.numbers_mut().chunks_exact_mut(5)) {
            let [link, side, view] = [x.from.link, x.from.side, x.view].map(|x| x as u32);
            numbers.copy_from_slice(&[link, side, view, x.number.into(), x.discarded.into()]);
        }
    }
}

/// All flags of a bench that is written are 0 or 1, also those past its counts.
pub(crate) fn put_bench(network: &Network, b: &mut [u32]) {
    let holding = (RECORDS..DOWN).skip(RECORD - 1).step_by(RECORD);
    holding.chain(DOWN..BENCH).for_each(|flag| b[flag] = u32::from(b[flag] != 0));
    b[3] = network.flight.len() as u32;
    for (y, bridge) in network.bridges.iter().enumerate() {
        b[VIEW + y] = bridge.view as u32;
        b[NUMBER + y] = bridge.number.into();
    }
    for (record, records) in b[RECORDS..DOWN].chunks_exact_mut(RECORD).zip(network.records.iter().flatten()) {
        record.copy_from_slice(&fields_of(records));
    }
    for (flag, &down) in b[DOWN..BENCH].iter_mut().zip(network.down.iter().flatten()) {
        *flag = down.into();
    }
}

/// What `fresh` leaves, whose map stands in the numbers.
pub fn put_fresh(map: &Map, lent: &mut Lent) -> Network {
    let network = Network::fresh(map.clone());
    let b = lent.bench.numbers_mut();
    b[VIEW..NUMBER].fill(0);
    b[NUMBER..RECORDS].fill(1);
    b[RECORDS..DOWN].chunks_exact_mut(RECORD).for_each(|record| record.copy_from_slice(&[0, NO_VIEW, 0, 0]));
    b[DOWN..BENCH].fill(0);
    put_bench(&network, b);
    for &end in network.ends.iter().flatten() {
        let records = &network.records[end.link][end.side];
        put_fresh_limits(map, end, records, lent.sent.numbers_mut(), lent.held.numbers_mut());
    }
    network
}

/// A reply's numbers go to `out`.
fn put_reply(call: Call, reply: &Reply, out: &mut [u32]) {
    let link = |port: Option<usize>| port.map_or(NONE, |link| link as u32);
    match (call, reply) {
        (_, Reply::Done) => {}
        (_, Reply::Answered(answer, message)) => out[..3].copy_from_slice(&answer_numbers(*answer, *message)),
        (_, Reply::Port(port)) => out[0] = link(*port),
        (_, Reply::Verdict(verdict)) => out[..2].copy_from_slice(&verdict_numbers(*verdict)),
        (_, Reply::Report(rows)) => {
            for (row, &(distance, port)) in out.chunks_exact_mut(2).zip(rows) {
                row.copy_from_slice(&[distance, link(port)]);
            }
        }
        (Call::Path(_, dest), Reply::Path(end)) if end.last == dest => out[..3].copy_from_slice(&[0, 0, end.hops as u32]),
        (_, Reply::Path(end)) => out[..3].copy_from_slice(&[1, end.last as u32, end.hops as u32]),
    }
}

/// Does an accepted call only ask.
pub fn is_question(call: Call) -> bool {
    matches!(call, Call::Port(..) | Call::Verdict(..) | Call::Report(_) | Call::Path(..))
}

/// One call on the network that the buffers hold: its reply, and the buffers as it is to leave them. An error is document 01's number.
pub fn expect(model: &mut Model, call: Call, lent: &mut Lent) -> Result<Reply, u8> {
    let reply = model.call(call).map_err(|refusal| refusal.number())?;
    if !is_question(call) {
        put_network(&model.network, call, lent);
    }
    put_reply(call, &reply, lent.out.numbers_mut());
    Ok(reply)
}

/// Says where buffers differ from the expected ones.
pub fn compare(expected: &Lent, found: &Lent) -> Result<(), String> {
    let mut pairs = expected.buffers().into_iter().zip(found.buffers());
    pairs.try_for_each(|((name, e), (_, f))| compare_buffer(name, e, f))
}

/// The same of one buffer.
pub(crate) fn compare_buffer<T: Guard + Display>(name: &str, expected: &Buffer<T>, found: &Buffer<T>) -> Result<(), String> {
    if !found.is_guarded() {
        return Err(format!("a write outside the lent {name}"));
    }
    let (e, f) = (expected.numbers(), found.numbers());
    if e == f {
        return Ok(());
    }
    let p = (0..e.len()).find(|&p| e[p] != f[p]).expect("equal lengths");
    Err(format!("{name}, place {p}: {} in place of {}", f[p], e[p]))
}
