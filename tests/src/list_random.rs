//! Random lists of events in bytes, whole ones and spoilt ones.

use crate::guard::Buffer;
use crate::list_call::{List, MOST_EVENTS};
use crate::model::{Call, Model};
use crate::network_call::Lent;
use crate::network_random::{pair, random_call, random_map};
use crate::network_run::Run;
use crate::plan_bytes::{event_field, field};
use crate::random::Random;

/// An end of a link is cut that a message is on, and then mostly comes an event that depends on which end it is.
fn cut(random: &mut Random, run: &mut Run) -> Result<(), String> {
    let Some(link) = run.any_link(random) else { return run.call(Call::Cut(0, 0)) };
    let both = pair(run.map(), link);
    let [sender, cut, other] = [0; 3].map(|_: u8| random.pick(&both));
    run.call(Call::Send(sender, link))?;
    run.call(Call::Cut(cut, link))?;
    let last = run.network().flight.len().max(1) - 1;
    let at_ends = [Call::Cut(other, link), Call::Restore(other, link), Call::Send(other, link)];
    run.call(random.pick(&[&at_ends[..], &[Call::Deliver(last), Call::Repeat(last)]].concat()))
}

/// Calls by a run, most of which are accepted.
fn make_calls(random: &mut Random, run: &mut Run) -> Result<(), String> {
    let last = run.events() + random.pick(&[2, 30, 120]);
    while run.events() < last {
        match random.below(40) {
            0 => run.flood(random)?,
            1..=2 => run.round(random)?,
            3 => run.move_to_one_view(random)?,
            4..=5 => run.agree(random)?,
            6..=7 => run.overtake(random)?,
            8..=15 => {
                let [start, dest] = [0; 2].map(|_: u8| random.below(run.map().bridge_count()));
                run.call(Call::Path(start, dest))?;
            }
            16..=17 => cut(random, run)?,
            // mostly about a link that the bridge is not at, or about no bridge
            18..=19 => {
                let [bridge, link] = [run.map().bridge_count() + 1, run.map().link_count().max(1)].map(|n| random.below(n));
                run.call(random.pick(&[Call::Send, Call::Cut, Call::Restore])(bridge, link))?;
            }
            _ => {
                let call = random_call(random, run.network());
                run.call(call)?;
            }
        }
    }
    Ok(())
}

/// An event that the network refuses.
pub fn refused_call(random: &mut Random, model: &Model) -> Call {
    loop {
        let call = random_call(random, &model.network);
        if event_field(call).is_some() && model.clone().call(call).is_err() {
            return call;
        }
    }
}

/// So many events, each of them accepted. The model goes to where they lead.
pub fn accepted_calls(random: &mut Random, model: &mut Model, count: usize) -> Vec<Call> {
    let mut calls = Vec::new();
    while calls.len() < count {
        let call = random_call(random, &model.network);
        if event_field(call).is_some() && model.call(call).is_ok() {
            calls.push(call);
        }
    }
    calls
}

/// The fields of events.
pub fn bytes_of(calls: &[Call]) -> Vec<u8> {
    calls.iter().copied().filter_map(event_field).flatten().collect()
}

/// The fields of these calls. Refused ones and reports, which take much room, are kept always, now and then, or hardly ever. Now and then
/// another refused one is the last.
fn fields_of(random: &mut Random, calls: &[Call], mut model: Model) -> Vec<Vec<u8>> {
    let [refused, reports] = [0; 2].map(|_: u8| random.pick(&[1, 50, 1_000]));
    let mut fields = Vec::new();
    for &call in calls {
        let rarely = match call {
            _ if model.call(call).is_err() => refused,
            Call::Report(_) => reports,
            _ => 1,
        };
        if random.one_in(rarely) {
            fields.extend(event_field(call));
        }
    }
    if random.one_in(4) {
        fields.extend(event_field(refused_call(random, &model)));
    }
    fields
}

/// Any bytes, or a field that no list has: of a tag that is not known, or of the setup.
fn no_event(random: &mut Random, links: usize) -> Vec<u8> {
    let byte = random.below(256) as u8;
    match random.below(5) {
        0 => field(1, &[2 + byte % 15]),
        1 => field(2, &[0, 1]),
        2 => field(3, &vec![0; 4 * links]),
        3 => field(random.pick(&[0, 13, 14, 255]), &[byte]),
        _ => (0..random.below(12)).map(|_| random.below(14) as u8).collect(),
    }
}

/// Spoils a field, or puts another before it, or ends the bytes within it.
fn spoil(random: &mut Random, fields: &mut Vec<Vec<u8>>, links: usize) {
    let at = random.below(fields.len());
    let byte = random.below(fields[at].len());
    let bytes = &mut fields[at];
    match random.below(6) {
        // a byte of the length
        0 => bytes[1 + random.below(2)] = random.below(4) as u8,
        1 => bytes[byte] = random.below(256) as u8,
        2 => drop(bytes.remove(byte)),
        3 => bytes.insert(byte, random.below(4) as u8),
        4 => {
            bytes.truncate(byte);
            fields.truncate(at + 1);
        }
        _ => fields.insert(at, no_event(random, links)),
    }
}

/// Room for the answers of no event, of some, or of all of them, with unlike numbers in it.
fn random_answers(random: &mut Random, rest: &[u8]) -> Buffer {
    // an event of 4 bytes answers with up to 32 numbers
    let most = random.pick(&[1, 4, 40, 400, 400, 8 * rest.len() + 1, 8 * rest.len() + 1]);
    let length = random.below(most);
    Buffer::of(&random.numbers(length))
}

/// A list for the network of a run, which goes on to where its calls lead, and that network.
pub fn random_list(random: &mut Random, run: &mut Run) -> Result<(Model, List), String> {
    if random.one_in(2) {
        make_calls(random, run)?;
    }
    let first = run.trail.len();
    let (model, lent) = (run.model.clone(), run.found.clone());
    make_calls(random, run)?;
    let mut fields = fields_of(random, &run.trail[first..], model.clone());
    if !fields.is_empty() && random.one_in(2) {
        spoil(random, &mut fields, run.map().link_count());
    }
    Ok((model, list_of(random, lent, &fields.concat())))
}

/// The same with more events than are made at once, one of them refused.
fn long_list(random: &mut Random, run: &Run) -> (Model, List) {
    let mut model = run.model.clone();
    let count = MOST_EVENTS + random.below(MOST_EVENTS);
    let before = random.below(count);
    let mut calls = accepted_calls(random, &mut model, before);
    calls.push(refused_call(random, &model));
    calls.extend(accepted_calls(random, &mut model, count - before));
    (run.model.clone(), list_of(random, run.found.clone(), &bytes_of(&calls)))
}

/// A list on a random network, fresh or handed in, now and then a long one.
pub fn random_start(random: &mut Random) -> Result<(Model, List), String> {
    let map = random_map(random);
    let start = if random.one_in(3) { Run::handed_in } else { Run::fresh };
    let mut run = start(random, &map)?;
    if random.one_in(50) {
        return Ok(long_list(random, &run));
    }
    random_list(random, &mut run)
}

/// A list of these bytes, with any room.
pub fn list_of(random: &mut Random, lent: Lent, rest: &[u8]) -> List {
    List { lent, rest: Buffer::of(rest), answers: random_answers(random, rest) }
}
