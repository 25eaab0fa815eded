//! Lists of calls of layer 3 as compiled of which nothing is made: refused at the entry, or with their first event, or without an event.

use bench_tests::count::Met;
use bench_tests::guard::Buffer;
use bench_tests::list_call::List;
use bench_tests::list_expected::{answer_size, compare_lists, list_needs, run_both, turned_down, unmade};
use bench_tests::list_random::{accepted_calls, bytes_of, list_of, random_start, refused_call};
use bench_tests::model::{Call, Model};
use bench_tests::network_call::Lent;
use bench_tests::network_event::{end_of, events, END_EVENTS, EVENTS};
use bench_tests::network_random::{damage, random_call, random_map, widened, OUT_OF_RANGE};
use bench_tests::network_run::Run;
use bench_tests::plan_bytes::{event_field, field};
use bench_tests::random::Random;
use reference::network::MOST_IN_FLIGHT;
use std::collections::BTreeMap;

/// The list must give this reply, and leave these buffers.
fn expect_outcome(label: &str, list: &List, reply: u8, expected: &List) {
    let mut found = list.clone();
    assert_eq!(found.run(), reply, "{label}");
    compare_lists(expected, &found).unwrap_or_else(|difference| panic!("{label}: {difference}"));
}

/// As many messages in flight as may be, where there is one.
fn fill_flight(lent: &mut Lent) {
    let [.., count] = lent.counts();
    if count > 0 {
        (count..MOST_IN_FLIGHT).for_each(|place| lent.messages.numbers_mut().copy_within(..5, 5 * place));
        lent.bench.numbers_mut()[3] = MOST_IN_FLIGHT as u32;
    }
}

/// A network that no fresh one leads to, in buffers with unlike numbers, at times with all the messages that may be in flight.
fn handed_in(random: &mut Random) -> Run {
    let map = random_map(random);
    let mut run = Run::handed_in(random, &map).expect("a network");
    if random.one_in(3) {
        run.renumber(fill_flight);
    }
    run
}

// ---- at the entry

fn expect_turned_down(label: &str, list: &List) {
    let Some(expected) = turned_down(list) else { panic!("{label}: the test itself does not expect 17") };
    expect_outcome(label, list, 17, &expected);
}

/// The list must be made as reference/ makes it.
fn expect_made(label: &str, mut model: Model, mut list: List) {
    assert!(turned_down(&list).is_none(), "{label}: the test itself expects 17");
    run_both(&mut model, &mut list, &mut Met::default()).unwrap_or_else(|difference| panic!("{label}: {difference}"));
}

/// Bytes of every kind: none, no event, a refused event, questions, accepted events.
fn rests(random: &mut Random, model: &Model) -> [Vec<u8>; 5] {
    let count = 1 + random.below(5);
    let accepted = accepted_calls(random, &mut model.clone(), count);
    let questions = [Call::Report(0), Call::Path(0, 1)];
    [vec![], field(3, &[0; 4]), bytes_of(&[refused_call(random, model)]), bytes_of(&questions), bytes_of(&accepted)]
}

/// Every buffer too short, and every buffer just long enough.
// catches counts written though they have no room, or no bench is there; 17 for short answers; a number more asked for than is needed
#[test]
fn short_buffers_are_refused() {
    for seed in 140_000_000..140_000_100 {
        let random = &mut Random::new(seed);
        let (model, list) = random_start(random).expect("a list");
        let rests = rests(random, &model);
        let mut exact = list.clone();
        for (which, length) in list_needs().into_iter().enumerate() {
            let with = |length: usize, rest: &Buffer<u8>| List {
                lent: list.lent.resized(which, length),
                rest: rest.clone(),
                answers: list.answers.clone(),
            };
            let label = format!("seed {seed}, {}", list.lent.buffers()[which].0);
            for short in [0, length / 2, length - 1] {
                let label = format!("{label} of {short}");
                expect_turned_down(&label, &with(short, &list.rest));
                rests.iter().for_each(|rest| expect_turned_down(&label, &with(short, &Buffer::of(rest))));
            }
            expect_made(&format!("{label} of {length}"), model.clone(), with(length, &list.rest));
            exact.lent = exact.lent.resized(which, length);
        }
        expect_made(&format!("seed {seed}, exact buffers"), model, exact);
    }
}

/// One number is damaged, every one of which a list reads, whatever its events.
// catches a network that is read only where an event asks for it; an event refused first; counts kept, or written without a bench
#[test]
fn numbers_out_of_range_are_refused() {
    let mut causes = Met::default();
    for seed in 150_000_000..150_003_000 {
        let random = &mut Random::new(seed);
        let map = random_map(random);
        let run = Run::handed_in(random, &map).expect("a network");
        let mut lent = run.found;
        let Some(cause) = damage(random, &mut lent) else { continue };
        for rest in rests(random, &run.model) {
            let list = list_of(random, lent.clone(), &rest);
            expect_turned_down(&format!("seed {seed}, {cause}, {rest:?}"), &list);
        }
        causes.note(cause);
    }
    let too_great: Vec<String> = widened().into_iter().collect();
    causes.at_least("refused for", &too_great, 20);
    causes.at_least("refused for", &OUT_OF_RANGE, 50);
}

// ---- with the first event

/// Refused events of the kinds that the network has, each with its number.
fn refused_calls(random: &mut Random, model: &Model) -> BTreeMap<String, (Call, u8)> {
    let mut found = BTreeMap::new();
    for _ in 0..200 {
        let call = random_call(random, &model.network);
        let outcome = model.clone().call(call).map_err(|refusal| refusal.number());
        if let (Some(_), Err(number)) = (event_field(call), &outcome) {
            let kinds = events(&model.network, call, end_of(&model.network, call), &outcome);
            found.extend(kinds.into_iter().map(|kind| (kind, (call, *number))));
        }
    }
    found
}

/// The list must give this reply, and change nothing but the counts.
fn expect_unmade(label: &str, lent: &Lent, rest: &[u8], answers: &[u32], reply: u8) {
    let list = List { lent: lent.clone(), rest: Buffer::of(rest), answers: Buffer::of(answers) };
    expect_outcome(&format!("{label}, room for {}", answers.len()), &list, reply, &unmade(&list));
}

/// A refused event alone and before others, its room just enough, more, and less: then it is not read.
// catches a bench stored, or any buffer written, though the first event is refused; a later event made; a number for what is not read
#[test]
fn the_first_event_is_refused() {
    let mut met = Met::default();
    for seed in 173_000_000..173_000_300 {
        let random = &mut Random::new(seed);
        let run = handed_in(random);
        let others = bytes_of(&accepted_calls(random, &mut run.model.clone(), 3));
        for (kind, (call, number)) in refused_calls(random, &run.model) {
            let (label, rest) = (format!("seed {seed}, {call:?}"), bytes_of(&[call]));
            let size = answer_size(call, run.map().bridge_count());
            let answers = random.numbers(size + 200);
            for room in [size, size + 200] {
                expect_unmade(&label, &run.found, &rest, &answers[..room], number);
                expect_unmade(&label, &run.found, &[&rest[..], &others].concat(), &answers[..room], number);
            }
            if size > 0 {
                expect_unmade(&label, &run.found, &[&rest[..], &others].concat(), &answers[1..size], 0);
            }
            met.note(kind);
        }
    }
    let is_refused = |event: &&str| event.contains(|digit: char| digit.is_ascii_digit()) && !event.starts_with("port");
    met.only("first", &EVENTS.into_iter().chain(END_EVENTS).filter(is_refused).collect::<Vec<_>>(), 20);
}

// ---- without an event

/// The first event cut short in every place, none at all, a field that is none, and one without room for its answer.
// catches a bench stored though nothing is made, a value read past the bytes, and the number of a field that cannot be read as the reply
#[test]
fn without_an_event_nothing_is_made() {
    for seed in 174_000_000..174_000_200 {
        let random = &mut Random::new(seed);
        let run = handed_in(random);
        let label = format!("seed {seed}");
        let calls = accepted_calls(random, &mut run.model.clone(), 5);
        let (events, answers) = (bytes_of(&calls), random.numbers(100));
        for length in 0..bytes_of(&calls[..1]).len() {
            expect_unmade(&format!("{label}, {length} bytes"), &run.found, &events[..length], &answers, 0);
        }
        for (tag, length) in [(0, 1), (1, 1), (2, 2), (3, 4 * run.map().link_count()), (13, 1), (255, 2)] {
            let rest = [field(tag, &vec![1; length]), events.clone()].concat();
            expect_unmade(&format!("{label}, tag {tag}"), &run.found, &rest, &answers, 0);
        }
        let bridges = run.map().bridge_count();
        for question in [Call::Report(random.below(bridges)), Call::Path(0, random.below(bridges))] {
            let rest = [bytes_of(&[question]), events.clone()].concat();
            let size = answer_size(question, bridges);
            for room in [0, size / 2, size - 1] {
                expect_unmade(&format!("{label}, {question:?}"), &run.found, &rest, &answers[..room], 0);
            }
        }
    }
}
