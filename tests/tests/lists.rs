//! The list of calls of layer 3 as compiled, against the single calls of reference/, and in whole plans against what it prints.

#[path = "plans/make.rs"]
mod make;
#[path = "plans/spoil.rs"]
mod spoil;

use bench_tests::count::Met;
use bench_tests::guard::Buffer;
use bench_tests::list_call::{List, MOST_EVENTS};
use bench_tests::list_expected::{answer_size, compare_lists, run_both, Stop};
use bench_tests::list_random::{accepted_calls, bytes_of, list_of, random_start, refused_call};
use bench_tests::model::{Call, Model};
use bench_tests::network_call::Lent;
use bench_tests::network_event::{END_EVENTS, EVENTS};
use bench_tests::network_known::triangle;
use bench_tests::network_random::{map_of, random_map};
use bench_tests::network_run::Run;
use bench_tests::plan_bytes::{field, first_event, LONGEST};
use bench_tests::random::Random;
use bench_tests::view::NONE;
use reference::map::Map;

// ---- random lists

const LISTS: u64 = 1_500;

const STOPS: [Stop; 4] = [Stop::End, Stop::NoEvent, Stop::Room, Stop::Refused];

/// A list, and after each stop a list of what follows the event there, with other room.
fn one_list(random: &mut Random, met: &mut Met) -> Result<(), String> {
    let (mut model, mut list) = random_start(random)?;
    loop {
        let stop = run_both(&mut model, &mut list, met)?;
        let [_, used, _] = list.counts();
        let rest = &list.rest.numbers()[used..];
        let skipped = match stop {
            Stop::End | Stop::NoEvent => return Ok(()),
            Stop::Most | Stop::Room => 0,
            Stop::Refused => first_event(rest).expect("an event").1,
        };
        list = list_of(random, list.lent, &rest[skipped..]);
    }
}

// catches a list that goes on behind a refused event, or counts it; answers in other places; numbers written behind the last answer
#[test]
fn random_lists() {
    let mut met = Met::default();
    for seed in 130_000_000..130_000_000 + LISTS {
        one_list(&mut Random::new(seed), &mut met).unwrap_or_else(|difference| panic!("seed {seed}: {difference}"));
    }
    let [many, few, none] =
        ["after many events", "after few events", "at once"].map(|when| STOPS.map(|stop| format!("{stop:?} {when}")));
    let others = ["Most after many events", "the last event refused", "no room for a refused event"].map(String::from);
    // a list has no ports
    let without_ports = |events: &[&str]| {
        events.iter().filter(|event| !event.starts_with("port")).map(|event| event.to_string()).collect::<Vec<_>>()
    };
    let [events, at_ends] = [without_ports(&EVENTS), without_ports(&END_EVENTS)];
    met.only("lists", &[&events[..], &at_ends, &many, &few, &none, &others].concat(), 10);
    met.at_least("lists", &events, 40);
    met.at_least("lists", &[few, none].concat(), 100);
}

// ---- room for answers

/// How many numbers have been answered with after each of the events.
fn answered_after(calls: &[Call], bridges: usize) -> Vec<usize> {
    let mut answered = 0;
    let mut after = |call| {
        answered += answer_size(call, bridges);
        answered
    };
    calls.iter().map(|&call| after(call)).collect()
}

/// Accepted events, with a report and a path among them.
fn answering_calls(random: &mut Random, model: &mut Model) -> Vec<Call> {
    let bridges = model.network.map.bridge_count();
    let mut calls = accepted_calls(random, model, 8);
    for question in [Call::Report(random.below(bridges)), Call::Path(random.below(bridges), random.below(bridges))] {
        calls.insert(random.below(calls.len()), question);
    }
    calls
}

/// Every room from none to more than enough.
// catches a report that asks for the room of 16 bridges, an event made without room, and one left out though its answer just fits
#[test]
fn room_counts_to_the_number() {
    for seed in 171_000_000..171_000_060 {
        let random = &mut Random::new(seed);
        let map = random_map(random);
        let run = Run::handed_in(random, &map).expect("a network");
        let calls = answering_calls(random, &mut run.model.clone());
        let answered = answered_after(&calls, map.bridge_count());
        for room in 0..=answered[calls.len() - 1] + 1 {
            let (rest, answers) = (Buffer::of(&bytes_of(&calls)), Buffer::of(&random.numbers(room)));
            let mut list = List { lent: run.found.clone(), rest, answers };
            let stop = run_both(&mut run.model.clone(), &mut list, &mut Met::default())
                .unwrap_or_else(|difference| panic!("seed {seed}, room for {room}: {difference}"));
            let made = answered.iter().filter(|&&answered| answered <= room).count();
            assert_eq!(list.counts()[0], made, "seed {seed}, room for {room}");
            assert_eq!(stop, if made < calls.len() { Stop::Room } else { Stop::End }, "seed {seed}, room for {room}");
        }
    }
}

// ---- long lists

/// So many accepted events, and then bytes that a list stops before. It is run again for what it leaves.
fn expect_long(random: &mut Random, run: &Run, count: usize, stop: Stop) {
    let mut model = run.model.clone();
    let calls = accepted_calls(random, &mut model, count);
    let refused = bytes_of(&[refused_call(random, &model)]);
    let last = match stop {
        Stop::Refused => refused,
        Stop::NoEvent if random.one_in(2) => refused[..3].to_vec(),
        Stop::NoEvent => field(1, &[2]),
        _ => vec![],
    };
    let (mut model, rest) = (run.model.clone(), Buffer::of(&[bytes_of(&calls), last].concat()));
    let mut list = List { lent: run.found.clone(), rest, answers: Buffer::of(&random.numbers(32 * MOST_EVENTS)) };
    for left in (0..=count).rev().step_by(MOST_EVENTS) {
        let is_whole = left < MOST_EVENTS || left == MOST_EVENTS && stop == Stop::End;
        let found = run_both(&mut model, &mut list, &mut Met::default());
        assert_eq!(found, Ok(if is_whole { stop } else { Stop::Most }), "{left} of {count} events");
        let [made, used, _] = list.counts();
        assert_eq!(made, left.min(MOST_EVENTS), "{left} of {count} events");
        list.rest = Buffer::of(&list.rest.numbers()[used..]);
    }
}

/// As many events as are made at once, one less, one more, and more than a plan has.
// catches a list that makes 2,047 or 2,049 events at once, and one that is refused for an event past the 2,048th, or for its length
#[test]
fn most_events_at_once() {
    for seed in 172_000_000..172_000_003 {
        let random = &mut Random::new(seed);
        let map = random_map(random);
        let run = Run::fresh(random, &map).expect("a fresh network");
        let stops = [Stop::Refused, Stop::NoEvent, Stop::End];
        for count in [MOST_EVENTS - 1, MOST_EVENTS, MOST_EVENTS + 1] {
            stops.into_iter().for_each(|stop| expect_long(random, &run, count, stop));
        }
        let stop = random.pick(&stops);
        expect_long(random, &run, LONGEST / 4 + 1, stop);
    }
}

// ---- known answers

/// So many events are made and answer with these numbers. Nothing is made of the bytes behind them, for which this is the reply.
fn expect_answers(lent: &Lent, events: &[u8], count: usize, answers: &[u32], behind: &[u8], reply: u8) {
    let room = [answers, &[7; 9]].concat();
    let rest = Buffer::of(&[events, behind].concat());
    let mut list = List { lent: lent.clone(), rest, answers: Buffer::of(&vec![7; room.len()]) };
    assert_eq!(list.run(), reply, "{behind:?}");
    assert_eq!(list.counts(), [count, events.len(), answers.len()], "{behind:?}");
    assert_eq!(list.answers.back(), room, "{behind:?}");
}

/// The plan of document 01, and behind it no such link, no such bridge, an end that is up already, no message, a cut or a restore of one
/// byte, a field of the setup, an event cut short, or nothing.
// catches an error that the lists of src/list_expected.rs would share with the compiled ones
#[test]
fn known_plan() {
    let map = map_of(2, &[[0, 1]], &[vec![5]]);
    let run = Run::fresh(&mut Random::new(7), &map).expect("a fresh network");
    let events = [11, 0, 1, 0, 5, 0, 2, 0, 0, 6, 0, 1, 0, 11, 0, 1, 0];
    let answers = [0, NONE, 5, NONE, 1, 1, 0, 0, NONE, 5, 0];
    expect_answers(&run.found, &events, 4, &answers, &[], 0);
    let refused: [(&[u8], u8); 5] =
        [(&[9, 0, 2, 0, 1], 10), (&[9, 0, 2, 2, 0], 10), (&[10, 0, 2, 1, 0], 12), (&[7, 0, 1, 0], 15), (&[12, 0, 2, 1, 2], 10)];
    let unread: [(&[u8], u8); 3] = [(&[9, 0, 1, 0], 0), (&[10, 0, 1, 0], 0), (&[1, 0, 1, 2], 0)];
    for (first, reply) in refused.into_iter().chain(unread) {
        expect_answers(&run.found, &events, 4, &answers, &[first, &events].concat(), reply);
    }
    (1..4).for_each(|length| expect_answers(&run.found, &events, 4, &answers, &events[..length], 0));
}

/// A round of the triangle on view 0.
const ROUND: [(Call, &[u32]); 12] = [
    (Call::Send(0, 0), &[]),
    (Call::Send(1, 0), &[]),
    (Call::Send(1, 1), &[]),
    (Call::Send(2, 1), &[]),
    (Call::Send(0, 2), &[]),
    (Call::Send(2, 2), &[]),
    (Call::Deliver(0), &[1, 1, 0]),
    (Call::Deliver(0), &[1, 1, 0]),
    (Call::Deliver(0), &[1, 1, 0]),
    (Call::Deliver(0), &[1, 1, 0]),
    (Call::Deliver(0), &[1, 1, 0]),
    (Call::Deliver(0), &[1, 1, 0]),
];

/// E3 to E8 after two rounds, and a message that is noted.
const EXAMPLES: [(Call, &[u32]); 36] = [
    (Call::Report(0), &[0, NONE, 1, 0, 2, 1]),
    (Call::Path(2, 0), &[0, 0, 2]),
    (Call::Path(0, 0), &[0, 0, 0]),
    // of number 1, and late
    (Call::Send(1, 1), &[]),
    (Call::Cut(0, 0), &[]),
    // the frame dies
    (Call::Report(0), &[0, NONE, 1, 0, 2, 1]),
    (Call::Path(2, 0), &[1, 1, 1]),
    (Call::Cut(1, 0), &[]),
    (Call::Update(1, 1), &[]),
    (Call::Report(0), &[0, NONE, 4, NONE, 2, 1]),
    (Call::Path(2, 0), &[1, 1, 1]),
    (Call::Update(2, 1), &[]),
    (Call::Report(0), &[0, NONE, 4, NONE, 3, 2]),
    (Call::Path(1, 0), &[1, 1, 0]),
    (Call::Send(2, 1), &[]),
    (Call::Deliver(1), &[1, 2, 1]),
    (Call::Report(0), &[0, NONE, 4, NONE, 3, 2]),
    (Call::Send(1, 1), &[]),
    (Call::Deliver(1), &[1, 2, 1]),
    (Call::Send(2, 1), &[]),
    (Call::Deliver(1), &[1, 2, 1]),
    (Call::Report(0), &[0, NONE, 4, 1, 3, 2]),
    (Call::Path(1, 0), &[0, 0, 2]),
    (Call::Repeat(0), &[0, 0, 0]),
    (Call::Deliver(0), &[0, 0, 0]),
    // the receiver is on another view
    (Call::Send(0, 2), &[]),
    (Call::Repeat(0), &[2, 1, 0]),
    (Call::Lose(0), &[]),
    (Call::Restore(0, 0), &[]),
    (Call::Path(0, 1), &[1, 0, 0]),
    (Call::Report(1), &[1, 0, 0, NONE, 1, 1]),
    (Call::Restore(1, 0), &[]),
    (Call::Path(0, 1), &[0, 0, 1]),
    (Call::Report(2), &[2, 0, 1, 1, 0, NONE]),
    (Call::Path(0, 2), &[0, 0, 2]),
    (Call::Path(1, 2), &[0, 0, 1]),
];

// catches an answer in another form, as a stale one that tells its number and view, and one in another event's place
#[test]
fn known_examples_e2_to_e8() {
    let e2 = [(Call::Report(0), &[0, NONE, 1, NONE, 2, NONE][..])];
    let (calls, answers): (Vec<Call>, Vec<&[u32]>) = [&e2[..], &ROUND, &ROUND, &EXAMPLES].concat().into_iter().unzip();
    expect_answers(&triangle().found, &bytes_of(&calls), calls.len(), &answers.concat(), &[], 0);
}

// ---- whole plans

/// The map of a plan, and where its events begin. `None` where the setup is refused.
fn setup_of(plan: &[u8]) -> Option<(Map, usize)> {
    let mut map = Map::default();
    let [1, 0, 1, count, ..] = *plan else { return None };
    map.set_bridges(count).ok()?;
    let mut at = 4;
    while let [2, 0, 2, first, second, ..] = plan[at..] {
        map.add_link([first, second]).ok()?;
        at += 5;
    }
    let length = 4 * map.link_count();
    while let [3, high, low, ref value @ ..] = plan[at..] {
        if usize::from(u16::from_be_bytes([high, low])) != length {
            return None;
        }
        map.add_view(value.get(..length)?).ok()?;
        at += 3 + length;
    }
    (map.view_count() > 0).then_some((map, at))
}

/// A plan by lists of calls.
struct Printer<'a> {
    plan: &'a [u8],
    at: usize,
    events: usize,
    list: List,
    text: String,
}

impl Printer<'_> {
    fn line(&mut self, line: &str) {
        self.text += line;
        self.text += "\n";
    }

    /// As many events as have room for what they answer with in so many numbers.
    fn run(&mut self, room: usize) -> u8 {
        self.list.rest = Buffer::of(&self.plan[self.at..]);
        self.list.answers = Buffer::of(&vec![NONE; room]);
        let reply = self.list.run();
        let [made, used, answered] = self.list.counts();
        let [bridges, ..] = self.list.lent.counts();
        let (numbers, past) = (self.list.answers.back(), self.at + used);
        let mut numbers = &numbers[..answered];
        for _ in 0..made {
            let (call, length) = first_event(&self.plan[self.at..past]).expect("an event that was made");
            let (answer, others) = numbers.split_at(answer_size(call, bridges));
            self.print(call, answer);
            numbers = others;
            self.at += length;
        }
        assert_eq!((self.at, numbers.len()), (past, 0), "the bytes and the answers of the events that were made");
        self.events += made;
        reply
    }

    fn print(&mut self, call: Call, answer: &[u32]) {
        match (call, answer) {
            (Call::Report(dest), rows) => {
                self.line(&format!("dest {dest}"));
                let word = |number: u32| if number == NONE { "-".into() } else { number.to_string() };
                for (bridge, row) in rows.chunks_exact(2).enumerate() {
                    self.line(&format!("{bridge} {} {}", word(row[0]), word(row[1])));
                }
            }
            (Call::Path(start, dest), [0, 0, hops]) => self.line(&format!("path {start} {dest} delivered {hops}")),
            (Call::Path(start, dest), [1, last, hops]) => self.line(&format!("path {start} {dest} stops {last} {hops}")),
            (Call::Deliver(_) | Call::Repeat(_), [0, 0, 0] | [1 | 2, _, _]) | (_, []) => {}
            _ => panic!("{call:?}: {answer:?}"),
        }
    }
}

/// What is printed for a plan whose setup is not refused. The number of a field that cannot be read is left out: no list tells it.
fn by_lists(random: &mut Random, plan: &[u8]) -> Option<String> {
    let (map, at) = setup_of(plan)?;
    let lent = Run::fresh(random, &map).expect("a fresh network").found;
    let list = List { lent, rest: Buffer::of(&[]), answers: Buffer::of(&[]) };
    let mut printer = Printer { plan, at, events: 0, list, text: String::new() };
    let most = random.pick(&[1, 40, 1_000, 100_000]);
    let reply = loop {
        let before = printer.events;
        // room for any event
        let reply = printer.run(2 * map.bridge_count() + random.below(most));
        if reply != 0 || printer.events == before {
            break reply;
        }
    };
    let last = match reply {
        0 if printer.at == plan.len() => format!("end {}", printer.events),
        0 => format!("refused at {}", printer.at),
        number => format!("refused {number} at {}", printer.at),
    };
    printer.line(&last);
    Some(printer.text)
}

/// The same by reference/.
fn by_reference(plan: &[u8]) -> String {
    let text = String::from_utf8(reference::output(plan)).expect("a text");
    (1..10).fold(text, |text, number| text.replace(&format!("refused {number} at"), "refused at"))
}

/// What is counted of the texts: of every kind of plan, and of those with fields that cannot be read.
const WORDS: [&str; 5] = ["end ", "refused 1", "dest ", " delivered ", " stops "];
const NOT_READ: &str = "refused at ";

/// Both ways on random plans, but for most of the long ones, which would only take longer.
fn plans(label: &str, first_seed: u64, make: fn(&mut Random) -> Vec<u8>) -> Met {
    let mut met = Met::default();
    for seed in first_seed..first_seed + 1_000 {
        let mut random = Random::new(seed);
        let plan = make(&mut random);
        if plan.len() > if seed % 8 == 0 { LONGEST } else { 5_000 } {
            continue;
        }
        let Some(found) = by_lists(&mut random, &plan) else { continue };
        let expected = by_reference(&plan);
        assert_eq!(found, expected, "seed {seed}");
        WORDS.into_iter().chain([NOT_READ]).for_each(|word| met.note_times(word, expected.matches(word).count()));
    }
    println!("{label}: {met:?}");
    met.at_least(label, &WORDS, 30);
    met.at_least(label, &WORDS[2..], 200);
    met
}

// catches counts of a list that do not lead on to the next one, and a network that is not as the list left it
#[test]
fn sensible_plans() {
    plans("sensible", 160_000_000, make::sensible);
}

// catches a refused event that is told by another number, or as a field that cannot be read
#[test]
fn damaged_plans() {
    plans("damaged", 161_000_000, spoil::damaged).at_least("damaged", &[NOT_READ], 30);
}

// catches an event made of a field that cannot be read
#[test]
fn arbitrary_plans() {
    plans("arbitrary", 162_000_000, spoil::arbitrary).at_least("arbitrary", &[NOT_READ], 30);
}

/// Fields of every tag, the lengths that they say and the bytes that are there right or wrong, alone and before a report.
fn fields_right_and_wrong() -> Vec<Vec<u8>> {
    let mut all = Vec::new();
    for tag in (0..15).chain([255]) {
        for (high, low, there) in (0..64).map(|k| ([0, 1, 2, 255][k / 16], (k / 4 % 4) as u8, k % 4)) {
            for (value, past) in [(0, vec![]), (1, vec![]), (0, field(11, &[0]))] {
                all.push([&[tag, high, low][..], &vec![value; there], &past].concat());
            }
        }
    }
    all
}

/// Only whole events are made, each of which is accepted for one of the values.
// catches a length whose first byte is not looked at, a field of the setup taken for an event, and a value read past the bytes
#[test]
fn fields_of_every_tag() {
    let setup = [field(1, &[3]), field(2, &[0, 1]), field(2, &[1, 2]), field(3, &[0, 0, 0, 1, 0, 0, 0, 1])];
    let events = [field(5, &[0, 0]), field(5, &[1, 1]), field(9, &[1, 1])];
    let start = [setup.concat(), events.concat()].concat();
    let (map, at) = setup_of(&start).expect("a setup");
    let random = &mut Random::new(170_000_000);
    let Run { mut model, found, .. } = Run::fresh(random, &map).expect("a fresh network");
    let mut list = List { lent: found, rest: Buffer::of(&start[at..]), answers: Buffer::of(&random.numbers(20)) };
    assert_eq!(run_both(&mut model, &mut list, &mut Met::default()), Ok(Stop::End));
    let mut met = Met::default();
    for bytes in fields_right_and_wrong() {
        let mut list = List { rest: Buffer::of(&bytes), ..list.clone() };
        run_both(&mut model.clone(), &mut list, &mut met).unwrap_or_else(|difference| panic!("{bytes:?}: {difference}"));
        let plan = [&start[..], &bytes].concat();
        assert_eq!(by_lists(random, &plan), Some(by_reference(&plan)), "{bytes:?}");
    }
    let made = ["update", "send", "lose", "cut", "restore"].map(|event| format!("{event} done"));
    met.at_least("fields", &made, 1);
    met.at_least("fields", &["deliver agreed", "repeat agreed", "path delivered at once", "report without ports"], 1);
    met.at_least("fields", &["NoEvent at once"], 1_000);
}

// ---- the tests themselves

/// The comparison sees every single changed number of the bytes and of the answers.
// catches a comparison that leaves out one of them
#[test]
fn the_comparison_notices_damage() {
    let random = &mut Random::new(175_000_000);
    let (lent, rest) = (triangle().found, Buffer::of(&[11, 0, 1, 0]));
    let list = List { lent, rest, answers: Buffer::of(&random.numbers(8)) };
    assert_eq!(compare_lists(&list, &list.clone()), Ok(()));
    for place in 0..8 {
        let mut damaged = list.clone();
        damaged.answers.numbers_mut()[place] ^= 1;
        assert!(compare_lists(&list, &damaged).is_err(), "answers, place {place}");
    }
    for place in 0..4 {
        let mut damaged = list.clone();
        damaged.rest.numbers_mut()[place] ^= 1;
        assert!(compare_lists(&list, &damaged).is_err(), "rest, place {place}");
    }
}
