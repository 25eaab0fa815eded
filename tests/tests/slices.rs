//! The calls on messages as a slice of structs, as compiled, against the same calls over numbers: the same lists of calls through both,
//! on buffers of their own, compared after each call.

use bench_tests::count::Met;
use bench_tests::model::Call;
use bench_tests::network_call::{Lent, MESSAGES};
use bench_tests::network_entry::{is_turned_down, needed};
use bench_tests::network_event::{name, END_EVENTS};
use bench_tests::network_numbers::{compare, is_question};
use bench_tests::network_random::{damage, map_of, random_call, random_map, widened};
use bench_tests::network_run::Run;
use bench_tests::random::Random;
use bench_tests::view::NONE;
use reference::map::Map;

const LISTS: u64 = 400;
const CALLS: usize = 250;

/// The place of the messages in `Lent::buffers`.
const MESSAGES_AT: usize = 4;

/// One network twice, for the calls over numbers and for those over structs.
struct Both {
    numbers: Lent,
    slices: Lent,
    met: Met,
}

impl Both {
    fn of(lent: &Lent) -> Both {
        Both { numbers: lent.clone(), slices: lent.clone(), met: Met::default() }
    }

    /// Makes a call both ways. An error says where they differ.
    fn make(&mut self, call: Call) -> Result<u8, String> {
        let reply = self.numbers.call(call);
        let found = self.slices.slice_call(call);
        if found != reply {
            return Err(format!("{call:?}: reply {found} in place of {reply}"));
        }
        compare(&self.numbers, &self.slices).map_err(|difference| format!("{call:?}: {difference}"))?;
        self.met.note(format!("{} {reply}", name(call)));
        if reply == 0 && matches!(call, Call::Deliver(_) | Call::Repeat(_)) {
            self.met.note(format!("{} answers {}", name(call), self.slices.out.numbers()[0]));
        }
        Ok(reply)
    }

    /// A call on copies with one number damaged. What the call does not read it must not see.
    fn make_damaged(&mut self, random: &mut Random) -> Result<(), String> {
        let mut lent = self.slices.clone();
        let Some(cause) = damage(random, &mut lent) else { return Ok(()) };
        let place = random.below(64);
        let call = [Call::Send(0, 0), Call::Lose(place), Call::Deliver(place), Call::Repeat(place)][random.below(4)];
        let mut damaged = Both::of(&lent);
        let reply = damaged.make(call)?;
        if (reply == 17) != is_turned_down(&lent, Some(call)) {
            return Err(format!("{call:?}: reply {reply} to damaged numbers"));
        }
        if reply == 17 {
            compare(&lent, &damaged.slices).map_err(|difference| format!("{call:?} with 17: {difference}"))?;
            self.met.note(format!("{} 17", name(call)));
            self.met.note(format!("17 for {cause}"));
        }
        Ok(())
    }
}

/// A list of calls as a network takes them, so that most are accepted. Reports, ports and paths have one form.
fn random_list(random: &mut Random, run: &mut Run) -> Result<Vec<Call>, String> {
    while run.events() < CALLS {
        match random.below(80) {
            0 => run.flood(random)?,
            1 => run.round(random)?,
            2 => run.move_to_one_view(random)?,
            3..=6 => run.agree(random)?,
            7..=9 => run.overtake(random)?,
            10..=13 => run.pull(random)?,
            // mostly over a link that the bridge is not at
            14 => {
                let map = run.map();
                let (bridge, link) = (random.below(map.bridge_count()), random.below(map.link_count().max(1)));
                run.call(Call::Send(bridge, link))?;
            }
            _ => {
                let call = random_call(random, run.network());
                run.call(call)?;
            }
        }
    }
    Ok(run.trail.iter().copied().filter(|&call| !is_question(call)).collect())
}

/// One list, from a fresh network, or from one that no fresh network leads to: how many calls, and what happened.
fn one_list(seed: u64, map: &Map, random: &mut Random) -> Result<(usize, Met), String> {
    let start = if seed % 4 == 3 { Run::handed_in } else { Run::fresh };
    let mut run = start(random, map)?;
    let mut both = Both::of(&run.found);
    let past = run.found.messages.numbers()[MESSAGES..].to_vec();
    both.met.note(if past.is_empty() { "exact messages" } else { "longer messages" });
    let list = random_list(random, &mut run)?;
    // of the same calls, as the list was made
    END_EVENTS.into_iter().for_each(|event| both.met.note_times(event, run.met.times(event)));
    for (k, &call) in list.iter().enumerate() {
        let at = |difference: String| format!("call {k}: {difference}");
        both.make(call).map_err(at)?;
        if random.one_in(8) {
            both.make_damaged(random).map_err(at)?;
        }
    }
    if both.slices.bench.numbers() != run.found.bench.numbers() {
        return Err("the list ends in another bench than when it was made".into());
    }
    if both.slices.messages.numbers()[MESSAGES..] != past {
        return Err("a write past the messages".into());
    }
    Ok((list.len(), both.met))
}

/// The replies of each call, each of which must occur; and the answers: stale, agreed, noted.
const REPLIES: [(&str, &[u8]); 4] =
    [("send", &[0, 10, 11, 13, 14, 17]), ("lose", &[0, 15, 17]), ("deliver", &[0, 13, 15, 17]), ("repeat", &[0, 13, 15, 17])];
const ANSWERS: [u8; 3] = [0, 1, 2];

#[test]
fn both_forms_do_the_same() {
    let (mut calls, mut met) = (0, Met::default());
    for seed in 110_000_000..110_000_000 + LISTS {
        let mut random = Random::new(seed);
        let map = random_map(&mut random);
        let (length, events) =
            one_list(seed, &map, &mut random).unwrap_or_else(|difference| panic!("seed {seed}, {difference}\n{map:?}"));
        calls += length;
        met.add(&events);
    }
    met.at_least("lists", &["exact messages", "longer messages"], 100);
    let too_great: Vec<String> = widened().into_iter().map(|cause| format!("17 for {cause}")).collect();
    met.at_least("damaged", &too_great, 50);
    println!("{:?}", too_great.iter().map(|cause| (cause, met.times(cause))).collect::<Vec<_>>());
    // update, cut and restore have one form
    let has_forms = |event: &str| REPLIES.iter().any(|(call, _)| event.starts_with(call));
    met.0.retain(|event, _| has_forms(event));
    let at_ends = END_EVENTS.into_iter().filter(|event| has_forms(event)).map(String::from);
    let replies = REPLIES.iter().flat_map(|(call, replies)| replies.iter().map(move |reply| format!("{call} {reply}")));
    let answers = ["deliver", "repeat"].into_iter().flat_map(|call| ANSWERS.map(|answer| format!("{call} answers {answer}")));
    let [frequent, at_ends] = [replies.chain(answers).collect::<Vec<_>>(), at_ends.collect()];
    met.only(&format!("{LISTS} lists, {calls} calls"), &[&frequent[..], &at_ends].concat(), 100);
    met.at_least("lists", &frequent, 200);
}

fn expect_refused(label: &str, lent: &Lent, call: Call) {
    let mut found = lent.clone();
    assert_eq!(found.slice_call(call), 17, "{label}, {call:?}");
    compare(lent, &found).unwrap_or_else(|difference| panic!("{label}, {call:?}: {difference}"));
}

/// Two bridges and a link, with so many messages in flight, in 320 numbers.
fn in_flight(count: usize) -> Lent {
    let map = map_of(2, &[[0, 1]], &[vec![1]]);
    let mut run = Run::fresh(&mut Random::new(5), &map).expect("a fresh network");
    for k in 0..count {
        run.make(Call::Send(k % 2, 0));
    }
    run.found.resized(MESSAGES_AT, MESSAGES)
}

#[test]
fn short_buffers_are_refused() {
    let whole = in_flight(1);
    for call in [Call::Send(1, 0), Call::Lose(0), Call::Deliver(0), Call::Repeat(0)] {
        assert_eq!(whole.clone().slice_call(call), 0, "{call:?}");
        for (which, length) in needed(Some(call)).into_iter().enumerate().filter(|(_, length)| *length > 0) {
            let (buffer, _) = whole.buffers()[which];
            for short in [0, 5, length - 1].into_iter().filter(|&short| short < length) {
                expect_refused(&format!("{buffer} of {short}"), &whole.resized(which, short), call);
            }
        }
    }
}

/// With these numbers past the 320 of the messages.
fn followed_by(lent: &Lent, past: &[u32]) -> Lent {
    let mut longer = lent.resized(MESSAGES_AT, MESSAGES + past.len());
    longer.messages.numbers_mut()[MESSAGES..].copy_from_slice(past);
    longer
}

/// What lies past the 320 numbers of the messages is neither read nor written: a further message, or no message.
#[test]
fn longer_messages_are_taken() {
    let pasts: [&[u32]; 4] = [&[0], &[NONE], &[0, 1, 0, 1, 0], &[NONE; 5]];
    let mut met = Met::default();
    for (count, place) in [(0, 0), (1, 0), (1, 1), (63, 62), (64, 0), (64, 63), (64, 64)] {
        let whole = in_flight(count);
        for call in [Call::Send(1, 0), Call::Lose(place), Call::Deliver(place), Call::Repeat(place)] {
            let mut exact = whole.clone();
            let reply = exact.slice_call(call);
            met.note(format!("{} {reply}", name(call)));
            for past in pasts {
                let label = format!("{count} in flight, {call:?}, then {past:?}");
                let mut longer = followed_by(&whole, past);
                assert_eq!(longer.slice_call(call), reply, "{label}");
                compare(&followed_by(&exact, past), &longer).unwrap_or_else(|difference| panic!("{label}: {difference}"));
            }
        }
    }
    let replies = ["send 0", "send 14", "lose 0", "lose 15", "deliver 0", "deliver 15", "repeat 0", "repeat 15"];
    met.only("longer messages", &replies, 3);
}
