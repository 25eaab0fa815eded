//! Single calls of layer 3 as compiled: refusals at the entry, document 01's known examples, the limits of its numbers.

use bench_tests::count::Met;
use bench_tests::model::{Call, Model, Reply};
use bench_tests::network_call::{Lent, BENCH, DOWN, ENDS, NUMBER};
use bench_tests::network_entry::{field_at, is_turned_down, needed};
use bench_tests::network_event::name;
use bench_tests::network_known::{known_run, triangle};
use bench_tests::network_numbers::{compare, expect, put_fresh};
use bench_tests::network_random::{damage, lend, map_of, random_call, random_map, widen, widened, OUT_OF_RANGE};
use bench_tests::network_run::Run;
use bench_tests::random::Random;
use bench_tests::verdict::{Verdict, DESTINATION, FORWARDS, HELD_TOO_GREAT, NOTHING_HELD, SENT_TOO_LOW};
use bench_tests::view::NONE;
use reference::forwarding::PathEnd;
use reference::map::Map;
use reference::records::Answer;

// ---- refusals at the entry

const KINDS: [Option<Call>; 12] = [
    None,
    Some(Call::Update(0, 0)),
    Some(Call::Cut(0, 0)),
    Some(Call::Restore(2, 2)),
    Some(Call::Send(0, 0)),
    Some(Call::Deliver(0)),
    Some(Call::Repeat(0)),
    Some(Call::Lose(0)),
    Some(Call::Port(0, 0)),
    Some(Call::Verdict(0, 0)),
    Some(Call::Report(0)),
    Some(Call::Path(0, 0)),
];

/// Makes the call on a copy, which must give this reply and these buffers. `None` is `fresh`.
fn expect_outcome(label: &str, lent: &Lent, call: Option<Call>, reply: u8, expected: &Lent) {
    let mut found = lent.clone();
    let found_reply = match call {
        None => found.fresh(),
        Some(call) => found.call(call),
    };
    assert_eq!(found_reply, reply, "{label}, {call:?}");
    if let Err(difference) = compare(expected, &found) {
        panic!("{label}, {call:?}: {difference}");
    }
}

/// The outcome must be a refusal with 17 that changes nothing.
fn expect_turned_down(label: &str, lent: &Lent, call: Option<Call>) {
    assert!(is_turned_down(lent, call), "{label}, {call:?}: the test itself does not expect 17");
    expect_outcome(label, lent, call, 17, lent);
}

/// `fresh` must be accepted, and leave what it leaves of this map.
fn expect_fresh(label: &str, lent: &Lent, map: &Map) {
    assert!(!is_turned_down(lent, None), "{label}: the test itself expects 17");
    let mut expected = lent.clone();
    put_fresh(map, &mut expected);
    expect_outcome(label, lent, None, 0, &expected);
}

/// The outcome must be that of the call on this network.
fn expect_taken(label: &str, lent: &Lent, call: Call, mut model: Model) {
    let mut expected = lent.clone();
    let reply = expect(&mut model, call, &mut expected).err().unwrap_or(0);
    expect_outcome(label, lent, Some(call), reply, &expected);
}

#[test]
fn short_buffers_are_refused() {
    let mut run = triangle();
    run.round(&mut Random::new(1)).expect("a round");
    run.call(Call::Send(0, 0)).expect("a send");
    for call in KINDS {
        for (which, length) in needed(call).into_iter().enumerate() {
            let (name, buffer) = run.found.buffers()[which];
            for short in [0, length / 2, length.saturating_sub(1)] {
                if short < length {
                    expect_turned_down(&format!("{name} of {short}"), &run.found.resized(which, short), call);
                }
            }
            assert!(length <= buffer.numbers().len());
        }
    }
}

/// Buffers exactly as long as needed, and none of what is not lent to the call.
#[test]
fn exact_buffers_are_enough() {
    for call in KINDS.into_iter().flatten() {
        let mut run = triangle();
        run.call(Call::Cut(2, 2)).expect("a cut");
        run.call(Call::Send(0, 0)).expect("a send");
        let mut exact = run.found.clone();
        for (which, length) in needed(Some(call)).into_iter().enumerate() {
            exact = exact.resized(which, length);
        }
        let outcome = expect(&mut run.model, call, &mut run.expected);
        assert_eq!(exact.call(call), outcome.err().unwrap_or(0), "{call:?}");
        for ((name, e), (_, f)) in run.expected.buffers().into_iter().zip(exact.buffers()) {
            assert_eq!(e.numbers()[..f.numbers().len()], *f.numbers(), "{call:?}: {name}");
            assert!(f.is_guarded(), "{call:?}: {name}");
        }
    }
}

/// A verdict of any bridge, or of one that the network lacks.
fn random_verdict(random: &mut Random, map: &Map) -> Call {
    let [bridge, dest] = [0; 2].map(|_: u8| random.below(map.bridge_count() + 1));
    Call::Verdict(bridge, dest)
}

/// One number is damaged: the call is refused, or it is not lent that number and does what it does without the damage.
#[test]
fn numbers_out_of_range_are_refused() {
    let (mut met, mut causes) = (Met::default(), Met::default());
    for case in 0..12_000 {
        let seed = 70_000_000 + case;
        let mut random = Random::new(seed);
        let map = random_map(&mut random);
        let run = Run::handed_in(&mut random, &map).expect("a network");
        let mut lent = run.expected.clone();
        let Some(cause) = damage(&mut random, &mut lent) else { continue };
        let call = match random.below(12) {
            0 => None,
            1 => Some(random_verdict(&mut random, &map)),
            _ => Some(random_call(&mut random, run.network())),
        };
        let (label, kind) = (format!("seed {seed}"), kind(call));
        let refused = is_turned_down(&lent, call);
        match call {
            _ if refused => expect_turned_down(&label, &lent, call),
            None => expect_fresh(&label, &lent, &map),
            Some(call) => expect_taken(&label, &lent, call, run.model),
        }
        met.note(format!("{kind} {}", if refused { "refused" } else { "unaffected" }));
        causes.note_times(cause, refused.into());
    }
    let refused = KINDS.map(|call| format!("{} refused", kind(call)));
    // deliver and repeat are lent every number that is damaged
    let others = KINDS.into_iter().filter(|call| !matches!(call, Some(Call::Deliver(_) | Call::Repeat(_))));
    let unaffected: Vec<String> = others.map(|call| format!("{} unaffected", kind(call))).collect();
    met.only("damaged", &[&refused[..], &unaffected].concat(), 10);
    met.at_least("damaged", &refused, 20);
    let too_great: Vec<String> = widened().into_iter().collect();
    causes.only("refused for", &[OUT_OF_RANGE.map(String::from).to_vec(), too_great].concat(), 50);
}

/// At every place of a bench, also past the counts, every call refuses a number that does not fit.
#[test]
fn numbers_that_do_not_fit_are_refused() {
    let mut met = Met::default();
    for seed in 120_000_000..120_000_020 {
        let mut random = Random::new(seed);
        let map = random_map(&mut random);
        let run = Run::handed_in(&mut random, &map).expect("a network");
        for place in 0..BENCH {
            let mut lent = run.found.clone();
            let Some(cause) = widen(&mut random, &mut lent, place) else { continue };
            for call in KINDS {
                expect_turned_down(&format!("seed {seed}, place {place}"), &lent, call);
                met.note(format!("{}, {cause}", kind(call)));
            }
        }
    }
    let all: Vec<String> =
        KINDS.iter().flat_map(|&call| widened().into_iter().map(move |cause| format!("{}, {cause}", kind(call)))).collect();
    met.only("too great", &all, 50);
}

/// Numbers that no bridge of the triangle has.
const LACKING: [usize; 8] = [3, 4, 16, 255, 256, 65_536, 1 << 32, usize::MAX];

/// A bridge or a destination that the network lacks gets 10, after 17. Nothing is written either way.
#[test]
fn lacking_bridges_come_after_17() {
    let mut run = after_rounds(triangle());
    run.make(Call::Send(0, 0));
    let (mut random, mut met) = (Random::new(140_000_000), Met::default());
    let pairs = LACKING.into_iter().flat_map(|x| [(x, 0), (0, x), (2, x), (x, x)]);
    for call in pairs.flat_map(|(bridge, dest)| [Call::Port(bridge, dest), Call::Verdict(bridge, dest)]) {
        run.refused(call, 10);
        for (which, length) in needed(Some(call)).into_iter().enumerate().filter(|(_, length)| *length > 0) {
            expect_turned_down("short", &run.found.resized(which, length - 1), Some(call));
        }
        for _ in 0..100 {
            let mut lent = run.found.clone();
            let Some(cause) = damage(&mut random, &mut lent) else { continue };
            let reply = if is_turned_down(&lent, Some(call)) { 17 } else { 10 };
            expect_outcome(&cause, &lent, Some(call), reply, &lent);
            met.note(format!("{} {reply}", name(call)));
        }
    }
    met.only("damaged", &["port 10", "port 17", "verdict 10", "verdict 17"], 500);
}

fn kind(call: Option<Call>) -> String {
    call.map_or("fresh".into(), name)
}

/// What of these buffers `fresh` reads: the counts but that of messages, the ends, the costs.
fn is_read_by_fresh(map: &Map, buffer: &str, place: usize) -> bool {
    match buffer {
        "bench" => place < 3 || (ENDS..ENDS + 2 * map.link_count()).contains(&place),
        "costs" => place / 32 < map.view_count() && place % 32 < map.link_count(),
        _ => false,
    }
}

/// `fresh` with one number damaged: refused where it reads the number or the number does not fit, and else as without the damage.
fn expect_fresh_damaged(label: &str, map: &Map, lent: &Lent, which: usize, place: usize) -> Vec<&'static str> {
    let (buffer, _) = lent.buffers()[which];
    let values = if buffer == "bench" { field_at(place).map(|(_, values)| values) } else { None };
    // the greatest that fits and the least that does not
    let limits = values.map_or(vec![], |values| vec![values - 1, values]);
    let outcome = |number: u32| {
        let mut damaged = lent.clone();
        damaged.buffer_mut(which).numbers_mut()[place] = number;
        let label = format!("{label}, {buffer}, place {place}, number {number}");
        let fits = values.map_or(true, |values| number < values);
        if fits && !is_read_by_fresh(map, buffer, place) {
            expect_fresh(&label, &damaged, map);
            return "not read";
        }
        expect_turned_down(&label, &damaged, None);
        if fits {
            "read"
        } else {
            "does not fit"
        }
    };
    limits.into_iter().chain([NONE]).map(outcome).collect()
}

#[test]
fn fresh_reads_counts_ends_and_costs() {
    let known = triangle();
    let lent = lend(&mut Random::new(90_000_000), known.map());
    let mut met = Met::default();
    for (which, (_, buffer)) in lent.buffers().into_iter().enumerate() {
        let outcomes = |place| expect_fresh_damaged("the triangle", known.map(), &lent, which, place);
        (0..buffer.numbers().len()).flat_map(outcomes).for_each(|outcome| met.note(outcome));
    }
    for seed in 90_000_001..90_000_200 {
        let mut random = Random::new(seed);
        let map = random_map(&mut random);
        let lent = lend(&mut random, &map);
        for (which, length) in needed(None).into_iter().enumerate().take(2) {
            for _ in 0..20 {
                let place = random.below(length);
                let outcomes = expect_fresh_damaged(&format!("seed {seed}"), &map, &lent, which, place);
                outcomes.into_iter().for_each(|outcome| met.note(outcome));
            }
        }
    }
    met.only("fresh", &["read", "not read", "does not fit"], 500);
}

// ---- known answers

/// What is named of the destination in each example.
const IS_DESTINATION: Verdict = (DESTINATION, None);

/// E2 to E8, as one list of calls.
#[test]
fn known_examples_e2_to_e8() {
    let mut run = triangle();
    assert_eq!(run.ports(0), [None, None, None], "E2");
    assert_eq!(run.named(0), [IS_DESTINATION, (NOTHING_HELD, Some(0)), (NOTHING_HELD, Some(1))], "E2");
    for _ in 0..2 {
        run.round(&mut Random::new(3)).expect("a round");
    }
    assert_eq!(run.ports(0), [None, Some(0), Some(1)], "E3");
    assert_eq!(run.named(0), [IS_DESTINATION, (FORWARDS, Some(0)), (FORWARDS, Some(1))], "E3");
    assert_eq!(run.make(Call::Path(2, 0)), Reply::Path(PathEnd { last: 0, hops: 2 }), "E3");
    // of number 1, and late
    run.make(Call::Send(1, 1));
    run.make(Call::Cut(0, 0));
    run.make(Call::Cut(1, 0));
    run.make(Call::Update(1, 1));
    assert_eq!(run.distance_and_port(1, 0), (4, None), "E4");
    // the view that bridge 1 still holds over link 1 offers NONE
    assert_eq!(run.named(0), [IS_DESTINATION, (HELD_TOO_GREAT, Some(1)), (FORWARDS, Some(1))], "E4");
    assert_eq!(run.make(Call::Path(2, 0)), Reply::Path(PathEnd { last: 1, hops: 1 }), "E4");
    run.make(Call::Update(2, 1));
    assert_eq!(run.distance_and_port(2, 0).1, Some(2), "E5");
    assert_eq!(run.named(0), [IS_DESTINATION, (HELD_TOO_GREAT, Some(1)), (FORWARDS, Some(2))], "E5");
    assert_eq!(run.tell(2, 1), (Answer::Agreed, 2, 1), "E6");
    assert_eq!(run.found.held.numbers()[16 * 2], 4, "E6");
    assert_eq!(run.found.sent.numbers()[16 * 2], 2, "E6");
    assert_eq!(run.distance_and_port(1, 0), (4, None), "E6");
    assert_eq!(run.named(0), [IS_DESTINATION, (SENT_TOO_LOW, Some(1)), (FORWARDS, Some(2))], "E6");
    assert_eq!(run.tell(1, 1), (Answer::Agreed, 2, 1), "E7");
    assert_eq!(run.tell(2, 1), (Answer::Agreed, 2, 1), "E7");
    assert_eq!(run.distance_and_port(1, 0), (4, Some(1)), "E7");
    assert_eq!(run.named(0), [IS_DESTINATION, (FORWARDS, Some(1)), (FORWARDS, Some(2))], "E7");
    let before = run.found.clone();
    assert!(matches!(run.make(Call::Repeat(0)), Reply::Answered(Answer::Stale, _)), "E8");
    assert_eq!(before.bench.numbers(), run.found.bench.numbers(), "E8");
    assert!(matches!(run.make(Call::Deliver(0)), Reply::Answered(Answer::Stale, _)), "E8");
}

/// E9 by calls: the greatest cost is accepted, one more is refused, with 17 since no plan is read here.
#[test]
fn known_example_e9() {
    let mut run = known_run([vec![16_777_215; 3], vec![0; 3]]);
    assert_eq!(run.distance_and_port(1, 0).0, 16_777_215);
    let mut lent = run.found.clone();
    lent.costs.numbers_mut()[2] = 16_777_216;
    expect_turned_down("a cost", &lent, None);
    expect_turned_down("a cost", &lent, Some(Call::Port(0, 1)));
}

#[test]
fn known_example_e10() {
    let mut run = triangle();
    for k in 0..64 {
        assert_eq!(run.make(Call::Send(k % 2, 0)), Reply::Done, "message {k}");
    }
    run.refused(Call::Send(0, 0), 14);
    run.refused(Call::Send(2, 1), 14);
    run.make(Call::Lose(17));
    run.make(Call::Send(0, 2));
    run.refused(Call::Send(0, 0), 14);
    run.make(Call::Deliver(63));
    run.make(Call::Send(0, 0));
    run.make(Call::Repeat(63));
    run.refused(Call::Send(0, 0), 14);
    run.refused(Call::Deliver(64), 15);
    run.refused(Call::Lose(64), 15);
}

/// The table's rows are read from the top down.
#[test]
fn the_first_refusal_counts() {
    let mut run = triangle();
    for _ in 0..64 {
        run.make(Call::Send(0, 0));
    }
    run.make(Call::Cut(1, 0));
    run.make(Call::Cut(1, 1));
    run.refused(Call::Send(3, 3), 10);
    run.refused(Call::Send(0, 1), 11);
    run.refused(Call::Send(1, 1), 13);
    run.refused(Call::Send(2, 1), 14);
    run.refused(Call::Send(2, 2), 14);
    run.refused(Call::Deliver(0), 13);
    run.refused(Call::Repeat(0), 13);
    run.refused(Call::Deliver(64), 15);
    for (call, so) in [(Call::Cut as fn(usize, usize) -> Call, 1), (Call::Restore, 0)] {
        for (bridge, link) in [(3, 0), (0, 3), (3, 3), (255, 0), (0, 255), (usize::MAX, 0), (0, usize::MAX)] {
            run.refused(call(bridge, link), 10);
        }
        run.refused(call(2, 0), 11);
        run.refused(call(0, 1), 11);
        run.refused(call(so, 0), 12);
    }
    run.make(Call::Lose(0));
}

/// Two rounds, so that each bridge forwards.
fn after_rounds(mut run: Run) -> Run {
    for _ in 0..2 {
        run.round(&mut Random::new(3)).expect("a round");
    }
    run
}

fn ends(last: usize, hops: usize) -> Reply {
    Reply::Path(PathEnd { last, hops })
}

/// A cut and a restore act on the end that they name, and no other number changes.
#[test]
fn a_cut_is_of_one_end() {
    let mut run = triangle();
    let mut bench = run.found.bench.numbers().to_vec();
    let flags = [(0, 0, 0), (1, 0, 1), (1, 1, 2), (2, 1, 3), (0, 2, 4), (2, 2, 5)];
    for (bridge, link, end) in flags {
        run.make(Call::Cut(bridge, link));
        run.refused(Call::Cut(bridge, link), 12);
        bench[DOWN + end] = 1;
        assert_eq!(run.found.bench.numbers(), bench, "cut of {bridge} at {link}");
    }
    for (bridge, link, end) in flags {
        run.make(Call::Restore(bridge, link));
        run.refused(Call::Restore(bridge, link), 12);
        bench[DOWN + end] = 0;
        assert_eq!(run.found.bench.numbers(), bench, "restore of {bridge} at {link}");
    }
}

/// The bridge that a frame would reach has its end down: the port stays open, and the frame dies.
#[test]
fn a_frame_dies_where_only_the_far_end_is_down() {
    let mut run = after_rounds(triangle());
    run.make(Call::Cut(0, 0));
    assert_eq!(run.ports(0), [None, Some(0), Some(1)]);
    assert_eq!(run.make(Call::Path(2, 0)), ends(1, 1));
    assert_eq!(run.make(Call::Path(1, 0)), ends(1, 0));
    // bridge 0's own end is down, and it uses no other link
    assert_eq!(run.ports(1), [None, None, Some(1)]);
    run.make(Call::Restore(0, 0));
    assert_eq!(run.make(Call::Path(2, 0)), ends(0, 2));
    run.make(Call::Cut(1, 0));
    assert_eq!(run.ports(0), [None, None, Some(1)]);
    assert_eq!(run.make(Call::Path(2, 0)), ends(1, 1));
    assert_eq!(run.make(Call::Path(1, 0)), ends(1, 0));
    assert_eq!(run.ports(1), [Some(0), None, Some(1)]);
    assert_eq!(run.make(Call::Path(0, 1)), ends(0, 0));
}

/// A send needs the sender's end, a delivery and a repeat the receiver's, and a loss neither.
#[test]
fn messages_need_one_end() {
    let mut run = after_rounds(triangle());
    run.make(Call::Send(0, 0));
    run.make(Call::Send(1, 0));
    run.make(Call::Cut(0, 0));
    run.refused(Call::Send(0, 0), 13);
    run.make(Call::Send(1, 0));
    // to bridge 0 over its own end, which is down
    for place in [1, 2] {
        run.refused(Call::Deliver(place), 13);
        run.refused(Call::Repeat(place), 13);
    }
    // to bridge 1, whose end is up
    run.make(Call::Repeat(0));
    run.make(Call::Deliver(0));
    run.make(Call::Lose(1));
    run.make(Call::Cut(1, 0));
    run.refused(Call::Send(1, 0), 13);
    run.make(Call::Restore(0, 0));
    run.make(Call::Deliver(0));
    run.make(Call::Send(0, 0));
    run.refused(Call::Deliver(0), 13);
    run.make(Call::Lose(0));
}

/// Bridge 1 goes to a view in which it is farther than its sent limit on link 1. That counts as long as its own end there is up.
#[test]
fn a_sent_limit_counts_by_the_own_end() {
    let mut run = after_rounds(known_run([vec![1, 1, 3], vec![5, 1, 0]]));
    run.make(Call::Update(0, 1));
    run.make(Call::Update(1, 1));
    assert_eq!(run.tell(0, 0), (Answer::Agreed, 2, 1));
    assert_eq!(run.found.sent.numbers()[16 * 2], 2);
    let calls =
        [(Call::Cut(2, 1), None), (Call::Cut(1, 1), Some(0)), (Call::Restore(2, 1), Some(0)), (Call::Restore(1, 1), None)];
    assert_eq!(run.distance_and_port(1, 0), (5, None));
    for (call, port) in calls {
        run.make(call);
        assert_eq!(run.distance_and_port(1, 0), (5, port), "{call:?}");
    }
}

/// Bridge 2 forwards to bridge 1 over a link that is down at bridge 1's end, and bridge 1 back over another link. So the ports close a
/// ring, but bridge 2's frame dies. Once bridge 1's end is up again, its sent limit there shuts its port.
#[test]
fn a_ring_of_ports_that_no_frame_goes_round() {
    let map = map_of(3, &[[0, 1], [0, 2], [1, 2], [1, 2]], &[vec![1, 9, 1, 0], vec![0, 5, 0, 1]]);
    let mut run = Run::fresh(&mut Random::new(7), &map).expect("a fresh network");
    run.make(Call::Update(2, 1));
    assert_eq!(run.tell(2, 3), (Answer::Noted, 2, 1));
    run.make(Call::Update(2, 0));
    run.tell(0, 0);
    run.tell(1, 2);
    assert_eq!(run.make(Call::Path(2, 0)), ends(0, 2));
    run.make(Call::Cut(1, 2));
    run.make(Call::Update(1, 1));
    assert_eq!(run.ports(0), [None, Some(3), Some(2)]);
    assert_eq!(run.make(Call::Path(2, 0)), ends(2, 0));
    assert_eq!(run.make(Call::Path(1, 0)), ends(2, 1));
    assert_eq!(run.survey(), Ok(()));
    run.make(Call::Restore(1, 2));
    assert_eq!(run.ports(0), [None, None, Some(2)]);
    assert_eq!(run.make(Call::Path(2, 0)), ends(1, 1));
}

/// 16 only where the view differs.
#[test]
fn numbers_end_at_65535() {
    let mut run = triangle();
    run.renumber(|lent| lent.bench.numbers_mut()[NUMBER + 1] = 65_534);
    run.make(Call::Update(1, 1));
    assert_eq!(run.found.bench.numbers()[NUMBER + 1], 65_535);
    run.make(Call::Update(1, 1));
    run.refused(Call::Update(1, 0), 16);
    run.refused(Call::Update(1, 2), 10);
    run.refused(Call::Update(3, 0), 10);
    run.make(Call::Update(1, 1));
    // an agreement of the last number still works
    assert_eq!(run.tell(1, 1), (Answer::Noted, 65_535, 1));
    run.make(Call::Update(2, 1));
    assert_eq!(run.tell(1, 1), (Answer::Agreed, 65_535, 1));
    assert_eq!(run.tell(2, 1), (Answer::Agreed, 2, 1));
}

// ---- the tests themselves

/// The comparison sees every single changed number.
#[test]
fn the_comparison_notices_damage() {
    let run = triangle();
    for which in 0..6 {
        for place in 0..run.found.buffers()[which].1.numbers().len() {
            let mut damaged = run.found.clone();
            damaged.buffer_mut(which).numbers_mut()[place] ^= 1;
            assert!(compare(&run.found, &damaged).is_err(), "buffer {which}, place {place}");
        }
    }
}
