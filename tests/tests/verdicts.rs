//! Which condition holds a port shut (Change 2 of document 02), by the compiled calls of layer 3: in lists from fresh networks after each
//! event, in networks worked out by hand, and which wrong rules show. What to do about it is in advice.rs; networks handed in are in
//! handed_in.rs, layer 2 in agreement.rs.

use bench_tests::count::Met;
use bench_tests::flaw::{Flaw, OF_CHOICES, OF_VERDICTS};
use bench_tests::model::Call;
use bench_tests::network_known::triangle;
use bench_tests::network_random::{map_of, random_map};
use bench_tests::network_run::{pairs_of, Run};
use bench_tests::random::Random;
use bench_tests::verdict::{
    Verdict, DESTINATION, FORWARDS, HELD_TOO_GREAT, NOTHING_HELD, NO_PATH, OWN_END_DOWN, SENT_TOO_LOW, VERDICTS, VERDICT_FEATURES,
};
use bench_tests::verdict_lists::{in_list, random_list, LISTS};
use std::ops::Range;

// ---- lists from fresh networks

/// Every verdict at the start and after each event.
fn one_list(random: &mut Random) -> Result<Met, String> {
    let (mut run, events) = random_list(random)?;
    run.verdicts()?;
    for event in events {
        run.call(event)?;
        run.verdicts()?;
    }
    Ok(run.met)
}

#[test]
fn verdicts_after_each_event() {
    let mut met = Met::default();
    for seed in 210_000_000..210_000_000 + LISTS {
        met.add(&one_list(&mut Random::new(seed)).unwrap_or_else(|difference| panic!("seed {seed}: {difference}")));
    }
    met.0.retain(|event, _| event.starts_with("verdict"));
    met.only("after each event", &[&VERDICTS[..], &VERDICT_FEATURES].concat(), 250);
    met.at_least("after each event", &VERDICTS, 5_000);
}

// ---- known answers

/// What is named of bridge 1 for destination 0.
fn named(run: &mut Run) -> Verdict {
    run.named(0)[1]
}

/// Bridge 1 is at bridge 0 by link 1, and at bridges 2 and 3 by links 0 and 2. In view 0 its distance is 1, and it offers 3 and 4 to them;
/// in view 1 its distance is this.
fn star(distance: u32) -> Run {
    let map = map_of(4, &[[2, 1], [1, 0], [1, 3]], &[vec![2, 1, 3], vec![2, distance, 3]]);
    Run::fresh(&mut Random::new(7), &map).expect("a fresh network")
}

/// The same after bridge 1 has heard from bridge 0 and gone to view 1.
fn moved_star(distance: u32) -> Run {
    let mut run = star(distance);
    run.tell(0, 1);
    assert_eq!(named(&mut run), (FORWARDS, Some(1)));
    run.make(Call::Update(1, 1));
    run
}

/// Bridge 1 holds the view in which link 0 costs 5, and goes to another, in which it costs this.
fn moved_pair(cost: u32) -> Run {
    let map = map_of(2, &[[0, 1]], &[vec![5], vec![cost]]);
    let mut run = Run::fresh(&mut Random::new(7), &map).expect("a fresh network");
    run.tell(0, 0);
    run.make(Call::Update(1, 1));
    run
}

/// Links 0 and 2 have sent limits of 3 and 4 below the distance, and the chosen link 1 has none.
#[test]
fn the_lowest_link_up_at_this_end_is_blamed() {
    let mut run = moved_star(6);
    assert_eq!(named(&mut run), (SENT_TOO_LOW, Some(0)));
    let calls = [
        (Call::Cut(2, 0), (SENT_TOO_LOW, Some(0))),
        (Call::Cut(1, 0), (SENT_TOO_LOW, Some(2))),
        (Call::Cut(3, 2), (SENT_TOO_LOW, Some(2))),
        (Call::Cut(1, 2), (FORWARDS, Some(1))),
        (Call::Restore(1, 0), (SENT_TOO_LOW, Some(0))),
        (Call::Cut(1, 1), (OWN_END_DOWN, Some(1))),
        (Call::Restore(1, 1), (SENT_TOO_LOW, Some(0))),
    ];
    for (call, verdict) in calls {
        run.make(call);
        assert_eq!(named(&mut run), verdict, "{call:?}");
    }
}

/// A sent limit at the distance bars, one above it does not; a held limit at the distance serves, one above it does not.
#[test]
fn limits_at_the_distance() {
    for (distance, verdict) in [(2, (FORWARDS, Some(1))), (3, (SENT_TOO_LOW, Some(0))), (4, (SENT_TOO_LOW, Some(0)))] {
        assert_eq!(named(&mut moved_star(distance)), verdict, "distance {distance}");
    }
    for (cost, case) in [(4, HELD_TOO_GREAT), (5, FORWARDS), (6, FORWARDS)] {
        assert_eq!(named(&mut moved_pair(cost)), (case, Some(0)), "cost {cost}");
    }
}

/// Of conditions that apply at once the first is named.
#[test]
fn the_first_condition_is_named() {
    // nothing is held, and a sent limit is too low
    let mut run = star(6);
    run.make(Call::Update(1, 1));
    assert_eq!(named(&mut run), (NOTHING_HELD, Some(1)));
    run.make(Call::Cut(0, 1));
    assert_eq!(named(&mut run), (NOTHING_HELD, Some(1)));
    run.make(Call::Cut(1, 1));
    assert_eq!(named(&mut run), (OWN_END_DOWN, Some(1)));
    // a held limit is too great
    let mut run = moved_pair(4);
    run.make(Call::Cut(1, 0));
    assert_eq!(run.named(0), [(DESTINATION, None), (OWN_END_DOWN, Some(0))]);
    assert_eq!(run.named(1), [(NOTHING_HELD, Some(0)), (DESTINATION, None)]);
    // the link is absent, and down too
    let mut run = moved_pair(0);
    assert_eq!(named(&mut run), (NO_PATH, None));
    run.make(Call::Cut(1, 0));
    assert_eq!(run.named(0), [(DESTINATION, None), (NO_PATH, None)]);
}

/// Both held limits are NONE: what is not held, and a held view that offers nothing.
#[test]
fn a_held_view_that_offers_none() {
    let map = map_of(2, &[[0, 1], [0, 1]], &[vec![0, 5], vec![5, 5]]);
    let mut run = Run::fresh(&mut Random::new(7), &map).expect("a fresh network");
    let mut other = run.copy();
    run.tell(0, 0);
    run.make(Call::Update(1, 1));
    other.make(Call::Update(1, 1));
    assert_eq!([named(&mut run), named(&mut other)], [(HELD_TOO_GREAT, Some(0)), (NOTHING_HELD, Some(0))]);
    assert_eq!([&run, &other].map(|run| run.found.held.numbers()[16]), [u32::MAX; 2]);
}

// ---- the tests themselves

/// Does some verdict show the flaw.
fn shows(run: &Run, flaw: Flaw) -> bool {
    let mut run = run.copy();
    run.model.flaw = Some(flaw);
    pairs_of(run.map().bridge_count()).any(|(bridge, dest)| run.call(Call::Verdict(bridge, dest)).is_err())
}

fn handed_in(random: &mut Random) -> Result<Vec<Run>, String> {
    let map = random_map(random);
    Ok(vec![Run::handed_in(random, &map)?])
}

/// For each flaw, how often verdicts alone show it in one of the networks of a seed.
fn expect_noticed(label: &str, seeds: Range<u64>, least: usize, networks: fn(&mut Random) -> Result<Vec<Run>, String>) {
    let flaws = OF_VERDICTS.into_iter().chain(OF_CHOICES);
    let mut met = Met::default();
    for seed in seeds {
        let runs = networks(&mut Random::new(seed)).unwrap_or_else(|difference| panic!("seed {seed}: {difference}"));
        for flaw in flaws.clone() {
            met.note_times(format!("{flaw:?}"), runs.iter().any(|run| shows(run, flaw)).into());
        }
    }
    met.only(label, &flaws.map(|flaw| format!("{flaw:?}")).collect::<Vec<_>>(), least);
}

#[test]
fn verdicts_in_lists_notice_flaws() {
    expect_noticed("of 150 lists", 220_000_000..220_000_150, 10, in_list);
}

#[test]
fn verdicts_of_networks_handed_in_notice_flaws() {
    expect_noticed("of 400 networks handed in", 230_000_000..230_000_400, 20, handed_in);
}

/// E6 shows neither which of several links is blamed nor what comes before what; the networks above do.
#[test]
fn known_networks_notice_flaws() {
    let mut e4 = triangle();
    for _ in 0..2 {
        e4.round(&mut Random::new(3)).expect("a round");
    }
    for call in [Call::Cut(0, 0), Call::Cut(1, 0), Call::Update(1, 1)] {
        e4.make(call);
    }
    assert!(shows(&e4, Flaw::SentBeforeHeld));
    assert!(shows(&e4, Flaw::NoneIsNothingHeld));
    let mut star = moved_star(6);
    assert!(shows(&star, Flaw::BlamesHighest));
    assert!(shows(&star, Flaw::BlamesChosen));
    assert!(!shows(&star, Flaw::BlamesDownEnds));
    star.make(Call::Cut(1, 0));
    assert!(shows(&star, Flaw::BlamesDownEnds));
    assert!(!shows(&star, Flaw::BlamesHighest));
    assert!(shows(&moved_star(3), Flaw::SentMayBeEqual));
    assert!(shows(&moved_pair(5), Flaw::HeldMustBeBelow));
    // the chosen link is down at this end, and another condition applies as well
    let mut star = moved_star(6);
    star.make(Call::Cut(1, 1));
    assert!(shows(&star, Flaw::SentBeforeEnd));
    let mut pair = moved_pair(4);
    pair.make(Call::Cut(1, 0));
    assert!(shows(&pair, Flaw::HeldBeforeEnd));
}
