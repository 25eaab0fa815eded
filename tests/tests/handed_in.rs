//! Networks that no fresh one leads to, each handed to every call of layer 3 as compiled, against reference/.

use bench_tests::count::Met;
use bench_tests::flaw::{Flaw, FLAWS};
use bench_tests::list_expected::run_both;
use bench_tests::list_random::random_list;
use bench_tests::model::Call;
use bench_tests::network_event::{END_EVENTS, EVENTS, STOPPED_BY_LENGTH};
use bench_tests::network_random::{random_call, random_map};
use bench_tests::network_run::{pairs_of, Run};
use bench_tests::random::Random;
use bench_tests::verdict::{VERDICTS, VERDICT_FEATURES};

/// How many calls are made on copies of a network.
const CALLS: usize = 40;

/// Every report and path; `verdicts` asks for the rest.
fn questions(bridges: usize) -> impl Iterator<Item = Call> {
    (0..bridges).map(Call::Report).chain(pairs_of(bridges).map(|(bridge, dest)| Call::Path(bridge, dest)))
}

/// One network: every question, calls of every kind, each on a copy, and a list of calls.
fn one_network(random: &mut Random, flaw: Option<Flaw>) -> Result<Met, String> {
    let map = random_map(random);
    let mut run = Run::handed_in(random, &map)?;
    run.model.flaw = flaw;
    run.verdicts()?;
    for call in questions(map.bridge_count()) {
        run.call(call)?;
    }
    let mut met = run.met.clone();
    for _ in 0..CALLS {
        let mut copy = run.copy();
        copy.call(random_call(random, run.network()))?;
        met.add(&copy.met);
    }
    let (mut model, mut list) = random_list(random, &mut run)?;
    let stop = run_both(&mut model, &mut list, &mut Met::default())?;
    met.note(format!("list to {stop:?}"));
    Ok(met)
}

#[test]
fn every_call_on_networks_handed_in() {
    let mut met = Met::default();
    for seed in 180_000_000..180_001_500 {
        met.add(&one_network(&mut Random::new(seed), None).unwrap_or_else(|difference| panic!("seed {seed}: {difference}")));
    }
    let limits = ["Any limits", "Loose limits", "Near limits"];
    let stops = ["list to End", "list to NoEvent", "list to Room", "list to Refused"];
    let verdicts = [&VERDICTS[..], &VERDICT_FEATURES].concat();
    met.only("handed in", &[&EVENTS[..], &END_EVENTS, &verdicts, &["clearing", STOPPED_BY_LENGTH], &limits, &stops].concat(), 50);
    met.at_least("handed in", &VERDICTS, 2_000);
    met.at_least("handed in", &VERDICT_FEATURES, 500);
}

/// One network is enough to notice most of the flaws.
#[test]
fn networks_handed_in_notice_flaws() {
    for flaw in FLAWS {
        let noticed = (0..100).filter(|&seed| one_network(&mut Random::new(190_000_000 + seed), Some(flaw)).is_err()).count();
        println!("{flaw:?}: noticed in {noticed} of 100 networks");
        assert!(noticed >= 8, "{flaw:?}: noticed in {noticed} of 100 networks");
    }
}
