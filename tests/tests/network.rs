//! Lists of calls on layer 3 as compiled, against document 01 and against reference/.

use bench_tests::count::Met;
use bench_tests::flaw::FLAWS;
use bench_tests::model::Call;
use bench_tests::network_event::{END_EVENTS, EVENTS, STOPPED_BY_LENGTH};
use bench_tests::network_random::{pair, random_call, random_map};
use bench_tests::network_run::{pairs_of, Run};
use bench_tests::random::Random;
use bench_tests::verdict::{VERDICTS, VERDICT_FEATURES};
use reference::map::{End, Map};
use reference::network::Network;

const LISTS: u64 = 600;
const CALLS: usize = 250;

/// What no list leads to that is so short and starts fresh.
const LAST_NUMBER: &str = "update 16";

fn fail(label: &str, run: &Run, difference: &str) -> ! {
    let last = run.trail.len().saturating_sub(6);
    panic!("{label}, call {}: {difference}\nlast calls {:?}\n{:?}", run.trail.len(), &run.trail[last..], run.map())
}

/// A list from a fresh network.
fn fresh_list(random: &mut Random, run: &mut Run, calls: usize) -> Result<(), String> {
    while run.events() < calls {
        match random.below(180) {
            0 => run.settle(random)?,
            1 => run.flood(random)?,
            2..=3 => run.round(random)?,
            4..=5 => run.survey()?,
            6..=7 => run.move_to_one_view(random)?,
            8..=22 => run.agree(random)?,
            23..=25 => run.overtake(random)?,
            26 => run.fail_link(random)?,
            27..=46 => run.pull(random)?,
            _ => {
                let call = random_call(random, run.network());
                run.call(call)?;
            }
        }
    }
    run.survey()
}

/// A list from a network that no fresh one leads to: rings are possible there.
fn handed_in_list(random: &mut Random, run: &mut Run, calls: usize) -> Result<(), String> {
    let bridges = run.map().bridge_count();
    for (start, dest) in pairs_of(bridges) {
        run.call(Call::Path(start, dest))?;
    }
    for _ in 0..calls {
        let call = random_call(random, run.network());
        run.call(call)?;
    }
    for (start, dest) in pairs_of(bridges) {
        run.call(Call::Path(start, dest))?;
    }
    run.verdicts()
}

const AROUND_CUT: &str = "settled around a cut link";

/// Of the plans.
const FEATURES: [&str; 7] = ["2 bridges", "16 bridges", "no link", "32 links", "parallel links", "32 views", "one view"];

fn map_events(map: &Map) -> Vec<&'static str> {
    let links = map.link_count();
    let parallel = |l: usize, k: usize| pair(map, k).iter().all(|bridge| pair(map, l).contains(bridge));
    let features = [
        ("2 bridges", map.bridge_count() == 2),
        ("16 bridges", map.bridge_count() == 16),
        ("no link", links == 0),
        ("32 links", links == 32),
        ("parallel links", (0..links).any(|l| (0..l).any(|k| parallel(l, k)))),
        ("32 views", map.view_count() == 32),
        ("one view", map.view_count() == 1),
    ];
    features.into_iter().filter(|f| f.1).map(|f| f.0).collect()
}

fn fresh_lists(part: u64) {
    let mut met = Met::default();
    for list in 0..LISTS {
        let seed = 1_000_000 * part + list;
        let mut random = Random::new(seed);
        let map = random_map(&mut random);
        let mut run = Run::fresh(&mut random, &map).unwrap_or_else(|difference| panic!("seed {seed}: {difference}\n{map:?}"));
        if let Err(difference) = fresh_list(&mut random, &mut run, CALLS) {
            fail(&format!("seed {seed}"), &run, &difference);
        }
        met.add(&run.met);
        map_events(&map).into_iter().for_each(|event| met.note(event));
        met.note_times("64 in flight", (run.met.times("send 14") > 0).into());
    }
    let label = format!("fresh lists, part {part}");
    let mut frequent: Vec<&str> = EVENTS.into_iter().filter(|&event| event != LAST_NUMBER).chain(END_EVENTS).collect();
    frequent.extend(["clearing", "settled", "parallel links"].into_iter().chain(VERDICTS));
    met.only(&label, &[&frequent[..], &FEATURES, &VERDICT_FEATURES, &["64 in flight", AROUND_CUT]].concat(), 4);
    met.at_least(&label, &frequent, 100);
    met.at_least(&label, &[AROUND_CUT], 40);
    met.at_least(&label, &VERDICTS, 200);
    let [alone, second] = ["cut done, far end up", "cut done, far end down"].map(|cut| met.times(cut));
    assert!(alone >= 2 * second, "{label}: {second} of {} cuts are of a second end", alone + second);
}

#[test]
fn lists_from_fresh_networks_1() {
    fresh_lists(1);
}

#[test]
fn lists_from_fresh_networks_2() {
    fresh_lists(2);
}

#[test]
fn lists_from_fresh_networks_3() {
    fresh_lists(3);
}

#[test]
fn lists_from_fresh_networks_4() {
    fresh_lists(4);
}

#[test]
fn lists_from_networks_handed_in() {
    let mut met = Met::default();
    for list in 0..1_200 {
        let seed = 50_000_000 + list;
        let mut random = Random::new(seed);
        let map = random_map(&mut random);
        let mut run = Run::handed_in(&mut random, &map).unwrap_or_else(|difference| panic!("seed {seed}: {difference}\n{map:?}"));
        if let Err(difference) = handed_in_list(&mut random, &mut run, 120) {
            fail(&format!("seed {seed}"), &run, &difference);
        }
        met.add(&run.met);
    }
    let others = ["clearing", STOPPED_BY_LENGTH, "Any limits", "Loose limits", "Near limits"];
    met.only("handed in", &[&EVENTS[..], &END_EVENTS, &VERDICTS, &VERDICT_FEATURES, &others].concat(), 50);
    met.at_least("handed in", &VERDICTS, 2_000);
    met.at_least("handed in", &VERDICT_FEATURES, 500);
}

// ---- the tests themselves

/// The steps of a bridge for a destination: its ports, or the hops of its frames.
type Step = fn(&Network, usize, usize) -> Option<End>;

/// A step of a ring: one of a walk that does not end within as many steps as there are bridges.
fn step_of_ring(network: &Network, step: Step) -> Option<End> {
    let bridges = network.map.bridge_count();
    let next = |at: usize, dest: usize| step(network, at, dest).map(|end| network.map.bridge_at(end.far()));
    pairs_of(bridges).find_map(|(start, dest)| {
        let last = (0..bridges).try_fold(start, |at, _| next(at, dest))?;
        step(network, last, dest)
    })
}

/// A survey finds each ring that frames go round. One that is broken at the far end of a hop is none, though ports may still close it.
#[test]
fn surveys_notice_rings() {
    let mut met = Met::default();
    for seed in 60_000_000..60_000_600 {
        let mut random = Random::new(seed);
        let map = random_map(&mut random);
        let mut run = Run::handed_in(&mut random, &map).expect("a network");
        while let Some(hop) = step_of_ring(run.network(), Network::hop) {
            let difference = run.survey().expect_err("a ring");
            assert!(difference.contains("ring"), "seed {seed}: {difference}");
            met.note("ring of hops");
            run.make(Call::Cut(map.bridge_at(hop.far()), hop.link));
        }
        assert_eq!(run.survey(), Ok(()), "seed {seed}");
        let of_ports = step_of_ring(run.network(), Network::port).is_some();
        met.note(if of_ports { "ring of ports alone" } else { "no ring" });
    }
    // most rings go to and fro over one link, and then one of the two ports is shut
    met.only("surveys", &["ring of hops", "ring of ports alone", "no ring"], 3);
    met.at_least("surveys", &["ring of hops", "no ring"], 40);
}

type Start = fn(&mut Random, &Map) -> Result<Run, String>;
type List = fn(&mut Random, &mut Run, usize) -> Result<(), String>;

/// Lists notice each attractive error of document 01, and some others.
#[test]
fn lists_notice_flaws() {
    for flaw in FLAWS {
        let mut noticed = 0;
        for seed in 0..120 {
            let mut random = Random::new(seed);
            let map = random_map(&mut random);
            let (start, list): (Start, List) =
                if seed % 2 == 0 { (Run::fresh, fresh_list) } else { (Run::handed_in, handed_in_list) };
            let mut run = start(&mut random, &map).expect("a network");
            run.model.flaw = Some(flaw);
            noticed += usize::from(list(&mut random, &mut run, CALLS).is_err());
        }
        println!("{flaw:?}: noticed in {noticed} of 120 lists");
        assert!(noticed >= 8, "{flaw:?}: noticed in {noticed} of 120 lists");
    }
}
