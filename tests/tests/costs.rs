//! Calls of layer 3 as compiled between which the lent costs change, against reference/: each goes by the costs that it is lent.

use bench_tests::count::Met;
use bench_tests::list_expected::run_both;
use bench_tests::list_random::random_list;
use bench_tests::model::{Call, Model, Reply};
use bench_tests::network_call::Lent;
use bench_tests::network_event::name;
use bench_tests::network_known::triangle;
use bench_tests::network_numbers::{compare, expect, network_in};
use bench_tests::network_random::{pair, random_call, random_cost, random_map};
use bench_tests::network_run::Run;
use bench_tests::random::Random;
use reference::forwarding::PathEnd;
use reference::map::{Map, View};
use reference::network::Network;

/// How often costs change in a list.
const CHANGES: usize = 40;

/// Some costs of a view become others.
fn change_costs(random: &mut Random, run: &mut Run, view: usize) {
    let links = run.map().link_count();
    let small = random.one_in(2);
    run.renumber(|lent| {
        for cost in &mut lent.costs.numbers_mut()[32 * view..32 * view + links] {
            if random.one_in(3) {
                *cost = random_cost(random, small);
            }
        }
    });
}

/// The network in these buffers, with the distances of another map, as a call has them that does not compute its own.
fn with_kept_distances(lent: &Lent, kept: &Map) -> Model {
    let mut model = Model::of(network_in(lent));
    let map = &model.network.map;
    let (bridges, links) = (map.bridge_count(), map.link_count());
    let column = |view, dest| (0..bridges).map(|bridge| kept.distance(view, dest, bridge)).collect();
    let view = |view| View {
        costs: (0..links).map(|link| map.cost(view, link)).collect(),
        distances: (0..bridges).map(|dest| column(view, dest)).collect(),
    };
    let views = (0..map.view_count()).map(view).collect();
    model.network.map = Map::given(bridges, (0..links).map(|link| pair(map, link)).collect(), views);
    model
}

/// A call that goes by costs.
fn reading_call(random: &mut Random, network: &Network) -> Call {
    let (bridges, views) = (network.map.bridge_count(), network.map.view_count());
    let [bridge, dest] = [0; 2].map(|_: u8| random.below(bridges));
    let place = random.below(network.flight.len().max(1));
    match random.below(7) {
        0 => Call::Port(bridge, dest),
        6 => Call::Verdict(bridge, dest),
        1 => Call::Report(dest),
        2 => Call::Path(bridge, dest),
        3 => Call::Update(bridge, random.below(views)),
        4 => Call::Deliver(place),
        _ => Call::Repeat(place),
    }
}

/// A view that the call goes by.
fn view_of(call: Call, network: &Network) -> usize {
    let bridge = match call {
        Call::Update(_, view) => return view,
        Call::Deliver(place) | Call::Repeat(place) => {
            network.flight.get(place).map_or(0, |message| network.map.bridge_at(message.from.far()))
        }
        Call::Port(bridge, _) | Call::Verdict(bridge, _) | Call::Path(bridge, _) => bridge,
        _ => 0,
    };
    network.bridges[bridge].view
}

/// Costs change, and the next call goes by them. Notes it where the distances from before the change lead to something else.
fn changed_call(random: &mut Random, run: &mut Run) -> Result<(), String> {
    let before = run.map().clone();
    let call = reading_call(random, run.network());
    change_costs(random, run, view_of(call, run.network()));
    let mut kept = run.expected.clone();
    // an outcome shows in the buffers, but for a refusal, which no cost brings about
    let _ = expect(&mut with_kept_distances(&kept, &before), call, &mut kept);
    run.call(call)?;
    run.met.note_times(format!("{} shows it", name(call)), compare(&kept, &run.expected).is_err().into());
    Ok(())
}

/// The same of a list of calls.
fn changed_list(random: &mut Random, run: &mut Run) -> Result<(), String> {
    let before = run.map().clone();
    change_costs(random, run, run.network().bridges[0].view);
    let (mut model, mut list) = random_list(random, run)?;
    let mut kept = with_kept_distances(&list.lent, &before);
    let shows_it = run_both(&mut kept, &mut list.clone(), &mut Met::default()).is_err();
    run_both(&mut model, &mut list, &mut Met::default())?;
    run.met.note_times("list shows it", shows_it.into());
    Ok(())
}

/// A list of calls, and changes between them.
fn one_run(random: &mut Random) -> Result<Met, String> {
    let map = random_map(random);
    let start = if random.one_in(3) { Run::handed_in } else { Run::fresh };
    let mut run = start(random, &map)?;
    for _ in 0..CHANGES {
        match random.below(8) {
            0 => run.round(random)?,
            1 => run.move_to_one_view(random)?,
            2..=3 => run.agree(random)?,
            _ => (0..4).try_for_each(|_| run.call(random_call(random, run.network())))?,
        }
        changed_call(random, &mut run)?;
    }
    changed_list(random, &mut run)?;
    Ok(run.met)
}

#[test]
fn calls_go_by_the_costs_of_the_moment() {
    let mut met = Met::default();
    for seed in 200_000_000..200_000_400 {
        met.add(&one_run(&mut Random::new(seed)).unwrap_or_else(|difference| panic!("seed {seed}: {difference}")));
    }
    let calls = ["port", "verdict", "report", "path", "update", "deliver", "repeat", "list"];
    let calls = calls.map(|call| format!("{call} shows it"));
    met.0.retain(|event, _| calls.contains(event));
    met.only("changed costs", &calls, 30);
    met.at_least("changed costs", &calls[..7], 100);
}

/// The triangle after E3: link 0 becomes dearer in the view that all are on, and bridge 2 takes link 2 at once.
#[test]
fn a_dearer_link_in_the_triangle() {
    let mut run = triangle();
    for _ in 0..2 {
        run.round(&mut Random::new(3)).expect("a round");
    }
    assert_eq!(run.make(Call::Path(2, 0)), Reply::Path(PathEnd { last: 0, hops: 2 }));
    run.renumber(|lent| lent.costs.numbers_mut()[0] = 5);
    assert_eq!(run.make(Call::Path(2, 0)), Reply::Path(PathEnd { last: 0, hops: 1 }));
    assert_eq!(run.make(Call::Port(2, 0)), Reply::Port(Some(2)));
    assert_eq!(run.make(Call::Report(0)), Reply::Report(vec![(0, None), (4, None), (3, Some(2))]));
}
