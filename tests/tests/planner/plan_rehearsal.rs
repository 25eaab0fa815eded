//! A plan carried out by reference/: what has to be told, and every figure that has to come of it.

use crate::plan_meaning::{Deed, Expectation, Plan, Setup};
use crate::plan_told::{Row, Told, Verdict};
use crate::plan_watch::{Figures, Watch};
use bench_tests::model::{Call, Model};
use bench_tests::plan_bytes::first_event;
use bench_tests::view::NONE;
use reference::network::Network;

pub struct Rehearsal {
    pub told: Vec<Told>,
    pub figures: Figures,
    /// How many events were carried out.
    pub events: usize,
    pub met: usize,
    /// The lines of expectations that were not met.
    pub unmet: Vec<usize>,
}

/// A rehearsal up to here.
struct Walk<'a> {
    setup: &'a Setup,
    model: Model,
    watch: Watch,
    told: Vec<Told>,
    events: usize,
    met: usize,
    unmet: Vec<usize>,
}

pub fn verdict(setup: &Setup, network: &Network, bridge: usize, to: usize) -> Verdict {
    let (number, link) = network.reason(bridge, to).case();
    (number.into(), link.map(|link| setup.links[link].clone()))
}

impl Walk<'_> {
    fn network(&self) -> &Network {
        &self.model.network
    }

    fn name(&self, bridge: usize) -> String {
        self.setup.bridges[bridge].clone()
    }

    fn row(&self, bridge: usize, to: usize) -> Row {
        let network = self.network();
        let distance = network.distance(bridge, to);
        Row {
            bridge: self.name(bridge),
            view: self.setup.views[network.bridges[bridge].view].clone(),
            distance: (distance != NONE).then_some(distance as usize),
            link: network.port(bridge, to).map(|end| self.setup.links[end.link].clone()),
            verdict: verdict(self.setup, network, bridge, to),
        }
    }

    /// The bridges that a frame comes by, where it starts and where it ends among them.
    fn route(&self, from: usize, to: usize) -> Vec<String> {
        let network = self.network();
        let hops = network.path(from, to).hops;
        let next = |bridge: &usize| network.hop(*bridge, to).map(|port| network.map.bridge_at(port.far()));
        std::iter::successors(Some(from), next).take(hops + 1).map(|bridge| self.name(bridge)).collect()
    }

    fn event(&mut self, line: usize, call: Call) {
        let event = self.events;
        self.events += 1;
        match call {
            Call::Report(to) => {
                let rows = (0..self.setup.bridges.len()).map(|bridge| self.row(bridge, to)).collect();
                self.told.push(Told::Report { line, event, to: self.name(to), rows });
            }
            Call::Path(from, to) => {
                let end = self.network().path(from, to);
                let stops = (end.last != to).then(|| self.name(end.last));
                let (from, to, route) = (self.name(from), self.name(to), self.route(from, to));
                self.told.push(Told::Path { line, event, from, to, stops, hops: end.hops, route });
            }
            _ => {
                self.model.call(call).unwrap_or_else(|refusal| panic!("{call:?}: {refusal:?}"));
                self.watch.look(&self.model.network, (line, event));
            }
        }
    }

    fn is_met(&self, expectation: &Expectation) -> bool {
        let network = self.network();
        match *expectation {
            Expectation::Delivered(from, to) => network.path(from, to).last == to,
            Expectation::Stops(from, to, stop) => {
                let last = network.path(from, to).last;
                last != to && stop.map_or(true, |stop| last == stop)
            }
            Expectation::Port(bridge, to, link) => network.port(bridge, to).map(|end| end.link) == link,
            Expectation::NoOutage => self.watch.is_untroubled(),
        }
    }

    fn line(&mut self, line: usize, deed: &Deed) {
        match deed {
            Deed::Events(calls) => calls.iter().for_each(|&call| self.event(line, call)),
            Deed::Watch(pairs) => self.watch.add(&self.model.network, pairs),
            Deed::Why(bridge, to) => {
                let verdict = verdict(self.setup, self.network(), *bridge, *to);
                self.told.push(Told::Why { line, bridge: self.name(*bridge), to: self.name(*to), verdict });
            }
            Deed::Expect(expectation) if self.is_met(expectation) => self.met += 1,
            Deed::Expect(_) => self.unmet.push(line),
        }
    }
}

/// The plan up to its refused event, if it has one.
pub fn rehearsed(plan: &Plan) -> Rehearsal {
    let (setup, model) = (&plan.setup, plan.setup.fresh());
    let mut walk = Walk { setup, model, watch: Watch::default(), told: Vec::new(), events: 0, met: 0, unmet: Vec::new() };
    plan.lines.iter().for_each(|line| walk.line(line.number, &line.deed));
    let figures = walk.watch.figures(setup);
    Rehearsal { told: walk.told, figures, events: walk.events, met: walk.met, unmet: walk.unmet }
}

/// The network after these events of bytes, all of which have to be accepted.
pub fn network_after(setup: &Setup, mut events: &[u8]) -> Network {
    let mut model = setup.fresh();
    while let Some((call, length)) = first_event(events) {
        model.call(call).unwrap_or_else(|refusal| panic!("{call:?}: {refusal:?}"));
        events = &events[length..];
    }
    assert!(events.is_empty(), "{events:?} is no event");
    model.network
}
