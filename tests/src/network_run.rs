//! One list of calls on layer 3, made by the compiled calls and by reference/, compared after each call.

use crate::count::Met;
use crate::model::{Call, Model, Reply};
use crate::network_call::Lent;
use crate::network_event::{end_of, events, Outcome};
use crate::network_handed::hand_in;
use crate::network_numbers::{compare, expect, is_question, network_in, put_fresh};
use crate::network_random::{lend, pair};
use crate::random::Random;
use crate::verdict::{Verdict, FORWARDS};
use reference::distances::NONE;
use reference::forwarding::PathEnd;
use reference::map::{End, Map};
use reference::network::{Network, MOST_IN_FLIGHT};

/// One list of calls, by the compiled calls and by the reference.
pub struct Run {
    pub model: Model,
    pub expected: Lent,
    pub found: Lent,
    pub met: Met,
    pub trail: Vec<Call>,
    asked: usize,
}

impl Run {
    pub fn fresh(random: &mut Random, map: &Map) -> Result<Run, String> {
        let mut expected = lend(random, map);
        let mut found = expected.clone();
        let model = Model::of(put_fresh(map, &mut expected));
        let reply = found.fresh();
        if reply != 0 {
            return Err(format!("fresh: reply {reply} in place of 0"));
        }
        compare(&expected, &found).map_err(|difference| format!("fresh: {difference}"))?;
        Ok(Run::of(model, found))
    }

    /// From a network that no fresh one leads to; `fresh` has never seen its buffers.
    pub fn handed_in(random: &mut Random, map: &Map) -> Result<Run, String> {
        let mut lent = lend(random, map);
        let limits = hand_in(random, map, &mut lent);
        let mut run = Run::of(Model::of(network_in(&lent)), lent);
        run.met.note(format!("{limits:?} limits"));
        Ok(run)
    }

    /// The network in these buffers.
    fn of(model: Model, lent: Lent) -> Run {
        Run { model, expected: lent.clone(), found: lent, met: Met::default(), trail: Vec::new(), asked: 0 }
    }

    /// The same network, of which nothing has been met.
    pub fn copy(&self) -> Run {
        Run::of(self.model.clone(), self.found.clone())
    }

    /// Puts other numbers in range in the place of what the calls left; the reference reads the network anew.
    pub fn renumber(&mut self, change: impl FnOnce(&mut Lent)) {
        change(&mut self.expected);
        self.found = self.expected.clone();
        self.model.network = network_in(&self.expected);
    }

    pub fn network(&self) -> &Network {
        &self.model.network
    }

    pub fn map(&self) -> &Map {
        &self.model.network.map
    }

    /// Makes a call both ways. An error says where they differ.
    pub fn ask(&mut self, call: Call) -> Result<Outcome, String> {
        let clearings = self.model.clearings;
        self.trail.push(call);
        self.asked += usize::from(is_question(call));
        let end = end_of(self.network(), call);
        let outcome = expect(&mut self.model, call, &mut self.expected);
        let reply = self.found.call(call);
        let number = outcome.as_ref().err().copied().unwrap_or(0);
        if reply != number {
            return Err(format!("{call:?}: reply {reply} in place of {number}"));
        }
        compare(&self.expected, &self.found).map_err(|difference| format!("{call:?}: {difference}"))?;
        events(&self.model.network, call, end, &outcome).into_iter().for_each(|event| self.met.note(event));
        self.met.note_times("clearing", self.model.clearings - clearings);
        Ok(outcome)
    }

    pub fn call(&mut self, call: Call) -> Result<(), String> {
        self.ask(call).map(|_| ())
    }

    /// How many of the calls so far did not only ask.
    pub fn events(&self) -> usize {
        self.trail.len() - self.asked
    }

    /// A deliver or repeat of any message whose receiver's end is up.
    fn receive(&mut self, random: &mut Random) -> Result<bool, String> {
        let network = self.network();
        let open = |p: &usize| network.is_up(network.flight[*p].from.far());
        let places: Vec<usize> = (0..network.flight.len()).filter(open).collect();
        let Some(&first) = places.first() else { return Ok(false) };
        let place = if random.one_in(2) { first } else { random.pick(&places) };
        if random.one_in(8) {
            self.call(Call::Repeat(place))?;
        }
        self.call(Call::Deliver(place))?;
        Ok(true)
    }

    /// Every bridge sends over each of its links that is up at its end, and all is delivered where the receiver's end is up.
    pub fn round(&mut self, random: &mut Random) -> Result<(), String> {
        let mut ends: Vec<End> = self.network().ends.concat();
        ends.retain(|&end| self.network().is_up(end));
        for k in (1..ends.len()).rev() {
            ends.swap(k, random.below(k + 1));
        }
        for end in ends {
            while self.network().flight.len() == MOST_IN_FLIGHT {
                if !self.receive(random)? {
                    self.call(Call::Lose(random.below(MOST_IN_FLIGHT)))?;
                }
            }
            self.call(Call::Send(self.map().bridge_at(end), end.link))?;
            if random.one_in(6) {
                self.receive(random)?;
            }
        }
        while self.receive(random)? {}
        Ok(())
    }

    /// Sends until no more are accepted.
    pub fn flood(&mut self, random: &mut Random) -> Result<(), String> {
        for _ in 0..70 {
            let Some(link) = self.any_link(random) else { return Ok(()) };
            self.call(Call::Send(random.pick(&pair(self.map(), link)), link))?;
        }
        Ok(())
    }

    pub(crate) fn any_link(&self, random: &mut Random) -> Option<usize> {
        let links = self.map().link_count();
        (links > 0).then(|| random.below(links))
    }

    /// The two ends of a link tell each other their views twice, all of it delivered in order.
    pub fn agree(&mut self, random: &mut Random) -> Result<(), String> {
        let Some(link) = self.any_link(random) else { return Ok(()) };
        let [a, b] = pair(self.map(), link);
        for bridge in [a, b, a, b] {
            if self.ask(Call::Send(bridge, link))?.is_ok() {
                self.call(Call::Deliver(self.network().flight.len() - 1))?;
            }
        }
        self.reports()
    }

    pub fn reports(&mut self) -> Result<(), String> {
        (0..self.map().bridge_count()).try_for_each(|dest| self.call(Call::Report(dest)))
    }

    /// Bridges go to one view, some or all of them.
    pub fn move_to_one_view(&mut self, random: &mut Random) -> Result<(), String> {
        let view = random.below(self.map().view_count());
        let stays = 2 + random.below(20);
        for bridge in 0..self.map().bridge_count() {
            if !random.one_in(stays) {
                self.call(Call::Update(bridge, view))?;
            }
        }
        Ok(())
    }

    /// An end of a link goes down, and for a while calls are about this link. Then the end is restored, or the other one goes down too,
    /// or neither.
    pub fn pull(&mut self, random: &mut Random) -> Result<(), String> {
        let Some(link) = self.any_link(random) else { return Ok(()) };
        let both = pair(self.map(), link);
        let pulled = random.pick(&both);
        self.call(Call::Send(random.pick(&both), link))?;
        self.call(Call::Cut(pulled, link))?;
        for _ in 0..4 + random.below(8) {
            let call = self.call_at(random, link);
            self.call(call)?;
        }
        match random.below(6) {
            0..=1 => self.call(Call::Restore(pulled, link)),
            2 => self.call(Call::Cut(across(self.map(), link, pulled), link)),
            _ => Ok(()),
        }
    }

    /// A call that depends on which of the link's ends are down.
    fn call_at(&self, random: &mut Random, link: usize) -> Call {
        let bridge = random.pick(&pair(self.map(), link));
        let flight = &self.network().flight;
        let over = (0..flight.len()).filter(|&place| flight[place].from.link == link).collect::<Vec<_>>();
        let place = if over.is_empty() { 0 } else { random.pick(&over) };
        let [dest, view] = [self.map().bridge_count(), self.map().view_count()].map(|count| random.below(count));
        match random.below(16) {
            0..=2 => Call::Send(bridge, link),
            3..=5 => Call::Deliver(place),
            6..=8 => Call::Repeat(place),
            9 => Call::Lose(place),
            10 => Call::Update(bridge, view),
            11 => Call::Cut(bridge, link),
            12 => Call::Restore(bridge, link),
            13 => Call::Port(bridge, dest),
            14 => Call::Report(dest),
            _ => Call::Path(bridge, dest),
        }
    }

    /// An end of a link fails, and the bridges agree on another view; half of the time then the far end, and they agree anew.
    pub fn fail_link(&mut self, random: &mut Random) -> Result<(), String> {
        let Some(link) = self.any_link(random) else { return Ok(()) };
        let [a, b] = pair(self.map(), link);
        let order = if random.one_in(2) { [a, b] } else { [b, a] };
        for &bridge in &order[..1 + random.below(2)] {
            self.call(Call::Cut(bridge, link))?;
            self.move_to_one_view(random)?;
            self.round(random)?;
            self.round(random)?;
            self.reports()?;
        }
        Ok(())
    }

    /// Two messages of one end, with an update between, are delivered the later one first.
    pub fn overtake(&mut self, random: &mut Random) -> Result<(), String> {
        let Some(link) = self.any_link(random) else { return Ok(()) };
        let [bridge, _] = pair(self.map(), link);
        let other = (self.network().bridges[bridge].view + 1) % self.map().view_count();
        let first = self.network().flight.len();
        if self.ask(Call::Send(bridge, link))?.is_ok() {
            self.call(Call::Update(bridge, other))?;
            if self.ask(Call::Send(bridge, link))?.is_ok() {
                self.call(Call::Deliver(first + 1))?;
            }
            self.call(if random.one_in(2) { Call::Deliver(first) } else { Call::Repeat(first) })?;
        }
        Ok(())
    }

    /// All bridges on one view, every link up at both ends or, if the view has no cost for it, down at both, then two rounds.
    pub fn settle(&mut self, random: &mut Random) -> Result<(), String> {
        let view = random.below(self.map().view_count());
        let bridges = self.map().bridge_count();
        for bridge in 0..bridges {
            self.call(Call::Update(bridge, view))?;
        }
        for link in 0..self.map().link_count() {
            self.even_out(random, view, link)?;
        }
        self.round(random)?;
        self.round(random)?;
        self.met.note("settled");
        self.met.note_times("settled around a cut link", self.network().down.contains(&[true; 2]).into());
        self.survey()?;
        for (start, dest) in pairs_of(bridges).filter(|(start, dest)| start != dest) {
            let distance = self.map().distance(view, dest, start);
            if distance != NONE {
                self.is_shortest(view, start, dest, distance)?;
            }
        }
        Ok(())
    }

    /// Both ends of the link go up, or where the view has no cost for it, both may go down.
    fn even_out(&mut self, random: &mut Random, view: usize, link: usize) -> Result<(), String> {
        let flags = self.network().down[link];
        let down = self.map().cost(view, link) == 0 && random.one_in(2);
        for (bridge, was) in pair(self.map(), link).into_iter().zip(flags) {
            if was != down {
                self.call(if down { Call::Cut(bridge, link) } else { Call::Restore(bridge, link) })?;
            }
        }
        Ok(())
    }

    /// The path is delivered, and its costs add up to the distance.
    fn is_shortest(&mut self, view: usize, start: usize, dest: usize, distance: u32) -> Result<(), String> {
        let path = self.ask(Call::Path(start, dest))?;
        if !matches!(path, Ok(Reply::Path(end)) if end.last == dest) {
            return Err(format!("settled in view {view}: the path from {start} to {dest} is not delivered"));
        }
        let (mut at, mut sum) = (start, 0);
        while at != dest {
            let Some(link) = self.port(at, dest)?.filter(|&link| self.is_crossed(link)) else {
                return Err(format!("settled in view {view}: no frame of {at} gets on to {dest}"));
            };
            sum += self.map().cost(view, link);
            at = across(self.map(), link, at);
        }
        if sum == distance {
            Ok(())
        } else {
            Err(format!("settled in view {view}: the path from {start} to {dest} costs {sum} in place of {distance}"))
        }
    }

    fn port(&mut self, bridge: usize, dest: usize) -> Result<Option<usize>, String> {
        match self.ask(Call::Port(bridge, dest))? {
            Ok(Reply::Port(port)) => Ok(port),
            other => Err(format!("port of {bridge} for {dest}: {other:?}")),
        }
    }

    /// What is named of a bridge: that its port forwards exactly where the port is open, and on that link.
    pub fn verdict(&mut self, bridge: usize, dest: usize) -> Result<Verdict, String> {
        let port = self.port(bridge, dest)?;
        let outcome = self.ask(Call::Verdict(bridge, dest))?;
        match (port, outcome) {
            (Some(_), Ok(Reply::Verdict(named))) if named == (FORWARDS, port) => Ok(named),
            (None, Ok(Reply::Verdict(named))) if named.0 != FORWARDS => Ok(named),
            (port, outcome) => Err(format!("verdict of {bridge} for {dest}: {outcome:?} beside port {port:?}")),
        }
    }

    /// Every port and verdict.
    pub fn verdicts(&mut self) -> Result<(), String> {
        pairs_of(self.map().bridge_count()).try_for_each(|(bridge, dest)| self.verdict(bridge, dest).map(|_| ()))
    }

    /// Does a frame that is sent over the link get across: both ends are up.
    fn is_crossed(&self, link: usize) -> bool {
        self.network().down[link] == [false; 2]
    }

    /// Every report, port, verdict and path; the hops of frames close no ring, and paths end by themselves.
    pub fn survey(&mut self) -> Result<(), String> {
        let bridges = self.map().bridge_count();
        for dest in 0..bridges {
            self.call(Call::Report(dest))?;
            let verdicts = (0..bridges).map(|bridge| self.verdict(bridge, dest)).collect::<Result<Vec<_>, _>>()?;
            let hop = |(bridge, (case, link)): (usize, Verdict)| {
                let link = link.filter(|&link| case == FORWARDS && self.is_crossed(link))?;
                Some(across(self.map(), link, bridge))
            };
            let next: Vec<Option<usize>> = verdicts.into_iter().enumerate().map(hop).collect();
            for start in 0..bridges {
                let outcome = self.ask(Call::Path(start, dest))?;
                ends_by_itself(&next, start, dest, &outcome)?;
            }
        }
        Ok(())
    }
}

/// The bridge across a link.
pub fn across(map: &Map, link: usize, bridge: usize) -> usize {
    let [first, second] = pair(map, link);
    if bridge == first {
        second
    } else {
        first
    }
}

/// All pairs of a start and a destination.
pub fn pairs_of(bridges: usize) -> impl Iterator<Item = (usize, usize)> {
    (0..bridges).flat_map(move |start| (0..bridges).map(move |dest| (start, dest)))
}

/// The hops from a bridge end, within bridges less one, where the path's reply says.
fn ends_by_itself(next: &[Option<usize>], start: usize, dest: usize, outcome: &Outcome) -> Result<(), String> {
    let (mut at, mut hops) = (start, 0);
    while let (true, Some(to)) = (at != dest, next[at]) {
        at = to;
        hops += 1;
        if hops >= next.len() {
            return Err(format!("the frames for {dest} go round a ring that {start} leads to"));
        }
    }
    let end = PathEnd { last: at, hops };
    if *outcome == Ok(Reply::Path(end)) {
        Ok(())
    } else {
        Err(format!("path from {start} to {dest}: {outcome:?} in place of {end:?}"))
    }
}
