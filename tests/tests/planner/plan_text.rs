//! Random plans of text in the full notation. What each line stands for is worked out here, from the page that describes the notation and
//! from reference/, which says what state the network is in.

use crate::plan_meaning::{Deed, Expectation, Line, Plan};
use crate::plan_setup::{put, set_up, shuffled, words};
use bench_tests::model::{Call, Model, Reply};
use bench_tests::random::Random;
use reference::map::End;
use reference::network::{Network, MOST_IN_FLIGHT};

/// A line that may come next, and the events that it stands for.
struct Candidate {
    kind: &'static str,
    words: Vec<String>,
    calls: Vec<Call>,
}

fn candidate(kind: &'static str, said: &[&str], calls: Vec<Call>) -> Candidate {
    Candidate { kind, words: words(said), calls }
}

/// A plan in the making.
struct Writer<'a> {
    random: &'a mut Random,
    plan: Plan,
    model: Model,
    is_watched: bool,
    /// Slips happen once in so many times.
    slips: usize,
}

/// The events of a line that were carried out, and the refusal of the next one if that is refused.
fn carried_out(model: &mut Model, calls: &[Call]) -> (usize, Option<u8>) {
    for (made, &call) in calls.iter().enumerate() {
        if let Err(refusal) = model.call(call) {
            return (made, Some(refusal.number()));
        }
    }
    (calls.len(), None)
}

/// What moves a message: its word, its kinds by place, all and by name, and its call.
type Mover = (&'static str, [&'static str; 3], fn(usize) -> Call);
const MOVERS: [Mover; 3] = [
    ("deliver", ["deliver place", "deliver all", "deliver by name"], Call::Deliver),
    ("repeat", ["repeat place", "repeat all", "repeat by name"], Call::Repeat),
    ("lose", ["lose place", "lose all", "lose by name"], Call::Lose),
];

impl<'a> Writer<'a> {
    fn network(&self) -> &Network {
        &self.model.network
    }

    fn bridge(&self, bridge: usize) -> String {
        self.plan.setup.bridges[bridge].clone()
    }

    fn link(&self, link: usize) -> String {
        self.plan.setup.links[link].clone()
    }

    fn any_bridge(&mut self) -> usize {
        self.random.below(self.plan.setup.bridges.len())
    }

    /// Two bridges, rarely the same one twice.
    fn any_pair(&mut self) -> [usize; 2] {
        if self.random.one_in(20) {
            return [self.any_bridge(); 2];
        }
        let pairs = self.plan.setup.pairs();
        self.random.pick(&pairs)
    }

    /// An end of a link, if there is a link.
    fn any_end(&mut self) -> Option<End> {
        let links = self.plan.setup.links.len();
        (links > 0).then(|| End { link: self.random.below(links), side: self.random.below(2) })
    }

    fn bridge_at(&self, end: End) -> usize {
        self.network().map.bridge_at(end)
    }

    // ---- events

    fn update_some(&mut self) -> Option<Candidate> {
        let view = self.random.below(self.plan.setup.views.len());
        let mut bridges = shuffled(self.random, self.plan.setup.bridges.len());
        bridges.truncate(1 + self.random.below(3));
        let named = bridges.iter().map(|&bridge| self.bridge(bridge)).collect();
        let words = [words(&["update"]), named, words(&["to", &self.plan.setup.views[view]])].concat();
        Some(Candidate { kind: "update some", words, calls: bridges.iter().map(|&bridge| Call::Update(bridge, view)).collect() })
    }

    fn update_all(&mut self) -> Option<Candidate> {
        let view = self.random.below(self.plan.setup.views.len());
        let calls = (0..self.plan.setup.bridges.len()).map(|bridge| Call::Update(bridge, view)).collect();
        Some(candidate("update all", &["update", "all", "to", &self.plan.setup.views[view]], calls))
    }

    /// Rarely of a bridge that is not on the link.
    fn send_one(&mut self) -> Option<Candidate> {
        let end = self.any_end()?;
        let bridge = if self.random.one_in(self.slips) { self.any_bridge() } else { self.bridge_at(end) };
        let (name, link) = (self.bridge(bridge), self.link(end.link));
        Some(candidate("send", &["send", &name, "over", &link], vec![Call::Send(bridge, end.link)]))
    }

    /// Every bridge over each link that is up at its end: link by link, the first-named bridge first.
    fn sends(&self) -> Vec<Call> {
        let ends = (0..self.plan.setup.links.len()).flat_map(|link| [0, 1].map(|side| End { link, side }));
        ends.filter(|&end| self.network().is_up(end)).map(|end| Call::Send(self.bridge_at(end), end.link)).collect()
    }

    fn send_all(&mut self) -> Option<Candidate> {
        Some(candidate("send all", &["send", "all"], self.sends()))
    }

    /// Rarely of a place behind the last message.
    fn move_place(&mut self) -> Option<Candidate> {
        let (word, [kind, ..], call) = self.random.pick(&MOVERS);
        let past = usize::from(self.random.one_in(self.slips));
        let places = self.network().flight.len() + past;
        let place = if places == 0 { return None } else { self.random.below(places) };
        Some(candidate(kind, &[word, &place.to_string()], vec![call(place)]))
    }

    /// What is delivered or lost is always the oldest; what is repeated stays.
    fn move_all(&mut self) -> Option<Candidate> {
        let (word, [_, kind, _], call) = self.random.pick(&MOVERS);
        let places = 0..self.network().flight.len();
        let calls = places.map(|place| call(if word == "repeat" { place } else { 0 })).collect();
        Some(candidate(kind, &[word, "all"], calls))
    }

    /// The oldest message of an end; mostly of one that has some.
    fn move_named(&mut self) -> Option<Candidate> {
        let (word, [.., kind], call) = self.random.pick(&MOVERS);
        let senders: Vec<End> = self.network().flight.iter().map(|message| message.from).collect();
        let is_any = senders.is_empty() || self.random.one_in(self.slips);
        let end = if is_any { self.any_end()? } else { self.random.pick(&senders) };
        let place = senders.iter().position(|&from| from == end).unwrap_or(MOST_IN_FLIGHT);
        let (bridge, link) = (self.bridge(self.bridge_at(end)), self.link(end.link));
        Some(candidate(kind, &[word, &bridge, "over", &link], vec![call(place)]))
    }

    /// The messages of a round stand behind those that were in flight before.
    fn rounds(&mut self) -> Option<Candidate> {
        let sends = self.sends();
        let deliveries = vec![Call::Deliver(self.network().flight.len()); sends.len()];
        let round = [sends, deliveries].concat();
        if self.random.one_in(2) {
            return Some(candidate("round", &["round"], round));
        }
        let times = 1 + self.random.below(3);
        Some(candidate("round times", &["round", &times.to_string()], round.repeat(times)))
    }

    /// A cut or a restore of one end or both. Where ends are down, half of the time one of these links is restored.
    fn switch(&mut self) -> Option<Candidate> {
        let mut end = self.any_end()?;
        let mut is_cut = self.random.one_in(2);
        let down: Vec<End> = self.network().ends.concat().into_iter().filter(|&end| !self.network().is_up(end)).collect();
        if !down.is_empty() && self.random.one_in(2) {
            (end, is_cut) = (self.random.pick(&down), false);
        }
        let (word, kinds) = if is_cut { ("cut", ["cut both", "cut one"]) } else { ("restore", ["restore both", "restore one"]) };
        let call = if is_cut { Call::Cut } else { Call::Restore };
        let (link, is_up) = (self.link(end.link), self.network().is_up(end));
        let is_both = is_up == self.network().is_up(end.far()) && !self.random.one_in(3);
        if is_both || self.random.one_in(self.slips) {
            let calls = self.plan.setup.ends[end.link].map(|bridge| call(bridge, end.link));
            return Some(candidate(kinds[0], &[word, &link], calls.to_vec()));
        }
        let bridge = if self.random.one_in(self.slips) { self.any_bridge() } else { self.bridge_at(end) };
        let name = self.bridge(bridge);
        Some(candidate(kinds[1], &[word, &name, &link], vec![call(bridge, end.link)]))
    }

    fn cut_one(&mut self) -> Option<Candidate> {
        let end = self.any_end()?;
        let (bridge, link) = (self.bridge_at(end), self.link(end.link));
        Some(candidate("cut one", &["cut", &self.bridge(bridge), &link], vec![Call::Cut(bridge, end.link)]))
    }

    fn report(&mut self) -> Option<Candidate> {
        if self.random.one_in(3) {
            let calls = (0..self.plan.setup.bridges.len()).map(Call::Report).collect();
            return Some(candidate("report all", &["report", "all"], calls));
        }
        let bridge = self.any_bridge();
        Some(candidate("report", &["report", &self.bridge(bridge)], vec![Call::Report(bridge)]))
    }

    fn path(&mut self) -> Option<Candidate> {
        if self.random.one_in(3) {
            let calls = self.plan.setup.pairs().into_iter().map(|[from, to]| Call::Path(from, to)).collect();
            return Some(candidate("path all", &["path", "all"], calls));
        }
        let [from, to] = self.any_pair();
        Some(candidate("path", &["path", &self.bridge(from), &self.bridge(to)], vec![Call::Path(from, to)]))
    }

    fn any_event(&mut self) -> Option<Candidate> {
        match self.random.below(100) {
            0..=9 => self.update_some(),
            10..=15 => self.update_all(),
            16..=29 => self.send_one(),
            30..=33 => self.send_all(),
            34..=43 => self.move_place(),
            44..=48 => self.move_all(),
            49..=59 => self.move_named(),
            60..=67 => self.rounds(),
            68..=87 => self.switch(),
            88..=93 => self.report(),
            _ => self.path(),
        }
    }

    /// Takes the line if all its events are accepted.
    fn take(&mut self, next: Option<Candidate>) -> bool {
        let Some(next) = next else { return false };
        let mut after = self.model.clone();
        let (_, refused) = carried_out(&mut after, &next.calls);
        if refused.is_none() {
            self.put(next);
            self.model = after;
        }
        refused.is_none()
    }

    fn put(&mut self, next: Candidate) -> usize {
        self.plan.kinds.push(next.kind);
        self.put_deed(&next.words, Deed::Events(next.calls))
    }

    fn put_deed(&mut self, words: &[String], deed: Deed) -> usize {
        let number = put(self.random, &mut self.plan.text, words);
        self.plan.lines.push(Line { number, deed });
        number
    }

    /// Takes up to this many lines of this kind.
    fn several(&mut self, most: usize, next: fn(&mut Self) -> Option<Candidate>) {
        for _ in 0..most {
            let next = next(self);
            self.take(next);
        }
    }

    /// Now and then many messages are in flight at last, or many ends are down by themselves.
    fn strain(&mut self) {
        match self.random.below(12) {
            0 => self.several(5, Writer::send_all),
            1 => {
                self.several(5, Writer::send_all);
                self.several(60, Writer::send_one);
            }
            2 | 3 => self.several(6, Writer::cut_one),
            _ => {}
        }
    }

    /// Ends with a line of which an event is refused, if one is met; what stands below it has no part.
    fn end_refused(&mut self) {
        self.slips = 3;
        let is_crowd = self.random.one_in(5);
        for _ in 0..200 {
            let next = if is_crowd { self.send_all() } else { self.any_event() };
            let Some(mut next) = next else { continue };
            let (made, refused) = carried_out(&mut self.model.clone(), &next.calls);
            if let Some(number) = refused {
                next.calls.truncate(made);
                let line = self.put(next);
                self.plan.refused = Some((line, number));
                return put_below(self.random, &mut self.plan.text);
            }
            // A crowd goes on; all else that is accepted is left out.
            let _ = is_crowd && self.take(Some(next));
        }
    }

    // ---- what is no event

    fn watch(&mut self) {
        self.is_watched = true;
        let pairs = self.plan.setup.pairs();
        if self.random.one_in(3) {
            self.plan.kinds.push("watch all");
            self.put_deed(&words(&["watch", "all"]), Deed::Watch(pairs));
        } else {
            let [from, to] = self.random.pick(&pairs);
            self.plan.kinds.push("watch");
            let said = words(&["watch", &self.bridge(from), &self.bridge(to)]);
            self.put_deed(&said, Deed::Watch(vec![[from, to]]));
        }
    }

    /// Mostly of a port that one of the conditions 3 to 6 holds shut, each as often as the others.
    fn why(&mut self) {
        let [mut bridge, mut to] = self.any_pair();
        let number = 3 + self.random.below(4) as u8;
        let pairs = self.plan.setup.pairs();
        let shut: Vec<[usize; 2]> = pairs.into_iter().filter(|&[b, d]| self.network().reason(b, d).case().0 == number).collect();
        if !shut.is_empty() && !self.random.one_in(6) {
            [bridge, to] = self.random.pick(&shut);
        }
        self.plan.kinds.push("why");
        let said = words(&["why", &self.bridge(bridge), &self.bridge(to)]);
        self.put_deed(&said, Deed::Why(bridge, to));
    }

    /// Where a path ends: mostly as it is, now and then at any bridge.
    fn expect_path(&mut self) {
        let [from, to] = self.any_pair();
        let found = self.model.call(Call::Path(from, to));
        let Ok(Reply::Path(end)) = found else { panic!("a path replied {found:?}") };
        let last = if self.random.one_in(4) { self.any_bridge() } else { end.last };
        let pair = [self.bridge(from), self.bridge(to)];
        let start = ["expect", "path", &pair[0], &pair[1]];
        let (said, expectation) = if last == to {
            ([&start[..], &["delivered"]].concat(), Expectation::Delivered(from, to))
        } else if self.random.one_in(2) {
            ([&start[..], &["stops"]].concat(), Expectation::Stops(from, to, None))
        } else {
            let stop = &self.plan.setup.bridges[last];
            ([&start[..], &["stops", stop]].concat(), Expectation::Stops(from, to, Some(last)))
        };
        let said = words(&said);
        self.plan.kinds.push("expect path");
        self.put_deed(&said, Deed::Expect(expectation));
    }

    fn expect_port(&mut self) {
        let [bridge, to] = self.any_pair();
        let port = self.network().port(bridge, to);
        let port = if self.random.one_in(4) { self.any_end() } else { port };
        let link = port.map(|end| end.link);
        let none = self.random.pick(&["none", "-"]);
        let named = link.map_or(none.to_string(), |link| self.link(link));
        let said = words(&["expect", "port", &self.bridge(bridge), &self.bridge(to), &named]);
        self.plan.kinds.push("expect port");
        self.put_deed(&said, Deed::Expect(Expectation::Port(bridge, to, link)));
    }

    fn question(&mut self) {
        match self.random.below(12) {
            0..=1 => self.watch(),
            2..=5 => self.why(),
            6..=7 => self.expect_path(),
            8 => self.expect_port(),
            9..=10 if self.is_watched => {
                self.plan.kinds.push("expect no outage");
                self.put_deed(&words(&["expect", "no", "outage"]), Deed::Expect(Expectation::NoOutage));
            }
            _ => {
                self.plan.kinds.push("label");
                let text = self.random.pick(&["\"drain\"", "\"the ward,  at noon\"", "\"ä = all\"", "\"cut 1\\2\""]);
                put(self.random, &mut self.plan.text, &words(&["label", text]));
            }
        }
    }
}

/// Lines that are never come to.
fn put_below(random: &mut Random, text: &mut Vec<String>) {
    for _ in 0..random.below(3) {
        put(random, text, &words(&["report", "all"]));
    }
}

/// A plan of text. About one in eight ends with an event that is refused.
pub fn random_plan(random: &mut Random) -> Plan {
    let plan = set_up(random);
    let model = plan.setup.fresh();
    let mut writer = Writer { random, plan, model, is_watched: false, slips: 20 };
    if writer.random.one_in(3) {
        writer.watch();
    }
    if !writer.random.one_in(4) {
        writer.several(2, Writer::rounds);
    }
    for _ in 0..10 + writer.random.below(50) {
        if writer.random.one_in(4) {
            writer.question();
        } else {
            let next = writer.any_event();
            writer.take(next);
        }
    }
    writer.strain();
    if writer.random.one_in(8) {
        writer.end_refused();
    }
    writer.plan
}
