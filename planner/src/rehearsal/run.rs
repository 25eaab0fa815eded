//! Carries a plan out, call after call.

use crate::notation::fault::{shown, Fault};
use crate::notation::item::{Expectation, Item, Line, Plan, Which};
use crate::proved::field::{Event, Field, Reader};
use crate::proved::library::{path_end, report_line, Network, PathEnd};
use crate::rehearsal::expand;
use crate::rehearsal::port::{port, verdict_words, FORWARDS};
use crate::rehearsal::refusal::{named, refusal, DownSince};
use crate::rehearsal::story::{count, end_words, Entry, Row, Story, Stretch, Way, What};
use crate::rehearsal::warning::{forgotten, left_over, BeenOn};
use crate::rehearsal::watch::{Moment, Watch, Watched};
use crate::rehearsal::why::reason;

/// Carries a plan out. Where `watch_all` is set and the plan watches nothing, all pairs are watched from its start.
pub fn run(plan: &Plan, watch_all: bool) -> Story {
    let views: Vec<Vec<u32>> = plan.setup.views.iter().map(|view| view.costs.clone()).collect();
    // The reader has taken this setup, so that the library takes it too.
    let network = plan.setup.network(&views).expect("a network in range");
    let mut run = Run::new(plan, network);
    let refused = run.carry_out(watch_all).err();
    run.finish(refused)
}

struct Run<'a> {
    plan: &'a Plan,
    network: Network,
    reader: Reader,
    entries: Vec<Entry>,
    events: Vec<Event>,
    changes: usize,
    stretches: Vec<Stretch>,
    watch: Watch,
    met: usize,
    unmet: Vec<usize>,
    down_since: DownSince,
    /// The line of each message in flight.
    sent_at: Vec<usize>,
    been_on: BeenOn,
    /// What looked like a mistake on the way.
    warned: Vec<String>,
}

/// What to do where a round meets a link that is down at one end.
const HALF_A_ROUND: &str = "cut the other end too, or write sends, deliveries and losses in place of the round";

/// A refusal of the library that no plan leads to.
fn unexpected(line: usize, number: u8) -> Fault {
    Fault::refused(line, "the library refused a question", number, "this should not happen")
}

impl<'a> Run<'a> {
    fn new(plan: &'a Plan, network: Network) -> Run<'a> {
        let bridges = plan.setup.bridges.len();
        let mut been_on = vec![vec![false; bridges]; plan.setup.views.len()];
        been_on[0].fill(true);
        Run {
            plan,
            network,
            reader: Reader::new(),
            entries: Vec::new(),
            events: Vec::new(),
            changes: 0,
            stretches: vec![Stretch { label: None, line: 1, events: 0 }],
            watch: Watch::default(),
            met: 0,
            unmet: Vec::new(),
            down_since: [None; 64],
            sent_at: Vec::new(),
            been_on,
            warned: Vec::new(),
        }
    }

    fn carry_out(&mut self, watch_all: bool) -> Result<(), Fault> {
        for field in self.plan.setup.fields() {
            self.read_back(&field, 1)?;
        }
        let watches = self.plan.lines.iter().any(|line| matches!(line.item, Item::Watch(_)));
        if watch_all && !watches {
            self.watch_pairs(None, 1)?;
        }
        self.plan.lines.iter().try_for_each(|line| self.line(line))
    }

    fn finish(self, refused: Option<Fault>) -> Story {
        let mut warnings = self.warned;
        warnings.extend(left_over(&self.plan.setup, &self.network, &self.sent_at));
        if refused.is_none() {
            warnings.extend(forgotten(&self.plan.setup, &self.network, &self.been_on));
        }
        if let Some(fault) = &refused {
            let unreached = self.plan.lines.iter().filter(|line| line.number > fault.line);
            let unreached = unreached.filter(|line| matches!(line.item, Item::Expect(_)));
            warnings.extend(unreached.map(|line| format!("line {} was never reached: {}", line.number, line.text)));
        }
        Story {
            entries: self.entries,
            events: self.events,
            changes: self.changes,
            refused,
            stretches: self.stretches,
            watch: self.watch,
            met: self.met,
            unmet: self.unmet,
            warnings,
        }
    }

    fn tell(&mut self, line: usize, event: Option<usize>, what: What) {
        self.entries.push(Entry { line, event, what });
    }

    fn line(&mut self, line: &Line) -> Result<(), Fault> {
        let number = line.number;
        match &line.item {
            Item::Label(text) => {
                self.stretches.push(Stretch { label: Some(text.clone()), line: number, events: 0 });
                self.tell(number, None, What::Label(text.clone()));
            }
            &Item::Why { bridge, dest } => {
                let reason =
                    reason(&self.plan.setup, &self.network, bridge, dest).map_err(|refused| unexpected(number, refused))?;
                self.tell(number, None, What::Why(reason));
            }
            &Item::Watch(pair) => self.watch_pairs(pair, number)?,
            Item::Expect(expectation) => self.expect(expectation, line)?,
            Item::Path(pair) => self.paths(line, pair.is_none())?,
            item => {
                self.warn(item, number);
                for event in self.events_of(item, number)? {
                    self.event(event, line)?;
                }
            }
        }
        Ok(())
    }

    /// A line that is carried out, and looks like a mistake.
    fn warn(&mut self, item: &Item, line: usize) {
        if matches!(item, Item::Message(_, Which::All)) && self.network.messages().is_empty() {
            self.warned.push(format!("line {line}: no message is in flight here"));
        }
    }

    fn watch_pairs(&mut self, pair: Option<(usize, usize)>, line: usize) -> Result<(), Fault> {
        let pairs = pair.map_or_else(|| self.plan.setup.all_pairs(), |pair| vec![pair]);
        self.watch.add(&pairs, &mut self.network).map_err(|number| unexpected(line, number))
    }

    fn events_of(&self, item: &Item, line: usize) -> Result<Vec<Event>, Fault> {
        let events = expand::events(item, &self.plan.setup, &self.network);
        events.map_err(|what| Fault::refused(line, what, 15, "it has to be sent first"))
    }

    // ---- events

    /// The proved reader has to read in the bytes of a field what was meant.
    fn read_back(&mut self, field: &Field, line: usize) -> Result<(), Fault> {
        let bytes = field.bytes();
        if self.reader.next(&bytes) == Ok(Some((field.clone(), bytes.len()))) {
            return Ok(());
        }
        Err(Fault::of_text(line, format!("{field:?} is read as something else"), "this should not happen"))
    }

    /// Carries out one event by its bytes, and looks at the watched pairs. The numbers that it answers with.
    fn event(&mut self, event: Event, line: &Line) -> Result<Vec<u32>, Fault> {
        self.read_back(&Field::Event(event), line.number)?;
        let name = named(&self.plan.setup, &self.network, event);
        let answers = self.network.carry_out(&event.bytes()).map_err(|number| self.refused(event, number, line))?;
        let number = self.events.len();
        self.events.push(event);
        self.changes += usize::from(!event.asks());
        self.note(event, line.number);
        if let Some(stretch) = self.stretches.last_mut() {
            stretch.events += 1;
        }
        if let Event::Report { dest } = event {
            self.report(dest.into(), &answers, number, line.number)?;
        }
        if !event.asks() {
            self.look(name, number, line.number)?;
        }
        Ok(answers)
    }

    /// A refused event in words, with the line where that says something else.
    fn refused(&self, event: Event, number: u8, line: &Line) -> Fault {
        let words = refusal(&self.plan.setup, &self.network, &self.down_since, event, number);
        let is_round = matches!(line.item, Item::Round(_)) && number == 13;
        let advice = if is_round { HALF_A_ROUND.to_string() } else { words.advice };
        let own = expand::fixed(&line.item).is_some_and(|events| events.len() == 1);
        let what = if own { words.what } else { format!("{}: {}", shown(&line.text), words.what) };
        Fault::refused(line.number, what, number, advice)
    }

    fn look(&mut self, by: String, event: usize, line: usize) -> Result<(), Fault> {
        let moment = Moment { line, event, changes: self.changes, stretch: self.stretches.len() - 1 };
        let pairs = self.watch.look(&mut self.network, moment).map_err(|number| unexpected(line, number))?;
        if !pairs.is_empty() {
            self.tell(line, Some(event), What::Moved { by, pairs });
        }
        Ok(())
    }

    /// Keeps what later words need: the lines at which messages were sent and ends went down, and the views in use.
    fn note(&mut self, event: Event, line: usize) {
        match event {
            Event::Send { .. } => self.sent_at.push(line),
            Event::Deliver { place } | Event::Lose { place } => drop(self.sent_at.remove(place.into())),
            Event::Cut { bridge, link } | Event::Restore { bridge, link } => {
                let is_cut = matches!(event, Event::Cut { .. });
                if let Some(end) = self.plan.setup.end_of(bridge.into(), link.into()) {
                    self.down_since[end] = Some(line).filter(|_| is_cut);
                }
            }
            Event::Update { bridge, view } => self.been_on[usize::from(view)][usize::from(bridge)] = true,
            _ => {}
        }
    }

    fn report(&mut self, dest: usize, answers: &[u32], event: usize, line: usize) -> Result<(), Fault> {
        let mut rows = Vec::new();
        for (bridge, numbers) in answers.chunks_exact(2).enumerate() {
            let (distance, link) = report_line(numbers);
            let port = port(&self.network, bridge, dest).map_err(|number| unexpected(line, number))?;
            rows.push(Row { distance, link, port, view: self.network.view(bridge) });
        }
        self.tell(line, Some(event), What::Report { dest, rows });
        Ok(())
    }

    fn paths(&mut self, line: &Line, all: bool) -> Result<(), Fault> {
        let first = self.events.len();
        let mut ways = Vec::new();
        for event in self.events_of(&line.item, line.number)? {
            let end = path_end(&self.event(event, line)?);
            if let Event::Path { start, dest } = event {
                let way = self.way(start.into(), dest.into(), end);
                ways.push(way.map_err(|number| unexpected(line.number, number))?);
            }
        }
        self.tell(line.number, Some(first), What::Paths { all, ways });
        Ok(())
    }

    /// The bridges of a path, by the port that the library names at each, for as many hops as it has.
    fn way(&self, start: usize, dest: usize, end: PathEnd) -> Result<Way, u8> {
        let mut route = vec![start];
        let mut at = start;
        for _ in 0..end.hops {
            let link = self.network.verdict(at, dest)?.link.ok_or(17)?;
            at = self.plan.setup.bridge_at(self.plan.setup.end_of(at, link).ok_or(17)? ^ 1);
            route.push(at);
        }
        if at != if end.delivered { dest } else { end.last } {
            return Err(17);
        }
        let stop = if end.delivered { None } else { Some(port(&self.network, at, dest)?) };
        Ok(Way { start, dest, route, end, stop })
    }

    // ---- expectations

    fn path(&self, start: usize, dest: usize, line: usize) -> Result<PathEnd, Fault> {
        self.network.path(start, dest).map_err(|number| unexpected(line, number))
    }

    fn expect(&mut self, expectation: &Expectation, line: &Line) -> Result<(), Fault> {
        let found = match *expectation {
            Expectation::Delivered { start, dest } => {
                let end = self.path(start, dest, line.number)?;
                (!end.delivered).then(|| self.told(end))
            }
            Expectation::Stops { start, dest, last } => {
                let end = self.path(start, dest, line.number)?;
                let as_said = !end.delivered && last.map_or(true, |last| last == end.last);
                (!as_said).then(|| self.told(end))
            }
            Expectation::Port { bridge, dest, link } => self.other_port(bridge, dest, link, line.number)?,
            Expectation::NoOutage => self.against_no_outage(),
        };
        match found {
            None => self.met += 1,
            Some(_) => self.unmet.push(line.number),
        }
        self.tell(line.number, None, What::Expected { text: line.text.clone(), found });
        Ok(())
    }

    fn told(&self, end: PathEnd) -> String {
        end_words(&self.plan.setup.bridges, end)
    }

    /// What the library says of a port that is not as it was expected.
    fn other_port(&self, bridge: usize, dest: usize, link: Option<usize>, line: usize) -> Result<Option<String>, Fault> {
        let verdict = self.network.verdict(bridge, dest).map_err(|number| unexpected(line, number))?;
        let found = verdict.link.filter(|_| verdict.number == FORWARDS);
        Ok((found != link).then(|| verdict_words(&self.plan.setup, verdict)))
    }

    /// What speaks against there being no outage: a watched pair that lost its path, or that never had one.
    fn against_no_outage(&self) -> Option<String> {
        let name = |pair: &Watched| format!("{} to {}", self.plan.setup.bridges[pair.start], self.plan.setup.bridges[pair.dest]);
        if let Some(&(pair, outage)) = self.watch.outages().first() {
            let lost = count(self.watch.lost().count(), "pair");
            let at = format!("line {} (event {})", outage.lost.line, outage.lost.event);
            return Some(format!("{lost} lost the path, first {} at {at}", name(pair)));
        }
        let never = self.watch.never();
        let pair = never.first()?;
        Some(format!("{} never had a path since watched, first {}", count(never.len(), "pair"), name(pair)))
    }
}
