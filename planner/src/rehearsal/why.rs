//! Why a port is shut: the library's verdict, the figures behind it, and what would open it, tried on a copy of the network.

use crate::notation::item::Setup;
use crate::proved::field::Event;
use crate::proved::library::{report_line, Network, PathEnd, Verdict, MOST_IN_FLIGHT, NONE};
use crate::rehearsal::expand::oldest;
use crate::rehearsal::port::FORWARDS;

const NO_PATH: u32 = 2;
const LINK_DOWN: u32 = 3;
const NOTHING_HELD: u32 = 4;
const HELD_TOO_GREAT: u32 = 5;
const SENT_NOT_ABOVE: u32 = 6;

/// A limit: nothing where it is absent.
pub type Limit = Option<u32>;

/// All that is told of a port.
#[derive(Clone, Debug, PartialEq)]
pub struct Reason {
    pub bridge: usize,
    pub dest: usize,
    pub verdict: Verdict,
    pub view: usize,
    pub agreement: u32,
    pub distance: Option<u32>,
    pub chosen: Option<usize>,
    /// The held limit on the chosen link, where the rule came to look at it.
    pub held: Option<Limit>,
    /// The sent limits of the links that are up at this end, where the rule came to look at them.
    pub sent: Vec<(usize, Limit)>,
    /// Views in which there is a path, with the distance, where the bridge's own has none.
    pub elsewhere: Vec<(usize, u32)>,
    /// What leads on: the first way that does, or two where a bridge has to go to another view.
    pub openings: Vec<Opening>,
    /// The end across, if it is down.
    pub far_end_down: Option<usize>,
    /// As many messages are in flight as may be, so that none can be sent.
    pub flight_full: bool,
    /// Where its frames come to, if it forwards.
    pub path: Option<PathEnd>,
}

/// Events that lead on, in words too, and what the library says of the port after them.
#[derive(Clone, Debug, PartialEq)]
pub struct Opening {
    pub words: String,
    pub lines: Vec<String>,
    pub then: Verdict,
}

fn limit(number: u32) -> Limit {
    Some(number).filter(|&number| number != NONE)
}

pub fn reason(setup: &Setup, network: &Network, bridge: usize, dest: usize) -> Result<Reason, u8> {
    let verdict = network.verdict(bridge, dest)?;
    let number = verdict.number;
    let chosen = match number {
        SENT_NOT_ABOVE => network.without_sent_limits().verdict(bridge, dest)?.link,
        _ => verdict.link,
    };
    let asks_held = matches!(number, FORWARDS | HELD_TOO_GREAT | SENT_NOT_ABOVE);
    let end = |link: Option<usize>| link.and_then(|link| setup.end_of(bridge, link));
    let held = end(chosen).filter(|_| asks_held).map(|end| limit(network.held_limit(end, dest)));
    let asks_sent = matches!(number, FORWARDS | SENT_NOT_ABOVE);
    let waits = matches!(number, NOTHING_HELD..=SENT_NOT_ABOVE);
    let openings = verdict.link.map_or(Vec::new(), |link| openings(setup, network, (bridge, dest), link, verdict));
    Ok(Reason {
        bridge,
        dest,
        verdict,
        view: network.view(bridge),
        agreement: network.agreement_number(bridge),
        distance: distance(network, bridge, dest)?,
        chosen,
        held,
        sent: if asks_sent { sent_limits(setup, network, bridge, dest) } else { Vec::new() },
        elsewhere: if number == NO_PATH { elsewhere(setup, bridge, dest)? } else { Vec::new() },
        far_end_down: end(verdict.link).map(|end| end ^ 1).filter(|&end| network.is_down(end)),
        flight_full: waits && openings.is_empty() && network.messages().len() == MOST_IN_FLIGHT,
        openings,
        path: if number == FORWARDS { Some(network.path(bridge, dest)?) } else { None },
    })
}

/// The bridge's distance in its own view, by a report on a copy.
fn distance(network: &Network, bridge: usize, dest: usize) -> Result<Option<u32>, u8> {
    let rows = network.clone().carry_out(&Event::Report { dest: dest as u8 }.bytes())?;
    Ok(report_line(&rows[2 * bridge..]).0)
}

fn sent_limits(setup: &Setup, network: &Network, bridge: usize, dest: usize) -> Vec<(usize, Limit)> {
    let ends = (0..2 * setup.links.len()).filter(|&end| setup.bridge_at(end) == bridge && !network.is_down(end));
    ends.map(|end| (end / 2, limit(network.sent_limit(end, dest)))).collect()
}

/// The views in which the bridge has a path, each taken as a network's only one.
fn elsewhere(setup: &Setup, bridge: usize, dest: usize) -> Result<Vec<(usize, u32)>, u8> {
    let mut found = Vec::new();
    for (view, costs) in setup.views.iter().enumerate() {
        let network = setup.network(std::slice::from_ref(&costs.costs))?;
        if let Some(distance) = distance(&network, bridge, dest)? {
            found.push((view, distance));
        }
    }
    Ok(found)
}

// ---- what would open it

/// Something to try: events, and the same in words and as lines of the notation.
#[derive(Clone)]
struct Trial {
    events: Vec<Event>,
    lines: Vec<String>,
    words: String,
}

/// The bridge whose port is shut, the link that the verdict names, and the bridge across.
struct Shut<'a> {
    setup: &'a Setup,
    network: &'a Network,
    bridge: usize,
    far: usize,
    link: usize,
}

/// The first trial that the library accepts and that leads on. Where none does without an update: each update that does.
fn openings(setup: &Setup, network: &Network, (bridge, dest): (usize, usize), link: usize, before: Verdict) -> Vec<Opening> {
    let Some(end) = setup.end_of(bridge, link) else { return Vec::new() };
    let shut = Shut { setup, network, bridge, far: setup.bridge_at(end ^ 1), link };
    let (plain, updates) = match before.number {
        LINK_DOWN => (vec![shut.restored()], Vec::new()),
        NOTHING_HELD | HELD_TOO_GREAT => ([shut.arrivals(), shut.agreed()].concat(), shut.agreed_after_updates()),
        SENT_NOT_ABOVE => ([shut.arrivals(), shut.cleared()].concat(), shut.cleared_after_updates()),
        _ => (Vec::new(), Vec::new()),
    };
    let tried = |trial: Trial| tried(network.clone(), trial, bridge, dest, before);
    match plain.into_iter().find_map(tried) {
        Some(opening) => vec![opening],
        None => updates.into_iter().filter_map(tried).collect(),
    }
}

/// Does it lead on to a later condition, to a higher link of the last, or to a port that forwards?
fn leads_on(before: Verdict, after: Verdict) -> bool {
    match (before.number, after.number) {
        (_, FORWARDS) => true,
        (SENT_NOT_ABOVE, SENT_NOT_ABOVE) => after.link > before.link,
        (was, is) => is > was,
    }
}

fn tried(mut network: Network, trial: Trial, bridge: usize, dest: usize, before: Verdict) -> Option<Opening> {
    for event in &trial.events {
        network.carry_out(&event.bytes()).ok()?;
    }
    let then = network.verdict(bridge, dest).ok()?;
    leads_on(before, then).then_some(Opening { words: trial.words, lines: trial.lines, then })
}

/// Events and the lines that stand for them.
type Part = (Vec<Event>, Vec<String>);

/// These parts one after the other.
fn trial(parts: Vec<Part>, words: String) -> Trial {
    let (events, lines): (Vec<_>, Vec<_>) = parts.into_iter().unzip();
    Trial { events: events.concat(), lines: lines.concat(), words }
}

impl Shut<'_> {
    fn name(&self, bridge: usize) -> &str {
        &self.setup.bridges[bridge]
    }

    fn over(&self) -> &str {
        &self.setup.links[self.link].name
    }

    /// The name of the view that a bridge is on.
    fn view_of(&self, bridge: usize) -> &str {
        &self.setup.views[self.network.view(bridge)].name
    }

    /// The line that delivers the message at this place, by its sender where it is the oldest.
    fn delivered(&self, place: u8, sender: usize) -> String {
        match oldest(self.setup, self.network, sender, self.link) {
            Ok(older) if older != place => format!("deliver {place}"),
            _ => format!("deliver {} over {}", self.name(sender), self.over()),
        }
    }

    /// One event as a part.
    fn one(&self, event: Event) -> Part {
        (vec![event], vec![self.setup.words(event)])
    }

    fn restored(&self) -> Trial {
        let event = Event::Restore { bridge: self.bridge as u8, link: self.link as u8 };
        trial(vec![self.one(event)], format!("{}'s end of {} is restored", self.name(self.bridge), self.over()))
    }

    /// A message of the far bridge that is in flight arrives.
    fn arrivals(&self) -> Vec<Trial> {
        let from = self.setup.end_of(self.far, self.link);
        let messages = self.network.messages();
        let places = (0..messages.len()).filter(|&place| Some(2 * messages[place].link + messages[place].side) == from);
        let arrival = |place: usize| {
            let words = format!("the message of {} over {} at place {place} arrives", self.name(self.far), self.over());
            let place = place as u8;
            trial(vec![(vec![Event::Deliver { place }], vec![self.delivered(place, self.far)])], words)
        };
        places.map(arrival).collect()
    }

    /// A bridge sends over the link, behind all that is in flight, and that is delivered.
    fn message(&self, sender: usize) -> Part {
        let send = Event::Send { bridge: sender as u8, link: self.link as u8 };
        let place = self.network.messages().len() as u8;
        (vec![send, Event::Deliver { place }], vec![self.setup.words(send), self.delivered(place, sender)])
    }

    /// A bridge goes to the view that another one is on.
    fn moved(&self, bridge: usize, to: usize) -> Part {
        self.one(Event::Update { bridge: bridge as u8, view: self.network.view(to) as u8 })
    }

    /// The neighbour goes to the bridge's view, and then this; or the bridge goes to the neighbour's.
    fn updates(&self, then: Vec<Part>, words: &str) -> Vec<Trial> {
        let (own, far) = (self.name(self.bridge), self.name(self.far));
        let [own_view, far_view] = [self.bridge, self.far].map(|bridge| self.view_of(bridge));
        let follow = [vec![self.moved(self.far, self.bridge)], then].concat();
        vec![
            trial(follow, format!("{far} goes to {own_view}, and {words}")),
            trial(vec![self.moved(self.bridge, self.far)], format!("{own} goes to {far_view}, where {far} is")),
        ]
    }

    /// Ways to hold the far bridge's offer in the bridge's own view.
    fn agreed(&self) -> Vec<Trial> {
        vec![trial(vec![self.message(self.far)], self.next_message())]
    }

    fn agreed_after_updates(&self) -> Vec<Trial> {
        self.updates(vec![self.message(self.far)], &self.next_message())
    }

    fn next_message(&self) -> String {
        format!("{}'s next message over {} arrives", self.name(self.far), self.over())
    }

    /// Ways to have the far bridge report that it has discarded what is older than the bridge's present agreement; or the link, which
    /// counts only while it is up at this end, is cut here too.
    fn cleared(&self) -> Vec<Trial> {
        let (own, over) = (self.name(self.bridge), self.over());
        let cut = Event::Cut { bridge: self.bridge as u8, link: self.link as u8 };
        vec![
            trial(vec![self.message(self.far)], self.reported()),
            trial(self.exchange(), self.exchanged()),
            trial(vec![self.one(cut)], format!("{own}'s end of {over} is cut too: then the link does not count")),
        ]
        .into_iter()
        .filter(|trial| trial.events != [cut] || self.is_far_end_down())
        .collect()
    }

    fn cleared_after_updates(&self) -> Vec<Trial> {
        self.updates(self.exchange(), &self.exchanged())
    }

    fn is_far_end_down(&self) -> bool {
        self.setup.end_of(self.far, self.link).is_some_and(|end| self.network.is_down(end))
    }

    /// A message of the bridge, and then one of its neighbour.
    fn exchange(&self) -> Vec<Part> {
        vec![self.message(self.bridge), self.message(self.far)]
    }

    fn exchanged(&self) -> String {
        format!("{}'s next message over {} arrives, and then {}", self.name(self.bridge), self.over(), self.reported())
    }

    fn reported(&self) -> String {
        let number = self.network.agreement_number(self.bridge);
        let (own, far) = (self.name(self.bridge), self.name(self.far));
        format!("{far}'s next message over {} reports {own}'s agreements before {number} discarded", self.over())
    }
}
