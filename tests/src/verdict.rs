//! Which condition holds a port shut (Change 2 of document 02), in words of its own, since reference/ does not take distances by which no
//! link is chosen, and a bridge maker may lend any. Wherever it takes them, the two must agree.

use crate::call::VERDICT;
use crate::flaw::Flaw;
use crate::model::byte;
use crate::view::NONE;
use reference::map::End;
use reference::network::Network;
use reference::reason::Reason;
use reference::records::Held;

/// The number of a case, and the link that is named.
pub type Verdict = (u8, Option<usize>);

pub const FORWARDS: u8 = 0;
pub const DESTINATION: u8 = 1;
pub const NO_PATH: u8 = 2;
pub const OWN_END_DOWN: u8 = 3;
pub const NOTHING_HELD: u8 = 4;
pub const HELD_TOO_GREAT: u8 = 5;
pub const SENT_TOO_LOW: u8 = 6;
/// No link reaches the distance, which is then not that of the costs.
pub const NO_LINK: u8 = 7;

/// What the cases are called in counts.
const NAMES: [&str; 8] =
    ["forwards", "destination", "no path", "own end down", "nothing held", "held too great", "sent too low", "no link"];

pub fn name_of(case: u8) -> &'static str {
    NAMES[usize::from(case)]
}

/// A verdict as the calls write it.
pub fn verdict_numbers((case, link): Verdict) -> [u32; VERDICT] {
    [case.into(), link.map_or(NONE, |link| link as u32)]
}

/// What bears on a port whose bridge has a chosen link.
pub(crate) struct Choice {
    /// The bridge's distance.
    own: u32,
    pub(crate) chosen: End,
    is_up: bool,
    /// The held limit at the chosen link, if a view is held there.
    held: Option<u32>,
    /// The bridge's ends whose sent limit is not above the distance, from the lowest link: those that are up, and those that are down.
    pub(crate) low: Vec<End>,
    pub(crate) low_down: Vec<End>,
}

impl Choice {
    pub(crate) fn of(network: &Network, bridge: usize, dest: usize) -> Option<Choice> {
        let own = network.distance(bridge, dest);
        let chosen = Some(own).filter(|&own| own != NONE).and_then(|_| network.chosen(bridge, dest))?;
        let records = &network.records[chosen.link][chosen.side];
        let is_low = |end: &End| network.records[end.link][end.side].sent[dest] <= own;
        let (low, low_down) = network.ends[bridge].iter().copied().filter(is_low).partition(|&end| network.is_up(end));
        Some(Choice {
            own,
            chosen,
            is_up: network.is_up(chosen),
            held: (records.held != Held::Nothing).then(|| records.held_limit(&network.map, chosen, dest)),
            low,
            low_down,
        })
    }

    /// Each condition that concerns the chosen link or the sent limits, if it applies.
    fn conditions(&self, flaw: Option<Flaw>) -> [Option<Verdict>; 4] {
        let link = Some(self.chosen.link);
        let held = self.held.filter(|&limit| flaw != Some(Flaw::NoneIsNothingHeld) || limit != NONE);
        [
            (!self.is_up).then_some((OWN_END_DOWN, link)),
            held.is_none().then_some((NOTHING_HELD, link)),
            held.filter(|&limit| limit > self.own).map(|_| (HELD_TOO_GREAT, link)),
            self.blamed(flaw).map(|link| (SENT_TOO_LOW, Some(link))),
        ]
    }

    /// The link whose sent limit is named.
    fn blamed(&self, flaw: Option<Flaw>) -> Option<usize> {
        let lowest = self.low.first()?.link;
        Some(match flaw {
            Some(Flaw::BlamesHighest) => self.low[self.low.len() - 1].link,
            Some(Flaw::BlamesChosen) => self.chosen.link,
            Some(Flaw::BlamesDownEnds) => self.low_down.first().map_or(lowest, |down| down.link.min(lowest)),
            _ => lowest,
        })
    }
}

/// Every condition that applies, in the order in which they are named.
fn shut_by(flaw: Option<Flaw>, network: &Network, bridge: usize, dest: usize) -> Vec<Verdict> {
    let (own, choice) = (network.distance(bridge, dest), Choice::of(network, bridge, dest));
    let first = [
        (bridge == dest).then_some((DESTINATION, None)),
        (own == NONE).then_some((NO_PATH, None)),
        (bridge != dest && own != NONE && choice.is_none()).then_some((NO_LINK, None)),
    ];
    let others = choice.map_or([None; 4], |choice| choice.conditions(flaw));
    let mut all: Vec<Verdict> = first.into_iter().chain(others).flatten().collect();
    all.sort_by_key(|&(case, _)| place(flaw, case));
    all
}

/// The place of a case in the order. Flaws exchange two of them.
fn place(flaw: Option<Flaw>, case: u8) -> u8 {
    let exchanged = match flaw {
        Some(Flaw::PathBeforeDestination) => [DESTINATION, NO_PATH],
        Some(Flaw::HoldingBeforeEnd) => [OWN_END_DOWN, NOTHING_HELD],
        Some(Flaw::HeldBeforeEnd) => [OWN_END_DOWN, HELD_TOO_GREAT],
        Some(Flaw::SentBeforeEnd) => [OWN_END_DOWN, SENT_TOO_LOW],
        Some(Flaw::SentBeforeHolding) => [NOTHING_HELD, SENT_TOO_LOW],
        Some(Flaw::SentBeforeHeld) => [HELD_TOO_GREAT, SENT_TOO_LOW],
        _ => return case,
    };
    exchanged.iter().position(|&one| one == case).map_or(case, |which| exchanged[1 - which])
}

/// What is named of a bridge and a destination. A flaw is put into the rule.
pub fn verdict(flaw: Option<Flaw>, network: &Network, bridge: usize, dest: usize) -> Verdict {
    let forwards = || (FORWARDS, Choice::of(network, bridge, dest).map(|choice| choice.chosen.link));
    let named = shut_by(flaw, network, bridge, dest).first().copied().unwrap_or_else(forwards);
    if flaw.is_none() && named.0 != NO_LINK {
        let reason = network.why(byte(bridge), byte(dest));
        assert_eq!(Ok(named), reason.map(Reason::case), "of {bridge} for {dest}: these words, and the reference");
    }
    named
}

// ---- counts

/// What the conditions that apply are called in counts of ports, which tell a low sent limit on the chosen link from one on another.
pub(crate) fn shut_by_names(network: &Network, bridge: usize, dest: usize) -> Vec<&'static str> {
    let sent = Choice::of(network, bridge, dest).map_or(Vec::new(), |choice| choice.names_of_sent());
    let others = shut_by(None, network, bridge, dest).into_iter().filter(|&(case, _)| case != SENT_TOO_LOW);
    others.map(|(case, _)| name_of(case)).chain(sent).collect()
}

/// What is counted of a verdict: its case, the other conditions that apply as well, and what else tells a wrong rule from the right one.
pub fn verdict_events(network: &Network, bridge: usize, dest: usize) -> Vec<String> {
    let shut = shut_by(None, network, bridge, dest);
    let case = shut.first().map_or(FORWARDS, |&(case, _)| case);
    let others = shut.iter().skip(1).map(|&(other, _)| format!("{} too", name_of(other)));
    let features = Choice::of(network, bridge, dest).map_or(Vec::new(), |choice| choice.features(case));
    let event = format!("verdict {}", name_of(case));
    let more = others.chain(features.into_iter().map(String::from)).map(|more| format!("{event}, {more}")).collect::<Vec<_>>();
    [vec![event], more].concat()
}

pub(crate) const SENT_ON_OTHER: &str = "sent too low on another link";

impl Choice {
    fn names_of_sent(&self) -> Vec<&'static str> {
        let on_chosen = self.low.contains(&self.chosen).then_some("sent too low on the chosen link");
        let on_other = self.low.iter().any(|&end| end != self.chosen).then_some(SENT_ON_OTHER);
        on_chosen.into_iter().chain(on_other).collect()
    }

    fn features(&self, case: u8) -> Vec<&'static str> {
        let features = match case {
            FORWARDS => vec![
                ("held limit at the distance", self.held == Some(self.own)),
                ("a low sent limit at an end that is down", !self.low_down.is_empty()),
            ],
            HELD_TOO_GREAT => vec![("NONE of a held view", self.held == Some(NONE))],
            SENT_TOO_LOW => self.features_of_sent(),
            _ => Vec::new(),
        };
        features.into_iter().filter(|feature| feature.1).map(|feature| feature.0).collect()
    }

    fn features_of_sent(&self) -> Vec<(&'static str, bool)> {
        let (blamed, chosen) = (self.low[0].link, self.chosen.link);
        vec![
            ("at the chosen link", blamed == chosen),
            ("at a lower link", blamed < chosen),
            ("at a higher link", blamed > chosen),
            ("at several links", self.low.len() > 1),
            ("past a lower link that is down at this end", self.low_down.iter().any(|down| down.link < blamed)),
        ]
    }
}

/// What `verdict_events` says, by distances of the costs: the seven cases, and what goes with them.
pub const VERDICTS: [&str; 7] = [
    "verdict forwards",
    "verdict destination",
    "verdict no path",
    "verdict own end down",
    "verdict nothing held",
    "verdict held too great",
    "verdict sent too low",
];
pub const VERDICT_FEATURES: [&str; 13] = [
    "verdict forwards, held limit at the distance",
    "verdict forwards, a low sent limit at an end that is down",
    "verdict own end down, nothing held too",
    "verdict own end down, held too great too",
    "verdict own end down, sent too low too",
    "verdict nothing held, sent too low too",
    "verdict held too great, sent too low too",
    "verdict held too great, NONE of a held view",
    "verdict sent too low, at the chosen link",
    "verdict sent too low, at a lower link",
    "verdict sent too low, at a higher link",
    "verdict sent too low, at several links",
    "verdict sent too low, past a lower link that is down at this end",
];
