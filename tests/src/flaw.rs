//! Errors that the tests must notice, each put around right calls of reference/.

use crate::view::NONE;
use reference::distances::plus;
use reference::forwarding::PathEnd;
use reference::map::{End, Map};
use reference::network::Network;
use reference::records::{offer, offers, Answer, Bridge, Held, Message, Records};

#[derive(Clone, Copy, Debug, PartialEq)]
pub enum Flaw {
    // of offers
    OffersWhenLevel,
    // of updates
    UpdateForgetsOldViews,
    UpdateNeverAdopts,
    // of updates and deliveries
    HoldsOwnOffers,
    // of deliveries
    EqualIsStale,
    ClearsUnasked,
    NeverClears,
    NotedIsHeld,
    NotedDiscards,
    AgreedKeepsDiscarded,
    // of the forwarding choice
    SentOnChosenOnly,
    SentOfDownEnds,
    SentByFarEnds,
    SentMayBeEqual,
    HeldMustBeBelow,
    HoldingIgnored,
    HighestLink,
    OwnEndIgnored,
    FarEndShuts,
    // of verdicts: verdict.rs puts them in
    PathBeforeDestination,
    HoldingBeforeEnd,
    HeldBeforeEnd,
    SentBeforeEnd,
    SentBeforeHolding,
    SentBeforeHeld,
    NoneIsNothingHeld,
    BlamesHighest,
    BlamesChosen,
    BlamesDownEnds,
    // of paths
    FrameNeedsNoFarEnd,
    // of sends, deliveries, cuts and taking out
    ClearsOnSending,
    SendsByFarEnd,
    DeliversBySender,
    CutForgets,
    CutsBothEnds,
    RestoresBothEnds,
    LatestKeepsPlace,
}

/// Those that calls of layer 3 notice, but for those of verdicts.
pub const FLAWS: [Flaw; 25] = [
    Flaw::SentMayBeEqual,
    Flaw::ClearsOnSending,
    Flaw::SentOnChosenOnly,
    Flaw::EqualIsStale,
    Flaw::CutForgets,
    Flaw::UpdateForgetsOldViews,
    Flaw::UpdateNeverAdopts,
    Flaw::HoldsOwnOffers,
    Flaw::ClearsUnasked,
    Flaw::NeverClears,
    Flaw::NotedIsHeld,
    Flaw::NotedDiscards,
    Flaw::AgreedKeepsDiscarded,
    Flaw::LatestKeepsPlace,
    Flaw::SentOfDownEnds,
    Flaw::HeldMustBeBelow,
    Flaw::HighestLink,
    Flaw::FrameNeedsNoFarEnd,
    Flaw::SendsByFarEnd,
    Flaw::DeliversBySender,
    Flaw::CutsBothEnds,
    Flaw::SentByFarEnds,
    Flaw::RestoresBothEnds,
    Flaw::OwnEndIgnored,
    Flaw::FarEndShuts,
];

/// Those that verdicts alone notice, by distances of the costs.
pub const OF_VERDICTS: [Flaw; 9] = [
    Flaw::HoldingBeforeEnd,
    Flaw::HeldBeforeEnd,
    Flaw::SentBeforeEnd,
    Flaw::SentBeforeHolding,
    Flaw::SentBeforeHeld,
    Flaw::NoneIsNothingHeld,
    Flaw::BlamesHighest,
    Flaw::BlamesChosen,
    Flaw::BlamesDownEnds,
];

/// A link end, its bridge, and its records before a call.
pub struct Site<'a> {
    pub map: &'a Map,
    pub end: End,
    pub bridge: Bridge,
    pub before: &'a Records,
}

impl Flaw {
    /// The offer of a link end in a view.
    pub fn spoil_offer(self, map: &Map, end: End, view: usize, dest: usize) -> u32 {
        let near = map.distance(view, dest, map.bridge_at(end));
        let far = map.distance(view, dest, map.bridge_at(end.far()));
        let cost = map.cost(view, end.link);
        if self == Flaw::OffersWhenLevel && near == far && cost != 0 {
            plus(cost, near)
        } else {
            offer(map, end, view, dest)
        }
    }

    /// Fresh records of an end, in view 0.
    pub fn spoil_start(self, map: &Map, end: End, records: &mut Records) {
        for (dest, limit) in records.sent.iter_mut().enumerate() {
            *limit = self.spoil_offer(map, end, 0, dest);
        }
    }

    /// Records after an update to the bridge's view.
    pub fn spoil_update(self, at: &Site, records: &mut Records) {
        let own_offers = || offers(at.map, at.end, at.bridge.view);
        match self {
            Flaw::UpdateForgetsOldViews => records.sent = own_offers(),
            Flaw::UpdateNeverAdopts => {
                records.held = at.before.held.clone();
                records.discarded = at.before.discarded;
            }
            Flaw::HoldsOwnOffers if records.received == Some(at.bridge.view) => records.held = Held::Limits(own_offers()),
            _ => {}
        }
    }

    /// Records after a delivery, and its answer.
    pub fn spoil_delivery(self, at: &Site, message: Message, answer: Answer, records: &mut Records) -> Answer {
        let own_offers = || offers(at.map, at.end, at.bridge.view);
        match (self, answer) {
            (Flaw::EqualIsStale, _) if message.number == at.before.highest => {
                *records = at.before.clone();
                return Answer::Stale;
            }
            (Flaw::ClearsUnasked, Answer::Agreed | Answer::Noted) => records.sent = own_offers(),
            (Flaw::NeverClears, _) => records.sent = at.before.sent.clone(),
            (Flaw::NotedIsHeld, Answer::Noted) => records.held = Held::View(at.bridge.view),
            (Flaw::NotedDiscards, Answer::Noted) => records.discarded = message.number,
            (Flaw::AgreedKeepsDiscarded, Answer::Agreed) => records.discarded = at.before.discarded,
            (Flaw::HoldsOwnOffers, Answer::Agreed) => records.held = Held::Limits(own_offers()),
            _ => {}
        }
        answer
    }
}

// ---- the forwarding choice

/// Those that ports and verdicts notice.
pub const OF_CHOICES: [Flaw; 8] = [
    Flaw::SentOnChosenOnly,
    Flaw::SentOfDownEnds,
    Flaw::SentByFarEnds,
    Flaw::SentMayBeEqual,
    Flaw::HeldMustBeBelow,
    Flaw::HighestLink,
    Flaw::OwnEndIgnored,
    Flaw::FarEndShuts,
];

/// What is asked about a destination, by a network in which the right choice is the wrong one of the flaw. It is put back afterwards.
pub fn ask<T>(flaw: Option<Flaw>, network: &mut Network, dest: usize, question: impl FnOnce(&Network) -> T) -> T {
    let Some(flaw) = flaw.filter(|flaw| OF_CHOICES.contains(flaw)) else { return question(network) };
    let (records, ends, down) = (network.records.clone(), network.ends.clone(), network.down.clone());
    for bridge in 0..network.map.bridge_count() {
        flaw.spoil_choice(network, bridge, dest);
    }
    let answer = question(network);
    (network.records, network.ends, network.down) = (records, ends, down);
    answer
}

/// Where a path ends. By the flaw a frame crosses a link by its port alone.
pub fn path(flaw: Option<Flaw>, network: &Network, start: usize, dest: usize) -> PathEnd {
    if flaw != Some(Flaw::FrameNeedsNoFarEnd) {
        return network.path(start, dest);
    }
    let mut end = PathEnd { last: start, hops: 0 };
    while end.last != dest && end.hops + 1 < network.map.bridge_count() {
        let Some(port) = network.port(end.last, dest) else { break };
        end = PathEnd { last: network.map.bridge_at(port.far()), hops: end.hops + 1 };
    }
    end
}

impl Flaw {
    fn spoil_choice(self, network: &mut Network, bridge: usize, dest: usize) {
        if self == Flaw::HighestLink {
            network.ends[bridge].reverse();
        }
        let own = network.distance(bridge, dest);
        let Some(chosen) = (own != NONE).then(|| network.chosen(bridge, dest)).flatten() else { return };
        if self == Flaw::OwnEndIgnored {
            network.down[chosen.link][chosen.side] = false;
        }
        let ends = network.ends[bridge].clone();
        let tested = ends.iter().filter(|end| self == Flaw::SentOfDownEnds || network.is_up(end.far()));
        let least = tested.map(|end| network.records[end.link][end.side].sent[dest]).min().unwrap_or(NONE);
        for end in ends {
            let far_up = network.is_up(end.far());
            let records = &mut network.records[end.link][end.side];
            let held = records.held_limit(&network.map, end, dest);
            let sent = &mut records.sent[dest];
            match self {
                Flaw::SentOnChosenOnly if end != chosen => *sent = NONE,
                Flaw::SentOfDownEnds | Flaw::SentByFarEnds => *sent = least,
                Flaw::SentMayBeEqual if *sent == own => *sent += 1,
                // of this row only the destination's limit is asked for
                Flaw::HeldMustBeBelow if held == own => records.held = Held::Limits(vec![own + 1; dest + 1]),
                Flaw::FarEndShuts if end == chosen && !far_up => records.held = Held::Limits(vec![NONE; dest + 1]),
                _ => {}
            }
        }
    }
}
