//! Which condition holds a port shut (Change 2 of document 02).

use crate::distances::NONE;
use crate::network::Network;
use crate::records::Held;
use crate::refusal::Refusal;

/// The first condition that applies to a bridge and a destination, or that none does. The link named is the chosen one, except
/// where a sent limit is too low.
#[derive(Clone, Copy, Debug, PartialEq, Eq)]
pub enum Reason {
    /// No condition applies.
    Forwards(usize),
    IsDestination,
    /// The bridge's distance in its own view is NONE.
    NoPath,
    /// The chosen link is down at the bridge's own end.
    ChosenDown(usize),
    /// No view is held from the neighbour over the chosen link.
    NothingHeld(usize),
    /// The held limit is above the distance. A held view that offers NONE is here.
    HeldTooGreat(usize),
    /// The sent limit is not above the distance: the lowest such link of those that are up at the bridge's own end.
    SentTooLow(usize),
}

impl Reason {
    /// The number of the condition in the order of Change 2, 0 if the port forwards; and the link, if one is named.
    pub fn case(self) -> (u8, Option<usize>) {
        match self {
            Reason::Forwards(link) => (0, Some(link)),
            Reason::IsDestination => (1, None),
            Reason::NoPath => (2, None),
            Reason::ChosenDown(link) => (3, Some(link)),
            Reason::NothingHeld(link) => (4, Some(link)),
            Reason::HeldTooGreat(link) => (5, Some(link)),
            Reason::SentTooLow(link) => (6, Some(link)),
        }
    }
}

impl Network {
    /// The conditions of Change 2, in their order. `port` states the rule of 'Forwarding' by itself, so that each checks the other.
    /// The map's distances must be those of its costs: handed-in ones could leave the bridge without a chosen link.
    pub fn reason(&self, bridge: usize, destination: usize) -> Reason {
        if bridge == destination {
            return Reason::IsDestination;
        }
        let distance = self.distance(bridge, destination);
        if distance == NONE {
            return Reason::NoPath;
        }
        let chosen = self.chosen(bridge, destination).expect("the first link of a shortest path reaches the distance");
        let link = chosen.link;
        if !self.is_up(chosen) {
            return Reason::ChosenDown(link);
        }
        let records = &self.records[chosen.link][chosen.side];
        if records.held == Held::Nothing {
            return Reason::NothingHeld(link);
        }
        if records.held_limit(&self.map, chosen, destination) > distance {
            return Reason::HeldTooGreat(link);
        }
        match self.lowest_sent_too_low(bridge, destination, distance) {
            Some(link) => Reason::SentTooLow(link),
            None => Reason::Forwards(link),
        }
    }

    /// The lowest link of the bridge that is up at the bridge's own end and whose sent limit is not above the distance.
    fn lowest_sent_too_low(&self, bridge: usize, destination: usize, distance: u32) -> Option<usize> {
        for &end in &self.ends[bridge] {
            let sent = self.records[end.link][end.side].sent[destination];
            if self.is_up(end) && sent <= distance {
                return Some(end.link);
            }
        }
        None
    }

    /// The reason for bridges named by number: 10 if the network lacks the bridge, then if it lacks the destination.
    pub fn why(&self, bridge: u8, destination: u8) -> Result<Reason, Refusal> {
        let bridge = self.bridge(bridge)?;
        let destination = self.bridge(destination)?;
        Ok(self.reason(bridge, destination))
    }
}
