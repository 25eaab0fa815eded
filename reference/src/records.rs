//! Records of one link end, and what an update or a delivery does to them ('Records of a bridge', 'Events').

use crate::distances::{plus, NONE};
use crate::map::{End, Map};

/// What a bridge itself has: its view and its agreement number.
#[derive(Clone, Copy, Debug, PartialEq, Eq)]
pub struct Bridge {
    pub view: usize,
    pub number: u16,
}

/// A message in flight. Its link and direction are given by the end that sent it.
#[derive(Clone, Copy, Debug, PartialEq, Eq)]
pub struct Message {
    pub from: End,
    pub view: usize,
    pub number: u16,
    pub discarded: u16,
}

/// 'A delivery answers one of three'.
#[derive(Clone, Copy, Debug, PartialEq, Eq)]
pub enum Answer {
    Stale,
    Agreed,
    Noted,
}

/// What is held from the far bridge.
#[derive(Clone, Debug, PartialEq, Eq)]
pub enum Held {
    Nothing,
    /// The one view held. The held limits follow from it.
    View(usize),
    /// Held limits as they were handed in, for each destination. No plan leads to them.
    Limits(Vec<u32>),
}

/// The records of one link end.
#[derive(Clone, Debug, PartialEq, Eq)]
pub struct Records {
    /// Highest received number, 0 at first.
    pub highest: u16,
    /// The view received with it, none at first.
    pub received: Option<usize>,
    /// Discarded number, 0 at first.
    pub discarded: u16,
    pub held: Held,
    /// The sent limit for each destination.
    pub sent: Vec<u32>,
}

/// The offer of the bridge at this end, over its link, in this view.
pub fn offer(map: &Map, end: End, view: usize, destination: usize) -> u32 {
    let cost = map.cost(view, end.link);
    let near = map.distance(view, destination, map.bridge_at(end));
    let far = map.distance(view, destination, map.bridge_at(end.far()));
    if cost != 0 && near < far {
        plus(cost, near)
    } else {
        NONE
    }
}

/// The offers of the bridge at this end in this view, for every destination.
pub fn offers(map: &Map, end: End, view: usize) -> Vec<u32> {
    (0..map.bridge_count()).map(|destination| offer(map, end, view, destination)).collect()
}

impl Records {
    /// 'A fresh network': sent limits from view 0, nothing held.
    pub fn fresh(map: &Map, end: End) -> Records {
        Records { highest: 0, received: None, discarded: 0, held: Held::Nothing, sent: offers(map, end, 0) }
    }

    /// The far bridge's offer in the one view held from it, NONE if none is held. `end` is the end of these records.
    pub fn held_limit(&self, map: &Map, end: End, destination: usize) -> u32 {
        match &self.held {
            Held::Nothing => NONE,
            Held::View(view) => offer(map, end.far(), *view, destination),
            Held::Limits(limits) => limits[destination],
        }
    }

    /// 'Update', at one end of a bridge that goes over to another view.
    pub fn update(&mut self, map: &Map, end: End, view: usize) {
        for (limit, offer) in self.sent.iter_mut().zip(offers(map, end, view)) {
            *limit = offer.min(*limit);
        }
        if self.received == Some(view) {
            self.held = Held::View(view);
            self.discarded = self.highest;
        }
    }

    /// 'A delivery', at the receiving end. `bridge` is the receiver.
    pub fn deliver(&mut self, map: &Map, end: End, bridge: Bridge, message: Message) -> Answer {
        if message.number < self.highest {
            return Answer::Stale;
        }
        self.highest = message.number;
        self.received = Some(message.view);
        if message.discarded == bridge.number {
            self.sent = offers(map, end, bridge.view);
        }
        if message.view != bridge.view {
            return Answer::Noted;
        }
        self.held = Held::View(message.view);
        self.discarded = message.number;
        Answer::Agreed
    }
}
