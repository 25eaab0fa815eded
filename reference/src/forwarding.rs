//! The forwarding rule and the path ('Forwarding', and 'Each end sees its own cut' of document 02).

use crate::distances::{plus, NONE};
use crate::map::End;
use crate::network::Network;

/// Where a path ends.
#[derive(Clone, Copy, Debug, PartialEq, Eq)]
pub struct PathEnd {
    /// The last bridge; the destination if delivered.
    pub last: usize,
    /// The number of links crossed.
    pub hops: usize,
}

impl Network {
    /// The distance of a bridge in its own view.
    pub fn distance(&self, bridge: usize, destination: usize) -> u32 {
        self.map.distance(self.bridges[bridge].view, destination, bridge)
    }

    /// The bridge's end of its chosen link. The bridge's distance is not NONE.
    pub fn chosen(&self, bridge: usize, destination: usize) -> Option<End> {
        let view = self.bridges[bridge].view;
        let own = self.map.distance(view, destination, bridge);
        self.ends[bridge].iter().copied().find(|end| {
            let cost = self.map.cost(view, end.link);
            let far = self.map.distance(view, destination, self.map.bridge_at(end.far()));
            cost != 0 && plus(cost, far) == own
        })
    }

    /// The forwarding port: the bridge's end of the link on which it forwards for the destination, if it does. Only the bridge's
    /// own ends are looked at: the frame may still die on the link, see `hop`.
    pub fn port(&self, bridge: usize, destination: usize) -> Option<End> {
        let own = self.distance(bridge, destination);
        if bridge == destination || own == NONE {
            return None;
        }
        let chosen = self.chosen(bridge, destination)?;
        if !self.is_up(chosen) {
            return None;
        }
        let held = self.records[chosen.link][chosen.side].held_limit(&self.map, chosen, destination);
        if held <= own && self.below_sent_limits(bridge, destination, own) {
            Some(chosen)
        } else {
            None
        }
    }

    /// Whether the distance is below the sent limit of every link of the bridge that is up at the bridge's own end.
    fn below_sent_limits(&self, bridge: usize, destination: usize, distance: u32) -> bool {
        let mut up = self.ends[bridge].iter().filter(|&&end| self.is_up(end));
        up.all(|end| distance < self.records[end.link][end.side].sent[destination])
    }

    /// The forwarding port, if the frame crosses its link: that needs both ends up, and the port's own end is.
    pub fn hop(&self, bridge: usize, destination: usize) -> Option<End> {
        self.port(bridge, destination).filter(|port| self.is_up(port.far()))
    }

    /// Follows forwarding ports until the destination, or a bridge that does not forward or whose frame dies on the link,
    /// over at most as many links as there are bridges less one.
    pub fn path(&self, start: usize, destination: usize) -> PathEnd {
        let mut last = start;
        let mut hops = 0;
        while last != destination && hops + 1 < self.map.bridge_count() {
            let Some(port) = self.hop(last, destination) else { break };
            last = self.map.bridge_at(port.far());
            hops += 1;
        }
        PathEnd { last, hops }
    }
}
