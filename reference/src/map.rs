//! Bridges, links and views of a plan ('Network and views').

use crate::distances::distances_to;
use crate::refusal::Refusal;

const LEAST_BRIDGES: u8 = 2;
const MOST_BRIDGES: u8 = 16;
const MOST_LINKS: usize = 32;
const MOST_VIEWS: usize = 32;
pub const GREATEST_COST: u32 = 16_777_215;

/// One end of a link: side 0 is at the bridge named first in the link's field, side 1 at the other.
#[derive(Clone, Copy, Debug, PartialEq, Eq)]
pub struct End {
    pub link: usize,
    pub side: usize,
}

impl End {
    /// The other end of the same link.
    pub fn far(self) -> End {
        End { link: self.link, side: 1 - self.side }
    }
}

/// A view: the cost of each link (0 means absent), and the distances computed from them once.
#[derive(Clone, Debug, Default)]
pub struct View {
    pub costs: Vec<u32>,
    /// First index: destination. Second index: bridge.
    pub distances: Vec<Vec<u32>>,
}

/// The bridges, links and views. It does not change once events begin.
#[derive(Clone, Debug, Default)]
pub struct Map {
    bridges: usize,
    links: Vec<[usize; 2]>,
    views: Vec<View>,
}

impl Map {
    /// From bridges, links and views as they are given: nothing is checked, and nothing is computed.
    pub fn given(bridges: usize, links: Vec<[usize; 2]>, views: Vec<View>) -> Map {
        Map { bridges, links, views }
    }

    /// Tag 1.
    pub fn set_bridges(&mut self, count: u8) -> Result<(), Refusal> {
        if !(LEAST_BRIDGES..=MOST_BRIDGES).contains(&count) {
            return Err(Refusal::BridgeCount);
        }
        self.bridges = usize::from(count);
        Ok(())
    }

    /// Tag 2.
    pub fn add_link(&mut self, ends: [u8; 2]) -> Result<(), Refusal> {
        if self.links.len() >= MOST_LINKS {
            return Err(Refusal::TooManyLinks);
        }
        let [a, b] = ends.map(usize::from);
        if a >= self.bridges || b >= self.bridges || a == b {
            return Err(Refusal::LinkEnds);
        }
        self.links.push([a, b]);
        Ok(())
    }

    /// Tag 3: the value holds 4 bytes of cost per link.
    pub fn add_view(&mut self, value: &[u8]) -> Result<(), Refusal> {
        if self.views.len() >= MOST_VIEWS {
            return Err(Refusal::TooManyViews);
        }
        let costs: Vec<u32> = value.chunks_exact(4).map(|c| u32::from_be_bytes([c[0], c[1], c[2], c[3]])).collect();
        if costs.iter().any(|&cost| cost > GREATEST_COST) {
            return Err(Refusal::CostTooHigh);
        }
        let distances = (0..self.bridges).map(|d| distances_to(d, self.bridges, &self.links, &costs)).collect();
        self.views.push(View { costs, distances });
        Ok(())
    }

    pub fn bridge_count(&self) -> usize {
        self.bridges
    }

    pub fn link_count(&self) -> usize {
        self.links.len()
    }

    pub fn view_count(&self) -> usize {
        self.views.len()
    }

    /// The bridge at this end of its link.
    pub fn bridge_at(&self, end: End) -> usize {
        self.links[end.link][end.side]
    }

    /// The end of this link at this bridge, if the bridge is on the link.
    pub fn end_at(&self, bridge: usize, link: usize) -> Option<End> {
        let side = self.links[link].iter().position(|&b| b == bridge)?;
        Some(End { link, side })
    }

    /// The link ends of a bridge, by rising link number.
    pub fn ends_of(&self, bridge: usize) -> Vec<End> {
        (0..self.links.len()).filter_map(|link| self.end_at(bridge, link)).collect()
    }

    /// The cost of a link in a view; 0 means absent.
    pub fn cost(&self, view: usize, link: usize) -> u32 {
        self.views[view].costs[link]
    }

    /// The distance of a bridge to the destination in a view.
    pub fn distance(&self, view: usize, destination: usize, bridge: usize) -> u32 {
        self.views[view].distances[destination][bridge]
    }
}
