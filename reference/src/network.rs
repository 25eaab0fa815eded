//! The network bench with messages in flight ('Events', and 'Each end sees its own cut' of document 02).

use crate::map::{End, Map};
use crate::records::{Answer, Bridge, Message, Records};
use crate::refusal::Refusal;

pub const MOST_IN_FLIGHT: usize = 64;

/// A network as the last event left it.
#[derive(Clone, Debug)]
pub struct Network {
    pub map: Map,
    pub bridges: Vec<Bridge>,
    /// The records of side 0 and side 1 of each link.
    pub records: Vec<[Records; 2]>,
    /// The link ends of each bridge, by rising link number.
    pub ends: Vec<Vec<End>>,
    /// Whether side 0 and side 1 of each link is down.
    pub down: Vec<[bool; 2]>,
    /// Messages in flight, oldest first.
    pub flight: Vec<Message>,
}

/// 'Tags 4, 5, 9 to 12': the index, if there are more than that many items.
fn within(index: u8, count: usize) -> Result<usize, Refusal> {
    let index = usize::from(index);
    if index < count {
        Ok(index)
    } else {
        Err(Refusal::NoSuch)
    }
}

impl Network {
    /// 'A fresh network'. The map has at least one view.
    pub fn fresh(map: Map) -> Network {
        let bridges = vec![Bridge { view: 0, number: 1 }; map.bridge_count()];
        let records = (0..map.link_count()).map(|link| [0, 1].map(|side| Records::fresh(&map, End { link, side }))).collect();
        let ends = (0..map.bridge_count()).map(|bridge| map.ends_of(bridge)).collect();
        let down = vec![[false; 2]; map.link_count()];
        Network { map, bridges, records, ends, down, flight: Vec::new() }
    }

    /// The bridge of this number, or 10.
    pub fn bridge(&self, number: u8) -> Result<usize, Refusal> {
        within(number, self.map.bridge_count())
    }

    /// The end that a bridge and a link name: 10 if there is no such bridge or link, then 11 if the bridge is not on the link.
    fn end(&self, bridge: u8, link: u8) -> Result<End, Refusal> {
        let bridge = self.bridge(bridge)?;
        let link = within(link, self.map.link_count())?;
        self.map.end_at(bridge, link).ok_or(Refusal::NotOnLink)
    }

    /// Whether this end of its link is up. The far end may be down all the same.
    pub fn is_up(&self, end: End) -> bool {
        !self.down[end.link][end.side]
    }

    /// 'Update': nothing changes if the view is the present one.
    pub fn update(&mut self, bridge: u8, view: u8) -> Result<(), Refusal> {
        let bridge = self.bridge(bridge)?;
        let view = within(view, self.map.view_count())?;
        let own = &mut self.bridges[bridge];
        if own.view == view {
            return Ok(());
        }
        let Some(number) = own.number.checked_add(1) else { return Err(Refusal::NumbersUsedUp) };
        *own = Bridge { view, number };
        for &end in &self.ends[bridge] {
            self.records[end.link][end.side].update(&self.map, end, view);
        }
        Ok(())
    }

    /// 'Send': the sender's own end must be up.
    pub fn send(&mut self, bridge: u8, link: u8) -> Result<(), Refusal> {
        let from = self.end(bridge, link)?;
        if !self.is_up(from) {
            return Err(Refusal::EndDown);
        }
        if self.flight.len() >= MOST_IN_FLIGHT {
            return Err(Refusal::FlightFull);
        }
        let Bridge { view, number } = self.bridges[self.map.bridge_at(from)];
        let discarded = self.records[from.link][from.side].discarded;
        self.flight.push(Message { from, view, number, discarded });
        Ok(())
    }

    /// The message at this place, or 15.
    fn message(&self, place: u8) -> Result<Message, Refusal> {
        self.flight.get(usize::from(place)).copied().ok_or(Refusal::NoMessage)
    }

    /// 'Repeat': delivers the message and leaves it in flight. The receiver's end must be up; the sender's does not matter.
    pub fn repeat(&mut self, place: u8) -> Result<Answer, Refusal> {
        let message = self.message(place)?;
        let end = message.from.far();
        if !self.is_up(end) {
            return Err(Refusal::EndDown);
        }
        let receiver = self.bridges[self.map.bridge_at(end)];
        Ok(self.records[end.link][end.side].deliver(&self.map, end, receiver, message))
    }

    /// 'Deliver': delivers the message and takes it out.
    pub fn deliver(&mut self, place: u8) -> Result<Answer, Refusal> {
        let answer = self.repeat(place)?;
        self.lose(place)?;
        Ok(answer)
    }

    /// 'Lose': only takes the message out, and later ones move up by one. Either end may be down.
    pub fn lose(&mut self, place: u8) -> Result<(), Refusal> {
        self.message(place)?;
        self.flight.remove(usize::from(place));
        Ok(())
    }

    /// 'Cut' if `down`, otherwise 'restore', of the bridge's own end. Records and messages in flight are retained.
    pub fn set_end(&mut self, bridge: u8, link: u8, down: bool) -> Result<(), Refusal> {
        let end = self.end(bridge, link)?;
        let was = &mut self.down[end.link][end.side];
        if *was == down {
            return Err(Refusal::AlreadySo);
        }
        *was = down;
        Ok(())
    }
}

#[cfg(test)]
mod tests {
    use super::*;
    use crate::forwarding::PathEnd;

    /// The triangle of 'Known examples'.
    fn triangle() -> Network {
        let mut map = Map::default();
        map.set_bridges(3).unwrap();
        for ends in [[0, 1], [1, 2], [0, 2]] {
            map.add_link(ends).unwrap();
        }
        map.add_view(&[0, 0, 0, 1, 0, 0, 0, 1, 0, 0, 0, 3]).unwrap();
        map.add_view(&[0, 0, 0, 0, 0, 0, 0, 1, 0, 0, 0, 3]).unwrap();
        Network::fresh(map)
    }

    /// Two rounds over every link, so that every bridge forwards.
    fn agreed() -> Network {
        let mut network = triangle();
        for _ in 0..2 {
            for (bridge, link) in [(0, 0), (0, 2), (1, 0), (1, 1), (2, 1), (2, 2)] {
                network.send(bridge, link).unwrap();
            }
            for _ in 0..6 {
                network.deliver(0).unwrap();
            }
        }
        network
    }

    #[test]
    fn a_fresh_network_has_every_end_up() {
        let network = triangle();
        assert_eq!(network.down, [[false; 2]; 3]);
        for link in 0..3 {
            assert!([0, 1].iter().all(|&side| network.is_up(End { link, side })));
        }
    }

    #[test]
    fn a_cut_is_of_one_end() {
        let mut network = triangle();
        assert_eq!(network.set_end(2, 1, true), Ok(()));
        assert_eq!(network.down, [[false, false], [false, true], [false, false]]);
        assert!(network.is_up(End { link: 1, side: 0 }));
        assert!(!network.is_up(End { link: 1, side: 1 }));
        // The other end is still up, and this one is down already.
        assert_eq!(network.set_end(1, 1, false), Err(Refusal::AlreadySo));
        assert_eq!(network.set_end(2, 1, true), Err(Refusal::AlreadySo));
        assert_eq!(network.set_end(1, 1, true), Ok(()));
        assert_eq!(network.down[1], [true, true]);
        assert_eq!(network.set_end(2, 1, false), Ok(()));
        assert_eq!(network.down[1], [true, false]);
    }

    #[test]
    fn refusals_of_a_cut_in_their_order() {
        for down in [true, false] {
            let mut network = triangle();
            assert_eq!(network.set_end(3, 0, down), Err(Refusal::NoSuch));
            assert_eq!(network.set_end(0, 3, down), Err(Refusal::NoSuch));
            assert_eq!(network.set_end(255, 255, down), Err(Refusal::NoSuch));
            assert_eq!(network.set_end(2, 0, down), Err(Refusal::NotOnLink));
            // Before 12: both ends of link 0 are already so.
            network.down[0] = [down; 2];
            assert_eq!(network.set_end(2, 0, down), Err(Refusal::NotOnLink));
            assert_eq!(network.set_end(0, 0, down), Err(Refusal::AlreadySo));
            assert_eq!(network.set_end(1, 0, down), Err(Refusal::AlreadySo));
            assert_eq!(network.down, [[down; 2], [false; 2], [false; 2]]);
        }
    }

    #[test]
    fn a_frame_dies_where_the_far_end_is_down() {
        let mut network = agreed();
        let port = Some(End { link: 0, side: 1 });
        assert_eq!((network.port(1, 0), network.hop(1, 0)), (port, port));
        network.set_end(0, 0, true).unwrap();
        assert_eq!((network.port(1, 0), network.hop(1, 0)), (port, None));
        assert_eq!(network.path(2, 0), PathEnd { last: 1, hops: 1 });
        network.set_end(1, 0, true).unwrap();
        assert_eq!((network.port(1, 0), network.hop(1, 0)), (None, None));
        assert_eq!(network.path(2, 0), PathEnd { last: 1, hops: 1 });
        network.set_end(0, 0, false).unwrap();
        assert_eq!((network.port(1, 0), network.hop(1, 0)), (None, None));
        network.set_end(1, 0, false).unwrap();
        assert_eq!((network.port(1, 0), network.hop(1, 0)), (port, port));
        assert_eq!(network.path(2, 0), PathEnd { last: 0, hops: 2 });
    }

    #[test]
    fn the_number_65535_is_the_last() {
        let mut network = triangle();
        network.bridges[1].number = 65_534;
        assert_eq!(network.update(1, 1), Ok(()));
        assert_eq!(network.bridges[1].number, 65_535);
        assert_eq!(network.update(1, 0), Err(Refusal::NumbersUsedUp));
        assert_eq!(network.update(1, 1), Ok(()));
        assert_eq!((network.bridges[1].view, network.bridges[1].number), (1, 65_535));
    }

    #[test]
    fn answers_of_deliveries() {
        let mut network = triangle();
        network.send(1, 1).unwrap();
        network.send(1, 1).unwrap();
        assert_eq!(network.repeat(0), Ok(Answer::Agreed));
        assert_eq!(network.deliver(0), Ok(Answer::Agreed));
        network.update(1, 1).unwrap();
        network.send(1, 1).unwrap();
        assert_eq!(network.repeat(1), Ok(Answer::Noted));
        // The message of number 1 is now below the highest received number, 2. An equal number is not.
        assert_eq!(network.repeat(0), Ok(Answer::Stale));
        assert_eq!(network.deliver(1), Ok(Answer::Noted));
        assert_eq!(network.deliver(0), Ok(Answer::Stale));
        assert_eq!(network.deliver(0), Err(Refusal::NoMessage));
    }
}
