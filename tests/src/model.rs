//! The calls of layer 3 by reference/. A flaw is an error put around them, for tests of the tests.

use crate::flaw::{ask, path, Flaw, Site};
use crate::verdict::{verdict, Verdict};
use crate::view::NONE;
use reference::forwarding::PathEnd;
use reference::network::Network;
use reference::records::{offers, Answer, Bridge, Held, Message, Records};
use reference::refusal::Refusal;

#[derive(Clone, Copy, Debug, PartialEq)]
pub enum Call {
    Update(usize, usize),
    Cut(usize, usize),
    Restore(usize, usize),
    Send(usize, usize),
    Deliver(usize),
    Repeat(usize),
    Lose(usize),
    Port(usize, usize),
    Verdict(usize, usize),
    Report(usize),
    Path(usize, usize),
}

#[derive(Clone, Debug, PartialEq)]
pub enum Reply {
    Done,
    /// With the message that was delivered.
    Answered(Answer, Message),
    /// The link.
    Port(Option<usize>),
    Verdict(Verdict),
    /// A distance and a link for each bridge.
    Report(Vec<(u32, Option<usize>)>),
    Path(PathEnd),
}

/// The network, and a flaw of its calls.
#[derive(Clone, Debug)]
pub struct Model {
    pub network: Network,
    pub flaw: Option<Flaw>,
    /// How many deliveries cleared sent limits.
    pub clearings: usize,
}

/// The reference takes bytes, as a plan has them. No count reaches 255, so what is greater is refused as 255 is.
pub(crate) fn byte(number: usize) -> u8 {
    number.min(255) as u8
}

impl Model {
    pub fn of(network: Network) -> Model {
        Model { network, flaw: None, clearings: 0 }
    }

    pub fn call(&mut self, call: Call) -> Result<Reply, Refusal> {
        let before = self.flaw.map(|flaw| (flaw, Before::of(&self.network)));
        let turned = self.flaw.and_then(|flaw| flaw.turned_link(call, &self.network));
        self.turn(turned);
        let reply = self.right_call(call);
        self.turn(turned);
        let reply = reply?;
        Ok(match before {
            None => reply,
            Some((flaw, before)) => flaw.spoil(call, before, reply, &mut self.network),
        })
    }

    fn right_call(&mut self, call: Call) -> Result<Reply, Refusal> {
        let network = &mut self.network;
        match call {
            Call::Update(bridge, view) => network.update(byte(bridge), byte(view)).map(|()| Reply::Done),
            Call::Cut(bridge, link) => network.set_end(byte(bridge), byte(link), true).map(|()| Reply::Done),
            Call::Restore(bridge, link) => network.set_end(byte(bridge), byte(link), false).map(|()| Reply::Done),
            Call::Send(bridge, link) => network.send(byte(bridge), byte(link)).map(|()| Reply::Done),
            Call::Lose(place) => network.lose(byte(place)).map(|()| Reply::Done),
            Call::Deliver(place) => self.receive(place, Network::deliver),
            Call::Repeat(place) => self.receive(place, Network::repeat),
            Call::Port(bridge, dest) => {
                let (bridge, dest) = (network.bridge(byte(bridge))?, network.bridge(byte(dest))?);
                Ok(Reply::Port(self.ask(dest, |network| link(network, bridge, dest))))
            }
            Call::Verdict(bridge, dest) => {
                let (bridge, dest) = (network.bridge(byte(bridge))?, network.bridge(byte(dest))?);
                let flaw = self.flaw;
                Ok(Reply::Verdict(self.ask(dest, |network| verdict(flaw, network, bridge, dest))))
            }
            Call::Report(dest) => {
                let dest = network.bridge(byte(dest))?;
                let bridges = 0..network.map.bridge_count();
                let row = |network: &Network, bridge| (network.distance(bridge, dest), link(network, bridge, dest));
                Ok(Reply::Report(self.ask(dest, |network| bridges.map(|bridge| row(network, bridge)).collect())))
            }
            Call::Path(start, dest) => {
                let (start, dest) = (network.bridge(byte(start))?, network.bridge(byte(dest))?);
                let flaw = self.flaw;
                Ok(Reply::Path(self.ask(dest, |network| path(flaw, network, start, dest))))
            }
        }
    }

    /// The flags of a link's ends change places.
    fn turn(&mut self, link: Option<usize>) {
        if let Some(link) = link {
            self.network.down[link].reverse();
        }
    }

    fn ask<T>(&mut self, dest: usize, question: impl FnOnce(&Network) -> T) -> T {
        ask(self.flaw, &mut self.network, dest, question)
    }

    fn receive(&mut self, place: usize, by: fn(&mut Network, u8) -> Result<Answer, Refusal>) -> Result<Reply, Refusal> {
        let message = self.network.flight.get(place).copied();
        let answer = by(&mut self.network, byte(place))?;
        let message = message.expect("an accepted delivery is of a message in flight");
        let receiver = self.network.map.bridge_at(message.from.far());
        let reported = message.discarded == self.network.bridges[receiver].number;
        self.clearings += usize::from(answer != Answer::Stale && reported);
        Ok(Reply::Answered(answer, message))
    }
}

/// The link on which a bridge forwards.
fn link(network: &Network, bridge: usize, dest: usize) -> Option<usize> {
    network.port(bridge, dest).map(|end| end.link)
}

// ---- flaws

/// What a network had before a call.
struct Before {
    bridges: Vec<Bridge>,
    records: Vec<[Records; 2]>,
    flight: Vec<Message>,
}

impl Before {
    fn of(network: &Network) -> Before {
        Before { bridges: network.bridges.clone(), records: network.records.clone(), flight: network.flight.clone() }
    }
}

impl Flaw {
    /// The link of which the call looks at the other end.
    fn turned_link(self, call: Call, network: &Network) -> Option<usize> {
        match (self, call) {
            (Flaw::SendsByFarEnd, Call::Send(_, link)) => Some(link).filter(|&link| link < network.map.link_count()),
            (Flaw::DeliversBySender, Call::Deliver(place) | Call::Repeat(place)) => {
                network.flight.get(place).map(|message| message.from.link)
            }
            _ => None,
        }
    }

    /// The reply to a call that the reference has carried out, and the network after it.
    fn spoil(self, call: Call, mut before: Before, reply: Reply, network: &mut Network) -> Reply {
        match (self, call) {
            (Flaw::ClearsOnSending, Call::Send(bridge, link)) => {
                let end = network.map.end_at(bridge, link).expect("an accepted send is of an end");
                network.records[link][end.side].sent = offers(&network.map, end, network.bridges[bridge].view);
            }
            (Flaw::CutForgets, Call::Cut(bridge, link)) => {
                let end = network.map.end_at(bridge, link).expect("an accepted cut is of an end");
                let records = &mut network.records[link][end.side];
                records.held = Held::Nothing;
                records.sent.fill(NONE);
            }
            (Flaw::CutsBothEnds, Call::Cut(_, link)) => network.down[link] = [true; 2],
            (Flaw::RestoresBothEnds, Call::Restore(_, link)) => network.down[link] = [false; 2],
            (Flaw::LatestKeepsPlace, Call::Deliver(place) | Call::Lose(place)) => {
                before.flight.swap_remove(place);
                network.flight = before.flight;
            }
            (_, Call::Update(bridge, _)) if network.bridges[bridge] != before.bridges[bridge] => {
                for &end in &network.ends[bridge] {
                    let (bridge, before) = (network.bridges[bridge], &before.records[end.link][end.side]);
                    let site = Site { map: &network.map, end, bridge, before };
                    self.spoil_update(&site, &mut network.records[end.link][end.side]);
                }
            }
            _ => return self.spoil_answer(&before, reply, network),
        }
        reply
    }

    fn spoil_answer(self, before: &Before, reply: Reply, network: &mut Network) -> Reply {
        let Reply::Answered(answer, message) = reply else { return reply };
        let end = message.from.far();
        let bridge = network.bridges[network.map.bridge_at(end)];
        let site = Site { map: &network.map, end, bridge, before: &before.records[end.link][end.side] };
        let answer = self.spoil_delivery(&site, message, answer, &mut network.records[end.link][end.side]);
        Reply::Answered(answer, message)
    }
}
