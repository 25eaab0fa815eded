//! What the calls of layer 2 do, by reference/, and what is counted of them.

use crate::call::{MESSAGE, RECORD, REFUSED, VERDICT};
use crate::case::{Call, Case, Outcome};
use crate::flaw::{ask, Flaw, Site};
use crate::records_numbers::{
    agreement_number, answer_numbers, fields_of, put_fresh_limits, put_limits, records_in, RECORD_FIELDS,
};
use crate::verdict::{
    name_of, shut_by_names, verdict, verdict_events, verdict_numbers, Choice, NO_LINK, OWN_END_DOWN, SENT_ON_OTHER,
};
use crate::view::NONE;
use reference::map::{End, Map, View};
use reference::network::Network;
use reference::records::{offer, Answer, Bridge, Message, Records};
use std::cmp::Ordering;

/// The outcome that is expected, and what happened on the way, to be counted.
pub struct Expected {
    pub outcome: Outcome,
    pub events: Vec<String>,
}

impl Case {
    /// What each call does, for every input. A flaw is put into the rules.
    pub fn expected(&self, which: Call, flaw: Option<Flaw>) -> Expected {
        let [fields, sent, held, out] = [&self.fields, &self.sent, &self.held, &self.out].map(Vec::clone);
        let mut outcome = Outcome { reply: 0, fields, sent, held, out };
        let causes = self.causes(which);
        if !causes.is_empty() {
            outcome.reply = REFUSED;
            let alone = if causes.len() == 1 { "refused by this alone" } else { "refused among others by this" };
            return Expected { outcome, events: causes.iter().map(|c| format!("{alone}: {c}")).collect() };
        }
        let o = &mut outcome;
        let events = match which {
            Call::Offer => self.expect_offer(flaw, o),
            Call::Start => self.expect_start(flaw, o),
            Call::Update => self.expect_update(flaw, o),
            Call::Carry => self.expect_carry(o),
            Call::Deliver => self.expect_delivery(flaw, o),
            Call::Port => return self.expect_port(flaw, outcome),
            Call::Verdict => return self.expect_verdict(flaw, outcome),
        };
        Expected { outcome, events: events.into_iter().map(String::from).collect() }
    }

    /// The lent view in this place. The views before it are empty: they are not lent, so a look into them panics.
    fn map(&self, place: usize) -> Map {
        let a = &self.lent;
        let column = |dest: usize| (0..a.bridges).map(|bridge| a.table[16 * bridge + dest]).collect();
        let mut views = vec![View::default(); place];
        views.push(View { costs: a.costs[..a.links].to_vec(), distances: (0..a.bridges).map(column).collect() });
        Map::given(a.bridges, a.pairs(), views)
    }

    fn end_of(number: usize) -> End {
        End { link: number / 2, side: number % 2 }
    }

    /// The records of the case's end.
    fn own_records(&self) -> Records {
        records_in(&self.fields, &self.sent, &self.held, self.end, self.lent.bridges)
    }

    /// Writes the records of the case's end.
    fn put(&self, map: &Map, records: &Records, o: &mut Outcome) {
        o.fields[..RECORD].copy_from_slice(&fields_of(records));
        put_limits(map, Case::end_of(self.end), records, &mut o.sent, &mut o.held);
    }

    fn expect_offer(&self, flaw: Option<Flaw>, o: &mut Outcome) -> Vec<&'static str> {
        let (map, end) = (self.map(0), Case::end_of(self.end));
        let offer = offer(&map, end, 0, self.dest);
        o.out[0] = flaw.map_or(offer, |flaw| flaw.spoil_offer(&map, end, 0, self.dest));
        let [near, far] = [end, end.far()].map(|end| map.distance(0, self.dest, map.bridge_at(end)));
        let reason = match near.cmp(&far) {
            _ if map.cost(0, end.link) == 0 => "absent link",
            _ if near == NONE => "no path",
            Ordering::Equal => "as far as the far bridge",
            Ordering::Greater => "farther than the far bridge",
            Ordering::Less if offer == NONE => "sum beyond NONE",
            Ordering::Less if far == NONE => "offer to a bridge without a path",
            Ordering::Less => "offer to a farther bridge",
        };
        vec![reason]
    }

    fn expect_start(&self, flaw: Option<Flaw>, o: &mut Outcome) -> Vec<&'static str> {
        let (map, end) = (self.map(0), Case::end_of(self.end));
        let mut records = Records::fresh(&map, end);
        if let Some(flaw) = flaw {
            flaw.spoil_start(&map, end, &mut records);
        }
        o.fields[..RECORD].copy_from_slice(&fields_of(&records));
        put_fresh_limits(&map, end, &records, &mut o.sent, &mut o.held);
        let fits = self.fields.iter().zip(RECORD_FIELDS).all(|(&number, (_, values))| number < values);
        vec![
            if records.sent.iter().any(|&limit| limit != NONE) { "some offer" } else { "no offer" },
            if fits { "over a record" } else { "over numbers that are no record" },
        ]
    }

    fn expect_update(&self, flaw: Option<Flaw>, o: &mut Outcome) -> Vec<&'static str> {
        let view = usize::from(self.view);
        let (map, end, before) = (self.map(view), Case::end_of(self.end), self.own_records());
        let mut after = before.clone();
        after.update(&map, end, view);
        if let Some(flaw) = flaw {
            let bridge = Bridge { view, number: self.number };
            flaw.spoil_update(&Site { map: &map, end, bridge, before: &before }, &mut after);
        }
        self.put(&map, &after, o);
        let received = match before.received {
            None => "nothing received",
            Some(received) if received == view => "adopted",
            Some(_) => "another view received",
        };
        let sent = if before.sent == after.sent { "limits kept" } else { "limit lowered" };
        vec![received, sent, if self.held == o.held { "held row kept" } else { "held row changed" }]
    }

    /// What is put in flight at an end with this record. Its link and the costs do not matter.
    fn expect_carry(&self, o: &mut Outcome) -> Vec<&'static str> {
        let view = View { costs: vec![0], distances: vec![vec![0; 2]; 2] };
        let mut network = Network::fresh(Map::given(2, vec![[0, 1]], vec![view]));
        network.bridges[0] = Bridge { view: self.view.into(), number: self.number };
        network.records[0][0] = records_in(&self.fields, &self.sent, &self.held, 0, 0);
        network.send(0, 0).expect("the send is accepted");
        let Message { view, number, discarded, .. } = network.flight[0];
        o.out[..MESSAGE].copy_from_slice(&[view as u32, number.into(), discarded.into()]);
        vec!["carried"]
    }

    fn expect_delivery(&self, flaw: Option<Flaw>, o: &mut Outcome) -> Vec<&'static str> {
        let bridge = Bridge { view: self.view.into(), number: self.number };
        let (map, end, before) = (self.map(bridge.view), Case::end_of(self.end), self.own_records());
        let [number, discarded] = [1, 2].map(|k| agreement_number(self.message[k]));
        let message = Message { from: end.far(), view: self.message[0] as usize, number, discarded };
        let mut after = before.clone();
        let mut answer = after.deliver(&map, end, bridge, message);
        if let Some(flaw) = flaw {
            let site = Site { map: &map, end, bridge, before: &before };
            answer = flaw.spoil_delivery(&site, message, answer, &mut after);
        }
        self.put(&map, &after, o);
        o.out[..MESSAGE].copy_from_slice(&answer_numbers(answer, message));
        let mut events = self.delivery_events(answer, message, &before, &after);
        if self.held != o.held {
            events.push("held row changed");
        }
        events
    }

    fn delivery_events(&self, answer: Answer, message: Message, before: &Records, after: &Records) -> Vec<&'static str> {
        let order = match message.number.cmp(&before.highest) {
            Ordering::Less => "number below",
            Ordering::Equal => "number equal",
            Ordering::Greater => "number above",
        };
        let outcome = match (answer, message.discarded == self.number) {
            (Answer::Stale, false) => "stale",
            (Answer::Stale, true) => "stale with a report",
            (Answer::Agreed, false) => "agreed",
            (Answer::Agreed, true) => "agreed and cleared",
            (Answer::Noted, false) => "noted",
            (Answer::Noted, true) => "noted and cleared",
        };
        let mut events = vec![order, outcome, if self.true_distances { "true distances" } else { "other distances" }];
        let raised = before.sent.iter().zip(&after.sent).any(|(before, after)| before < after);
        let features = [
            ("clearing raised a limit", raised),
            ("number 0", message.number == 0),
            ("number 65535", message.number == 65_535),
            ("flag above 1", self.fields[3] > 1),
        ];
        events.extend(features.into_iter().filter(|feature| feature.1).map(|feature| feature.0));
        events
    }
}

// ---- the forwarding choice

impl Case {
    /// A network whose bridges are all on the lent view. By the flaw every held row has limits.
    fn network(&self, flaw: Option<Flaw>) -> Network {
        let mut network = Network::fresh(self.map(0));
        for (link, sides) in network.records.iter_mut().enumerate() {
            for (side, records) in sides.iter_mut().enumerate() {
                let end = 2 * link + side;
                let mut fields = self.records[RECORD * end..RECORD * (end + 1)].to_vec();
                if flaw == Some(Flaw::HoldingIgnored) {
                    fields[3] = 1;
                }
                *records = records_in(&fields, &self.sent, &self.held, end, self.lent.bridges);
            }
        }
        let flags = self.down.chunks_exact(2).take(self.lent.links);
        network.down = flags.map(|flags| [flags[0], flags[1]].map(|flag| flag != 0)).collect();
        network
    }

    fn expect_port(&self, flaw: Option<Flaw>, mut outcome: Outcome) -> Expected {
        let mut network = self.network(flaw);
        let port = ask(flaw, &mut network, self.dest, |network| network.port(self.bridge, self.dest));
        outcome.out[0] = port.map_or(NONE, |end| end.link as u32);
        let failed = shut_by_names(&network, self.bridge, self.dest);
        assert!(flaw.is_some() || port.is_none() != failed.is_empty(), "{port:?} beside {failed:?}");
        let mut events = match failed[..] {
            [] => self.open_events(&network),
            [one] => vec![format!("closed by {one} alone")],
            _ => vec!["closed by several".into()],
        };
        events.extend(self.far_events(&network, &failed));
        Expected { outcome, events }
    }

    fn expect_verdict(&self, flaw: Option<Flaw>, mut outcome: Outcome) -> Expected {
        let mut network = self.network(flaw);
        let named = ask(flaw, &mut network, self.dest, |network| verdict(flaw, network, self.bridge, self.dest));
        assert!(!self.true_distances || named.0 != NO_LINK, "no link reaches a true distance");
        outcome.out[..VERDICT].copy_from_slice(&verdict_numbers(named));
        let mut events = verdict_events(&network, self.bridge, self.dest);
        if !self.true_distances {
            events.push(format!("{}, by other distances", events[0]));
        }
        Expected { outcome, events }
    }

    fn open_events(&self, network: &Network) -> Vec<String> {
        let ends = &network.ends[self.bridge];
        let up = ends.iter().all(|&end| network.is_up(end));
        let events = [
            if ends.len() > 1 { "open, of several links" } else { "open, of one link" },
            if up { "open with every own end up" } else { "open beside an own end that is down" },
            if self.true_distances { "open by true distances" } else { "open by other distances" },
        ];
        events.map(String::from).into()
    }

    /// What a look at the far ends, which the choice does not take, would turn round.
    fn far_events(&self, network: &Network, failed: &[&str]) -> Vec<String> {
        let Some(choice) = Choice::of(network, self.bridge, self.dest) else { return Vec::new() };
        let far_up = |end: End| network.is_up(end.far());
        let is_alone = |condition: &str| failed == [condition];
        let low = choice.low.iter().chain(&choice.low_down).filter(|&&end| end != choice.chosen);
        let low_far_up = low.copied().any(far_up);
        let events = [
            ("open, the far end down", failed.is_empty() && !far_up(choice.chosen)),
            ("open, a low limit where only the far end is up", failed.is_empty() && low_far_up),
            ("closed by own end down alone, the far end up", is_alone(name_of(OWN_END_DOWN)) && far_up(choice.chosen)),
            ("closed by sent too low on another link alone, no far end up", is_alone(SENT_ON_OTHER) && !low_far_up),
        ];
        events.into_iter().filter(|event| event.1).map(|event| event.0.into()).collect()
    }
}
