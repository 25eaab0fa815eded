//! Document 01's known examples E1 to E8, by the compiled calls of layers 1 and 2 alone: the network and its messages are this file's.

use bench_tests::call::{
    self, EndBuffers, Known, Lent, Receiver, FILLED, FLAGS, LIMITS, MESSAGE, RECORD, RECORDS, TABLE, VERDICT,
};
use bench_tests::view::NONE;

const BRIDGES: usize = 3;
const ENDS: [u8; 6] = [0, 1, 1, 2, 0, 2];
const COSTS: [[u32; 3]; 2] = [[1, 1, 3], [0, 1, 3]];
const DEST: usize = 0;

const STALE: u32 = 0;
const AGREED: u32 = 1;
const NOTED: u32 = 2;

type Message = [u32; MESSAGE];

struct Network {
    tables: [Vec<u32>; 2],
    view: [u8; BRIDGES],
    number: [u16; BRIDGES],
    records: Vec<u32>,
    sent: Vec<u32>,
    held: Vec<u32>,
    down: [u8; FLAGS],
}

impl Network {
    fn fresh() -> Network {
        let tables = COSTS.map(|costs| {
            let mut table = vec![0; TABLE];
            assert_eq!(call::distances(BRIDGES, 3, &ENDS, &costs, &mut table), FILLED);
            table
        });
        let (records, sent, held) = (vec![7; RECORDS], vec![7; LIMITS], vec![7; LIMITS]);
        let mut network = Network { tables, view: [0; BRIDGES], number: [1; BRIDGES], records, sent, held, down: [0; FLAGS] };
        for end in 0..6 {
            let (lent, buffers) = network.lend(0, end);
            assert_eq!(call::start_end(lent, end, buffers), 0);
        }
        network
    }

    /// A view, and the buffers of an end.
    fn lend(&mut self, view: u8, end: usize) -> (Lent<'_>, EndBuffers<'_>) {
        let view = usize::from(view);
        let lent = Lent { bridges: BRIDGES, links: 3, ends: &ENDS, costs: &COSTS[view], table: &self.tables[view] };
        let fields = &mut self.records[RECORD * end..RECORD * (end + 1)];
        (lent, EndBuffers { fields, sent: &mut self.sent, held: &mut self.held })
    }

    fn end(bridge: usize, link: usize) -> usize {
        (2 * link..2 * link + 2).find(|&end| usize::from(ENDS[end]) == bridge).expect("the bridge is on the link")
    }

    fn update(&mut self, bridge: usize, view: u8) {
        self.view[bridge] = view;
        self.number[bridge] += 1;
        for end in (0..6).filter(|&end| usize::from(ENDS[end]) == bridge) {
            let (lent, buffers) = self.lend(view, end);
            assert_eq!(call::update_end(lent, 2, view, end, buffers), 0);
        }
    }

    fn message(&self, bridge: usize, link: usize) -> Message {
        let end = Network::end(bridge, link);
        let mut message = [0; MESSAGE];
        let fields = &self.records[RECORD * end..RECORD * (end + 1)];
        assert_eq!(call::carry(2, self.view[bridge], self.number[bridge], fields, &mut message), 0);
        message
    }

    /// Takes a message of the bridge to the other end of the link; what the delivery answers.
    fn deliver(&mut self, bridge: usize, link: usize, message: Message) -> u32 {
        let end = Network::end(bridge, link) ^ 1;
        let at = usize::from(ENDS[end]);
        let receiver = Receiver { views: 2, view: self.view[at], number: self.number[at], end };
        let mut answer = [9; 3];
        let (lent, buffers) = self.lend(receiver.view, end);
        assert_eq!(call::deliver_end(lent, receiver, &message, buffers, &mut answer), 0);
        let taken = if answer[0] == STALE { [0, 0] } else { [message[1], message[0]] };
        assert_eq!(answer[1..], taken);
        answer[0]
    }

    fn send(&mut self, bridge: usize, link: usize) -> u32 {
        self.deliver(bridge, link, self.message(bridge, link))
    }

    /// Every bridge sends over each of its links, then all is delivered.
    fn round(&mut self) {
        let messages: Vec<(usize, usize, Message)> = (0..6)
            .map(|end| (usize::from(ENDS[end]), end / 2))
            .map(|(bridge, link)| (bridge, link, self.message(bridge, link)))
            .collect();
        for (bridge, link, message) in messages {
            assert_eq!(self.deliver(bridge, link, message), AGREED);
        }
    }

    fn distance(&self, bridge: usize) -> u32 {
        self.tables[usize::from(self.view[bridge])][16 * bridge + DEST]
    }

    /// A bridge's view, and what its forwarding choice reads besides.
    fn choice(&self, bridge: usize) -> (Lent<'_>, Known<'_>) {
        let view = usize::from(self.view[bridge]);
        let lent = Lent { bridges: BRIDGES, links: 3, ends: &ENDS, costs: &COSTS[view], table: &self.tables[view] };
        (lent, Known { views: 2, down: &self.down, records: &self.records, sent: &self.sent, held: &self.held })
    }

    fn port(&self, bridge: usize) -> Option<usize> {
        let (lent, known) = self.choice(bridge);
        let mut out = [0];
        assert_eq!(call::port(lent, known, bridge, DEST, &mut out), 0);
        (out[0] != NONE).then_some(out[0] as usize)
    }

    /// The number of the case, and the link that is named.
    fn verdict(&self, bridge: usize) -> (u32, Option<usize>) {
        let (lent, known) = self.choice(bridge);
        let mut out = [0; VERDICT];
        assert_eq!(call::verdict(lent, known, bridge, DEST, &mut out), 0);
        (out[0], (out[1] != NONE).then_some(out[1] as usize))
    }

    fn verdicts(&self) -> [(u32, Option<usize>); BRIDGES] {
        [0, 1, 2].map(|bridge| self.verdict(bridge))
    }

    fn ports(&self) -> [Option<usize>; BRIDGES] {
        [0, 1, 2].map(|bridge| self.port(bridge))
    }

    /// The last bridge of the path, and the links crossed: a frame crosses where both ends are up.
    fn path(&self, start: usize) -> (usize, usize) {
        let (mut at, mut hops) = (start, 0);
        let is_crossed = |link: usize| self.down[2 * link..2 * link + 2] == [0; 2];
        while let Some(link) = self.port(at).filter(|&link| hops < BRIDGES && is_crossed(link)) {
            at = usize::from(ENDS[Network::end(at, link) ^ 1]);
            hops += 1;
        }
        (at, hops)
    }
}

#[test]
fn known_examples_e1_to_e8() {
    let mut network = Network::fresh();
    let columns = [0, 1].map(|view| [0, 16, 32].map(|p: usize| network.tables[view][p]));
    assert_eq!(columns, [[0, 1, 2], [0, 4, 3]], "E1");
    assert_eq!(network.ports(), [None; 3], "E2");
    assert_eq!(network.verdicts(), [(1, None), (4, Some(0)), (4, Some(1))], "E2");

    network.round();
    network.round();
    assert_eq!(network.ports(), [None, Some(0), Some(1)], "E3");
    assert_eq!(network.verdicts(), [(1, None), (0, Some(0)), (0, Some(1))], "E3");
    assert_eq!(network.path(2), (0, 2), "E3");
    let old = network.message(1, 1);
    assert_eq!(old[1], 1);

    network.down[..2].fill(1);
    network.update(1, 1);
    assert_eq!(network.distance(1), 4, "E4");
    assert_eq!(network.port(1), None, "E4");
    assert_eq!(network.path(2), (1, 1), "E4");
    // the view that bridge 1 still holds over link 1 offers NONE
    assert_eq!(network.verdicts(), [(1, None), (5, Some(1)), (0, Some(1))], "E4");

    network.update(2, 1);
    assert_eq!(network.port(2), Some(2), "E5");
    assert_eq!(network.verdicts(), [(1, None), (5, Some(1)), (0, Some(2))], "E5");

    assert_eq!(network.send(2, 1), AGREED);
    let end = Network::end(1, 1);
    assert_eq!((network.held[16 * end + DEST], network.sent[16 * end + DEST]), (4, 2), "E6");
    assert_eq!(network.port(1), None, "E6");
    assert_eq!(network.verdicts(), [(1, None), (6, Some(1)), (0, Some(2))], "E6");

    assert_eq!(network.send(1, 1), AGREED);
    assert_eq!(network.send(2, 1), AGREED);
    assert_eq!(network.port(1), Some(1), "E7");
    assert_eq!(network.verdicts(), [(1, None), (0, Some(1)), (0, Some(2))], "E7");

    let before = [network.records.clone(), network.sent.clone(), network.held.clone()];
    assert_eq!(network.deliver(1, 1, old), STALE, "E8");
    assert_eq!([network.records, network.sent, network.held], before, "E8");
}

/// After E3 each end of link 0 down by itself: bridge 1's own end shuts its port, bridge 0's does not.
#[test]
fn a_port_looks_at_its_own_end() {
    let mut network = Network::fresh();
    network.round();
    network.round();
    for (end, flag, ports, case) in [(0, 1, [None, Some(0), Some(1)], 0), (1, 255, [None, None, Some(1)], 3)] {
        network.down[end] = flag;
        assert_eq!(network.ports(), ports, "end {end}");
        assert_eq!(network.verdict(1), (case, Some(0)), "end {end}");
        assert_eq!(network.path(2), (1, 1), "end {end}");
        network.down[end] = 0;
    }
    assert_eq!(network.path(2), (0, 2));
}

/// A message of another view is noted, and held once the receiver goes to that view.
#[test]
fn a_noted_view_is_held_after_the_update() {
    let mut network = Network::fresh();
    network.update(2, 1);
    let end = Network::end(1, 1);
    let fields = |network: &Network| network.records[RECORD * end..RECORD * (end + 1)].to_vec();
    assert_eq!(fields(&network), [0, 255, 0, 0]);
    assert_eq!(network.send(2, 1), NOTED);
    assert_eq!(fields(&network), [2, 1, 0, 0]);
    network.update(1, 1);
    assert_eq!(fields(&network), [2, 1, 2, 1]);
    assert_eq!(network.held[16 * end + DEST], 4);
}
