//! Runs with known answers.

use crate::model::{Call, Reply};
use crate::network_random::map_of;
use crate::network_run::Run;
use crate::random::Random;
use crate::verdict::Verdict;
use reference::records::Answer;

/// The triangle of document 01 with two views, fresh.
pub fn known_run(costs: [Vec<u32>; 2]) -> Run {
    let map = map_of(3, &[[0, 1], [1, 2], [0, 2]], &costs);
    Run::fresh(&mut Random::new(7), &map).expect("a fresh network")
}

pub fn triangle() -> Run {
    known_run([vec![1, 1, 3], vec![0, 1, 3]])
}

/// Each of these panics where the two differ.
impl Run {
    /// An accepted call.
    pub fn make(&mut self, call: Call) -> Reply {
        match self.ask(call) {
            Ok(Ok(reply)) => reply,
            other => panic!("{call:?}: {other:?}"),
        }
    }

    pub fn refused(&mut self, call: Call, number: u8) {
        assert_eq!(self.ask(call), Ok(Err(number)), "{call:?}");
    }

    /// The last message in flight is delivered.
    fn deliver_last(&mut self) -> (Answer, u16, usize) {
        match self.make(Call::Deliver(self.network().flight.len() - 1)) {
            Reply::Answered(answer, message) => (answer, message.number, message.view),
            other => panic!("{other:?}"),
        }
    }

    /// Sends over a link and delivers: the answer, and the number and view of the message.
    pub fn tell(&mut self, bridge: usize, link: usize) -> (Answer, u16, usize) {
        self.make(Call::Send(bridge, link));
        self.deliver_last()
    }

    pub fn distance_and_port(&mut self, bridge: usize, dest: usize) -> (u32, Option<usize>) {
        match self.make(Call::Report(dest)) {
            Reply::Report(rows) => rows[bridge],
            other => panic!("{other:?}"),
        }
    }

    /// What is named of each bridge.
    pub fn named(&mut self, dest: usize) -> Vec<Verdict> {
        let bridges = 0..self.map().bridge_count();
        bridges.map(|bridge| self.verdict(bridge, dest).unwrap_or_else(|difference| panic!("{difference}"))).collect()
    }

    pub fn ports(&mut self, dest: usize) -> Vec<Option<usize>> {
        (0..self.map().bridge_count()).map(|b| self.distance_and_port(b, dest).1).collect()
    }
}
