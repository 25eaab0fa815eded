//! The update of a bridge by layer 2 alone: its arguments, the compiled call on them, and what it has to answer.

use crate::call::{self, REFUSED, UPDATE};
use crate::entry::{is_view, is_view_count};
use crate::guard::Buffer;
use crate::random::Random;
use reference::map::{Map, View};
use reference::network::Network;
use reference::records::Bridge;

#[derive(Clone, Debug)]
pub struct BridgeUpdate {
    pub views: usize,
    pub present: u8,
    pub number: u16,
    pub view: u8,
    pub out: Vec<u32>,
}

/// The reply, and the lent list afterwards.
pub type Reply = (u8, Vec<u32>);

impl BridgeUpdate {
    /// Often in range, and often at a bound of it.
    pub fn random(random: &mut Random) -> BridgeUpdate {
        let most = 1 + random.below(32);
        let views = random.pick(&[most, most, most, most, most, most, 0, 33, 256 + most]);
        let [present, other] = [0; 2].map(|_| random.below(most) as u8);
        let far = random.pick(&[most as u8, 255]);
        let any = random.word() as u16;
        let length = random.pick(&[2, 2, 2, 2, 3, 8, 1, 0]);
        BridgeUpdate {
            views,
            present: random.pick(&[present, present, present, present, far]),
            number: random.pick(&[any, any, 0, 1, 65_534, 65_535, 65_535]),
            view: random.pick(&[other, other, present, present, far]),
            out: random.numbers(length),
        }
    }

    /// Makes the compiled call, on a copy of the list.
    pub fn run(&self) -> Reply {
        let mut out = Buffer::of(&self.out);
        let reply = call::update_bridge(self.views, self.present, self.number, self.view, out.numbers_mut());
        (reply, out.back())
    }

    /// Every reason for which it is refused with 17.
    pub fn causes(&self) -> Vec<&'static str> {
        let causes = [
            ("out short", self.out.len() < UPDATE),
            ("view count", !is_view_count(self.views)),
            ("no such present view", !is_view(self.present.into(), self.views)),
        ];
        causes.into_iter().filter(|(_, holds)| *holds).map(|(cause, _)| cause).collect()
    }

    pub fn stays(&self) -> bool {
        self.present == self.view
    }

    /// The reply with these numbers in front of the list.
    pub fn answers(&self, numbers: [u32; UPDATE]) -> Reply {
        let mut out = self.out.clone();
        out[..UPDATE].copy_from_slice(&numbers);
        (0, out)
    }

    pub fn refuses(&self, number: u8) -> Reply {
        (number, self.out.clone())
    }

    /// By reference/: the update of one of two bridges that no link joins.
    pub fn expected(&self) -> Reply {
        if !self.causes().is_empty() {
            return self.refuses(REFUSED);
        }
        let mut network = Network::fresh(Map::given(2, Vec::new(), vec![View::default(); self.views]));
        let before = Bridge { view: self.present.into(), number: self.number };
        network.bridges[1] = before;
        if let Err(refusal) = network.update(1, self.view) {
            return self.refuses(refusal.number());
        }
        let after = network.bridges[1];
        if after == before {
            return self.answers([0, 0]);
        }
        assert_eq!(after.view, self.view.into());
        self.answers([1, after.number.into()])
    }
}
