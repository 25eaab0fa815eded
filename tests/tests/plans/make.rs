//! Random plans that keep to document 01 but for a rare slip.

use bench_tests::plan_bytes::field;
use bench_tests::random::Random;

const MAX_COST: usize = 16_777_215;

/// A plan in the making, as its fields, with what is needed to go on sensibly.
pub struct Maker<'a> {
    pub random: &'a mut Random,
    pub fields: Vec<Vec<u8>>,
    pub bridges: usize,
    /// The two bridges of each link.
    pub ends: Vec<[usize; 2]>,
    pub views: usize,
    /// Whether each end of each link is down.
    down: Vec<[bool; 2]>,
    /// The link of each message in flight, and the receiver's side of it.
    pub flight: Vec<(usize, usize)>,
}

impl<'a> Maker<'a> {
    /// The setup of a network of random size.
    pub fn new(random: &'a mut Random) -> Maker<'a> {
        let bridges = if random.one_in(3) { 2 + random.below(15) } else { 2 + random.below(5) };
        let views = if random.one_in(8) { 1 + random.below(32) } else { 1 + random.below(4) };
        let mut maker =
            Maker { random, fields: Vec::new(), bridges, ends: Vec::new(), views, down: Vec::new(), flight: Vec::new() };
        maker.set_up();
        maker
    }

    /// One more field. What it changes is followed as if it were accepted: a refused field ends the plan.
    pub fn put(&mut self, tag: u8, value: &[usize]) {
        let bytes: Vec<u8> = value.iter().map(|&n| n as u8).collect();
        self.fields.push(field(tag, &bytes));
        match (tag, value) {
            (5 | 9 | 10, &[bridge, link]) if link < self.ends.len() => self.act_on_end(tag, bridge, link),
            (6 | 8, &[place]) if place < self.flight.len() => drop(self.flight.remove(place)),
            _ => {}
        }
    }

    fn act_on_end(&mut self, tag: u8, bridge: usize, link: usize) {
        let Some(side) = self.ends[link].iter().position(|&end| end == bridge) else { return };
        match tag {
            5 => self.flight.push((link, 1 - side)),
            _ => self.down[link][side] = tag == 9,
        }
    }

    /// The ends that are up or down, each a link and a side of it.
    fn ends_that_are(&self, down: bool) -> Vec<(usize, usize)> {
        let ends = (0..self.down.len()).flat_map(|link| [(link, 0), (link, 1)]);
        ends.filter(|&(link, side)| self.down[link][side] == down).collect()
    }

    /// Is the receiver's end of a message down.
    fn is_stopped(&self, place: usize) -> bool {
        let (link, side) = self.flight[place];
        self.down[link][side]
    }

    fn cost(&mut self) -> usize {
        match self.random.below(12) {
            0 | 1 => 0,
            2 => [1, 255, 256, 65_536, MAX_COST - 1, MAX_COST][self.random.below(6)],
            _ => 1 + self.random.below(6),
        }
    }

    fn set_up(&mut self) {
        self.put(1, &[self.bridges]);
        let links = match self.random.below(10) {
            0 => self.random.below(4),
            1 => 32,
            _ => (self.bridges - 1 + self.random.below(self.bridges + 1)).min(32),
        };
        for l in 0..links {
            // The first ones join all bridges where there are enough of them.
            let a = if l + 1 < self.bridges { l + 1 } else { self.random.below(self.bridges) };
            let b = if l + 1 < self.bridges {
                self.random.below(l + 1)
            } else {
                (a + 1 + self.random.below(self.bridges - 1)) % self.bridges
            };
            let pair = if self.random.one_in(2) { [a, b] } else { [b, a] };
            self.put(2, &pair);
            self.ends.push(pair);
        }
        let mut costs: Vec<usize> = (0..links).map(|_| self.cost()).collect();
        for _ in 0..self.views {
            let value: Vec<u8> = costs.iter().flat_map(|&c| (c as u32).to_be_bytes()).collect();
            self.fields.push(field(3, &value));
            // The next view differs in a few links.
            for _ in 0..self.random.below(4) {
                if links > 0 {
                    let l = self.random.below(links);
                    costs[l] = self.cost();
                }
            }
        }
        self.down = vec![[false; 2]; links];
    }

    /// A number below `n`, and rarely one that is not.
    fn about(&mut self, n: usize) -> usize {
        if n == 0 || self.random.one_in(600) {
            return n + self.random.below(256 - n);
        }
        self.random.below(n)
    }

    /// A message leaves the flight, or is only repeated, wherever that is allowed.
    fn move_message(&mut self, place: usize) {
        let stopped = self.is_stopped(place);
        let tag = match self.random.below(10) {
            0 => 8,
            1 | 2 if !stopped => 7,
            _ if stopped && !self.random.one_in(20) => 8,
            _ => 6,
        };
        self.put(tag, &[place]);
    }

    /// Every end that is up sends, then what is in flight, oldest first or in any order, now and then with a loss.
    pub fn round(&mut self) {
        let up = self.ends_that_are(false);
        while self.flight.len() + up.len() > 64 {
            self.put(8, &[0]);
        }
        for (link, side) in up {
            self.put(5, &[self.ends[link][side], link]);
        }
        let (in_order, careless) = (self.random.one_in(2), self.random.one_in(4));
        while let Some(last) = self.flight.len().checked_sub(1) {
            let place = if in_order { 0 } else { self.random.below(last + 1) };
            if careless {
                self.move_message(place);
            } else {
                let tag = if self.is_stopped(place) { 8 } else { 6 };
                self.put(tag, &[place]);
            }
        }
    }

    /// As many messages as may be in flight, and now and then one more.
    pub fn crowd(&mut self) {
        let up = self.ends_that_are(false);
        let most = if self.random.one_in(20) { 65 } else { 64 };
        while !up.is_empty() && self.flight.len() < most {
            let (link, side) = self.random.pick(&up);
            self.put(5, &[self.ends[link][side], link]);
        }
    }

    /// A cut or a restore of an end, mostly a restore where many are down. A slip is at `other`, or of an end that is already so.
    fn switch(&mut self, other: usize) {
        let down = self.ends_that_are(true);
        let link = self.about(self.ends.len());
        let (link, side) = match self.random.below(3) {
            0 if !down.is_empty() => self.random.pick(&down),
            _ => (link, self.random.below(2)),
        };
        let is_down = self.down.get(link).is_some_and(|down| down[side]) ^ self.random.one_in(300);
        let end = self.ends.get(link).map_or(other, |ends| ends[side]);
        let bridge = if self.random.one_in(300) { other } else { end };
        self.put(if is_down { 10 } else { 9 }, &[bridge, link]);
    }

    /// A send, by an end of the link but for a slip: then by `other`.
    fn send(&mut self, other: usize) {
        let (link, side) = (self.random.below(self.ends.len()), self.random.below(2));
        let shut = self.flight.len() == 64 || self.down[link][side];
        if !shut || self.random.one_in(200) {
            let sender = if self.random.one_in(300) { other } else { self.ends[link][side] };
            self.put(5, &[sender, link]);
        }
    }

    pub fn event(&mut self) {
        let bridge = self.about(self.bridges);
        match self.random.below(100) {
            0..=13 => {
                let view = self.about(self.views);
                self.put(4, &[bridge, view]);
            }
            14..=17 => {
                let view = self.random.below(self.views);
                (0..self.bridges).for_each(|b| self.put(4, &[b, view]));
            }
            18..=37 if !self.ends.is_empty() => self.send(bridge),
            38..=57 => match self.flight.len() {
                0 => {}
                n if self.random.one_in(400) => self.put(6, &[n]),
                n => {
                    let place = self.random.below(n);
                    self.move_message(place);
                }
            },
            58..=63 if !self.ends.is_empty() => self.switch(bridge),
            64..=69 => self.round(),
            70..=71 => {
                self.round();
                self.round();
            }
            72 => self.crowd(),
            73..=87 => self.put(11, &[bridge]),
            _ => {
                let destination = self.about(self.bridges);
                self.put(12, &[bridge, destination]);
            }
        }
    }

    /// What stands at the end, for every destination.
    pub fn conclude(&mut self) {
        for d in 0..self.bridges {
            self.put(11, &[d]);
            let start = self.random.below(self.bridges);
            self.put(12, &[start, d]);
        }
    }
}

/// A sensible plan, with all that its maker knows.
pub fn filled(random: &mut Random) -> Maker<'_> {
    let mut maker = Maker::new(random);
    let events = 10 + maker.random.below(120);
    for _ in 0..events {
        maker.event();
    }
    maker.conclude();
    maker
}

pub fn sensible(random: &mut Random) -> Vec<u8> {
    filled(random).fields.concat()
}
