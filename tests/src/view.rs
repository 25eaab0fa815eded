//! Arguments of the distance call: random ones, the outcome by reference/, and the comparison.

use crate::call::{self, FILLED, REFUSED, TABLE};
use crate::guard::Buffer;
use crate::random::Random;
use reference::distances::distances_to;

pub use reference::distances::NONE;
pub use reference::map::GREATEST_COST as MAX_COST;

/// What is passed to one call. The buffers may be longer than the counts need.
#[derive(Clone, Debug)]
pub struct Arguments {
    pub bridges: usize,
    pub links: usize,
    pub ends: Vec<u8>,
    pub costs: Vec<u32>,
    pub table: Vec<u32>,
}

#[derive(Clone, Debug, PartialEq)]
pub struct Outcome {
    pub reply: u8,
    pub table: Vec<u32>,
}

impl Arguments {
    /// Links given as (end, end, cost), buffers exactly as long as needed, and a table of unlike numbers.
    pub fn of(bridges: usize, links: &[(u8, u8, u32)]) -> Arguments {
        Arguments {
            bridges,
            links: links.len(),
            ends: links.iter().flat_map(|&(a, b, _)| [a, b]).collect(),
            costs: links.iter().map(|&(_, _, cost)| cost).collect(),
            table: (0..TABLE as u32).map(|p| 3_000_000_000 + p).collect(),
        }
    }

    /// The bridges that each link joins.
    pub fn pairs(&self) -> Vec<[usize; 2]> {
        self.ends.chunks_exact(2).take(self.links).map(|pair| [pair[0].into(), pair[1].into()]).collect()
    }

    /// Calls the compiled function.
    pub fn call(&self) -> Outcome {
        let mut table = Buffer::of(&self.table);
        let reply = call::distances(self.bridges, self.links, &self.ends, &self.costs, table.numbers_mut());
        Outcome { reply, table: table.back() }
    }

    /// What an accepted call does: every pair of bridges holds its distance, every other number is as before.
    pub fn filled(&self) -> Outcome {
        let links = self.pairs();
        let mut table = self.table.clone();
        for dest in 0..self.bridges {
            let column = distances_to(dest, self.bridges, &links, &self.costs[..self.links]);
            for (bridge, distance) in column.into_iter().enumerate() {
                table[16 * bridge + dest] = distance;
            }
        }
        Outcome { reply: FILLED, table }
    }

    /// What a refused call does: nothing.
    pub fn refused(&self) -> Outcome {
        Outcome { reply: REFUSED, table: self.table.clone() }
    }
}

/// Says where an outcome differs from the expected one.
pub fn compare(expected: &Outcome, found: &Outcome) -> Result<(), String> {
    if found.reply != expected.reply {
        return Err(format!("reply {} in place of {}", found.reply, expected.reply));
    }
    if found.table.len() != expected.table.len() {
        return Err(format!("{} numbers in place of {}", found.table.len(), expected.table.len()));
    }
    for (p, (e, f)) in expected.table.iter().zip(&found.table).enumerate() {
        if e != f {
            return Err(format!("row {} column {}: {f} in place of {e}", p / 16, p % 16));
        }
    }
    Ok(())
}

fn random_cost(random: &mut Random) -> u32 {
    match random.below(10) {
        0 | 1 => 0,
        2 | 3 => 1,
        4 | 5 => MAX_COST,
        6 => 1 + random.below(10) as u32,
        _ => 1 + random.below(MAX_COST as usize) as u32,
    }
}

fn random_link_count(random: &mut Random) -> usize {
    match random.below(8) {
        0 => 0,
        1 => 32,
        _ => random.below(33),
    }
}

/// Two different bridges: those of an earlier link, or of a chain through all bridges, or any.
fn random_pair(random: &mut Random, bridges: usize, chained: bool, ends: &[u8]) -> (u8, u8) {
    let l = ends.len() / 2;
    let (a, b) = if l > 0 && random.one_in(4) {
        let twin = random.below(l);
        (ends[2 * twin], ends[2 * twin + 1])
    } else if chained && l + 1 < bridges {
        (l as u8, l as u8 + 1)
    } else {
        let a = random.below(bridges);
        (a as u8, ((a + 1 + random.below(bridges - 1)) % bridges) as u8)
    };
    if random.one_in(2) {
        (a, b)
    } else {
        (b, a)
    }
}

/// An accepted call of that many bridges. What lies past the need is random, and mostly no bridge and no cost.
pub fn random_arguments(random: &mut Random, bridges: usize) -> Arguments {
    let links = random_link_count(random);
    let chained = random.one_in(2);
    let mut ends = Vec::new();
    for _ in 0..links {
        let (a, b) = random_pair(random, bridges, chained, &ends);
        ends.extend([a, b]);
    }
    let mut costs: Vec<u32> = (0..links).map(|_| random_cost(random)).collect();
    let mut table = random.numbers(TABLE);
    if random.one_in(2) {
        let [e, c, t] = [9, 5, 40].map(|most| random.below(most));
        ends.extend(random.numbers(e).into_iter().map(|x| x as u8));
        costs.extend(random.numbers(c));
        table.extend(random.numbers(t));
    }
    Arguments { bridges, links, ends, costs, table }
}

// ---- damage

/// What is added to a number that is already out of its range.
pub const LARGE: [usize; 5] = [0, 1, 100, (1 << 32) - 17, usize::MAX >> 1];

impl Arguments {
    /// Damages one point of an accepted call, by a kind below 8. False where there is nothing of that kind.
    pub fn damage(&mut self, random: &mut Random, kind: usize) -> bool {
        let link = random.below(self.links.max(1));
        let side = random.below(2);
        let large = random.pick(&LARGE);
        match kind {
            0 => self.bridges = random.pick(&[0, 1, 17 + large]),
            1 => self.overfill(33 + random.below(4), side * large),
            2 => self.table.truncate(random.below(TABLE)),
            _ if self.links == 0 => return false,
            3 => self.ends[2 * link + side] = self.ends[2 * link + 1 - side],
            4 => self.ends[2 * link + side] = (self.bridges + random.below(256 - self.bridges)) as u8,
            5 => self.costs[link] = MAX_COST + 1 + random.below((u32::MAX - MAX_COST) as usize) as u32,
            6 => self.ends.truncate(random.below(2 * self.links)),
            _ => self.costs.truncate(random.below(self.links)),
        }
        true
    }

    /// More links than there may be, in buffers that hold them all; and then some, in buffers that do not.
    fn overfill(&mut self, links: usize, more: usize) {
        self.ends.truncate(2 * self.links);
        self.costs.truncate(self.links);
        self.ends.extend([0, 1].repeat(links - self.links));
        self.costs.resize(links, 1);
        self.links = links + more;
    }
}
