//! Pairs of bridges that are watched: when each loses its path, and when it regains it.

use crate::proved::field::Event;
use crate::proved::library::{path_end, Network};

/// A point of the plan: the line, the event after which it is (numbered from 0, reports and paths too), how many events other than
/// reports and paths there had been, and the stretch.
#[derive(Clone, Copy, Debug, PartialEq)]
pub struct Moment {
    pub line: usize,
    pub event: usize,
    pub changes: usize,
    pub stretch: usize,
}

/// A pair was lost, and perhaps regained.
#[derive(Clone, Copy, Debug, PartialEq)]
pub struct Outage {
    pub lost: Moment,
    pub regained: Option<Moment>,
}

impl Outage {
    /// Its length in events, to the plan's end where it is not over. Reports and paths take no time.
    pub fn length(&self, changes: usize) -> usize {
        self.regained.map_or(changes, |moment| moment.changes) - self.lost.changes
    }

    /// One that is not over is longer than any that is.
    fn rank(&self, changes: usize) -> (bool, usize) {
        (self.regained.is_none(), self.length(changes))
    }
}

#[derive(Clone, Debug)]
pub struct Watched {
    pub start: usize,
    pub dest: usize,
    /// Is a frame delivered now? Was one at any time since it is watched?
    pub reaches: bool,
    pub has_reached: bool,
    pub outages: Vec<Outage>,
}

impl Watched {
    /// How many events it was without a path, in all its outages.
    pub fn without(&self, changes: usize) -> usize {
        self.outages.iter().map(|outage| outage.length(changes)).sum()
    }

    /// One that is still lost at the end is worse off than any that is not.
    fn rank(&self, changes: usize) -> (bool, usize) {
        (!self.reaches, self.without(changes))
    }
}

#[derive(Clone, Debug, Default)]
pub struct Watch {
    pub pairs: Vec<Watched>,
    /// The paths of all of them, as events in bytes.
    question: Vec<u8>,
}

/// Which pairs an event took the path from, which it gave it back, and which have one for the first time.
#[derive(Clone, Debug, Default, PartialEq)]
pub struct Moved {
    pub lost: Vec<(usize, usize)>,
    pub regained: Vec<(usize, usize)>,
    pub gained: Vec<(usize, usize)>,
}

impl Moved {
    pub fn is_empty(&self) -> bool {
        self.lost.is_empty() && self.regained.is_empty() && self.gained.is_empty()
    }
}

impl Watch {
    /// These pairs are watched from here on.
    pub fn add(&mut self, pairs: &[(usize, usize)], network: &mut Network) -> Result<(), u8> {
        for &(start, dest) in pairs {
            if self.pairs.iter().any(|pair| (pair.start, pair.dest) == (start, dest)) {
                continue;
            }
            let question = Event::Path { start: start as u8, dest: dest as u8 }.bytes();
            let reaches = path_end(&network.carry_out(&question)?).delivered;
            self.question.extend(question);
            self.pairs.push(Watched { start, dest, reaches, has_reached: reaches, outages: Vec::new() });
        }
        Ok(())
    }

    /// Asks for all of them after an event.
    pub fn look(&mut self, network: &mut Network, moment: Moment) -> Result<Moved, u8> {
        let mut moved = Moved::default();
        if self.pairs.is_empty() {
            return Ok(moved);
        }
        let answers = network.carry_out(&self.question)?;
        for (pair, numbers) in self.pairs.iter_mut().zip(answers.chunks_exact(3)) {
            let reaches = path_end(numbers).delivered;
            match (pair.reaches, reaches) {
                (true, false) => {
                    moved.lost.push((pair.start, pair.dest));
                    pair.outages.push(Outage { lost: moment, regained: None });
                }
                (false, true) => match pair.outages.last_mut() {
                    Some(outage) => {
                        moved.regained.push((pair.start, pair.dest));
                        outage.regained = Some(moment);
                    }
                    None => moved.gained.push((pair.start, pair.dest)),
                },
                _ => {}
            }
            pair.reaches = reaches;
            pair.has_reached |= reaches;
        }
        Ok(moved)
    }

    /// The pairs that lost their path.
    pub fn lost(&self) -> impl Iterator<Item = &Watched> {
        self.pairs.iter().filter(|pair| !pair.outages.is_empty())
    }

    /// Every outage with its pair, by the event at which it began.
    pub fn outages(&self) -> Vec<(&Watched, Outage)> {
        let mut all: Vec<_> = self.pairs.iter().flat_map(|pair| pair.outages.iter().map(move |&outage| (pair, outage))).collect();
        all.sort_by_key(|(_, outage)| outage.lost.event);
        all
    }

    /// The pairs that are still without a path that they had.
    pub fn still_lost(&self) -> usize {
        self.lost().filter(|pair| !pair.reaches).count()
    }

    /// The pairs that never had a path since they are watched.
    pub fn never(&self) -> Vec<&Watched> {
        self.pairs.iter().filter(|pair| !pair.has_reached).collect()
    }

    /// The longest outage; of equal ones the first.
    pub fn longest(&self, changes: usize) -> Option<(&Watched, Outage)> {
        let outages = self.outages();
        let most = outages.iter().map(|(_, outage)| outage.rank(changes)).max()?;
        outages.into_iter().find(|(_, outage)| outage.rank(changes) == most)
    }

    /// The pair that was longest without a path, all its outages together; of equal ones the first.
    pub fn worst(&self, changes: usize) -> Option<&Watched> {
        let most = self.lost().map(|pair| pair.rank(changes)).max()?;
        self.lost().find(|pair| pair.rank(changes) == most)
    }
}
