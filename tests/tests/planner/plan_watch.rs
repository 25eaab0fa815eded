//! Which watched pairs lose their path and when: the planner's figures, and the same by reference/, asked about every pair after every
//! event.

use crate::plan_meaning::Setup;
use crate::plan_told::{count_at, text_at, unless_null};
use crate::text_json::Json;
use reference::network::Network;

/// A line and an event.
pub type Place = (usize, usize);
/// Two bridges by name.
pub type Names = [String; 2];
/// An event, and which pairs lost their path by it, regained it, and have their first one, in the order of watching.
pub type Move = (Place, [Vec<Names>; 3]);

#[derive(Clone, Debug, PartialEq)]
pub struct Outage {
    pub pair: Names,
    pub lost: Place,
    pub regained: Option<Place>,
    /// From the event that took the path away to the one that brings it back, or to the last one; without reports and paths.
    pub events: usize,
}

#[derive(Debug, PartialEq)]
pub struct Figures {
    pub pairs: usize,
    /// Pairs that lost their path, that never had one, and that have not regained it.
    pub lost: usize,
    pub never: usize,
    pub still_lost: usize,
    pub longest: Option<Outage>,
    pub worst: Option<Names>,
    /// As they began, and those of one event in the order of watching.
    pub outages: Vec<Outage>,
    pub moves: Vec<Move>,
}

// ---- from JSON

fn names_of(pair: &Json) -> Names {
    ["from", "to"].map(|name| text_at(pair, name))
}

fn place_of(place: &Json) -> Place {
    (count_at(place, "line"), count_at(place, "event"))
}

fn outage_of(outage: &Json) -> Outage {
    Outage {
        pair: names_of(outage),
        lost: place_of(outage.at("lost")),
        regained: unless_null(outage.at("regained")).map(place_of),
        events: count_at(outage, "events"),
    }
}

fn moves_of(run: &Json) -> Vec<Move> {
    let moved = run.at("told").list().iter().filter(|told| told.at("kind").text() == "moved");
    let pairs = |told: &Json, name: &str| told.at(name).list().iter().map(names_of).collect();
    moved.map(|told| (place_of(told), ["lost", "regained", "gained"].map(|name| pairs(told, name)))).collect()
}

/// The planner's figures.
pub fn figures_of(run: &Json) -> Figures {
    let watch = run.at("watch");
    Figures {
        pairs: count_at(watch, "pairs"),
        lost: count_at(watch, "lost"),
        never: count_at(watch, "never"),
        still_lost: count_at(watch, "still_lost"),
        longest: unless_null(watch.at("longest")).map(outage_of),
        worst: unless_null(watch.at("worst")).map(names_of),
        outages: watch.at("outages").list().iter().map(outage_of).collect(),
        moves: moves_of(run),
    }
}

// ---- by the reference

struct Pair {
    bridges: [usize; 2],
    has_path: bool,
    had_path: bool,
}

/// An outage of a pair, by its place in the order of watching. Events without reports and paths are counted as well.
struct Seen {
    pair: usize,
    lost: Place,
    lost_count: usize,
    regained: Option<(Place, usize)>,
}

/// All that is watched.
#[derive(Default)]
pub struct Watch {
    pairs: Vec<Pair>,
    outages: Vec<Seen>,
    moves: Vec<(Place, [Vec<usize>; 3])>,
    /// How many events there were, without reports and paths.
    count: usize,
}

fn has_path(network: &Network, [from, to]: [usize; 2]) -> bool {
    network.path(from, to).last == to
}

impl Watch {
    /// Watches these from here on, those that are not watched yet.
    pub fn add(&mut self, network: &Network, pairs: &[[usize; 2]]) {
        for &bridges in pairs {
            if self.pairs.iter().all(|pair| pair.bridges != bridges) {
                let has_path = has_path(network, bridges);
                self.pairs.push(Pair { bridges, has_path, had_path: has_path });
            }
        }
    }

    /// After an event that is no report and no path.
    pub fn look(&mut self, network: &Network, place: Place) {
        self.count += 1;
        let mut moved = [(); 3].map(|()| Vec::new());
        for (k, pair) in self.pairs.iter_mut().enumerate() {
            let had = pair.has_path;
            pair.has_path = has_path(network, pair.bridges);
            if had && !pair.has_path {
                self.outages.push(Seen { pair: k, lost: place, lost_count: self.count, regained: None });
                moved[0].push(k);
            } else if !had && pair.has_path {
                let open = self.outages.iter_mut().find(|outage| outage.pair == k && outage.regained.is_none());
                open.into_iter().for_each(|outage| outage.regained = Some((place, self.count)));
                moved[if pair.had_path { 1 } else { 2 }].push(k);
            }
            pair.had_path |= pair.has_path;
        }
        if moved.iter().any(|pairs| !pairs.is_empty()) {
            self.moves.push((place, moved));
        }
    }

    /// No watched pair has lost its path so far, and each has had one.
    pub fn is_untroubled(&self) -> bool {
        self.outages.is_empty() && self.pairs.iter().all(|pair| pair.had_path)
    }

    fn length(&self, outage: &Seen) -> usize {
        outage.regained.map_or(self.count, |regained| regained.1) - outage.lost_count
    }

    /// How long a pair was without a path, all its outages together: one that still is was so longer than one that is not. Nothing where it
    /// has no outage.
    fn total(&self, pair: usize) -> Option<(bool, usize)> {
        let own: Vec<&Seen> = self.outages.iter().filter(|outage| outage.pair == pair).collect();
        let is_lost = own.iter().any(|outage| outage.regained.is_none());
        (!own.is_empty()).then(|| (is_lost, own.iter().map(|outage| self.length(outage)).sum()))
    }

    fn outage(&self, setup: &Setup, seen: &Seen) -> Outage {
        let regained = seen.regained.map(|regained| regained.0);
        Outage { pair: self.names(setup, seen.pair), lost: seen.lost, regained, events: self.length(seen) }
    }

    fn names(&self, setup: &Setup, pair: usize) -> Names {
        self.pairs[pair].bridges.map(|bridge| setup.bridges[bridge].clone())
    }

    pub fn figures(&self, setup: &Setup) -> Figures {
        let outages: Vec<Outage> = self.outages.iter().map(|seen| self.outage(setup, seen)).collect();
        let totals: Vec<Option<(bool, usize)>> = (0..self.pairs.len()).map(|pair| self.total(pair)).collect();
        let most = totals.iter().copied().max().flatten();
        let worst = totals.iter().position(|&total| total.is_some() && total == most);
        // One that is not over is longer than all that are.
        let length = |outage: &Outage| (outage.regained.is_none(), outage.events);
        let longest = outages.iter().map(length).max();
        let names = |pairs: Vec<usize>| pairs.into_iter().map(|pair| self.names(setup, pair)).collect();
        Figures {
            pairs: self.pairs.len(),
            lost: totals.iter().flatten().count(),
            never: self.pairs.iter().filter(|pair| !pair.had_path).count(),
            still_lost: self.outages.iter().filter(|outage| outage.regained.is_none()).count(),
            longest: outages.iter().find(|outage| Some(length(outage)) == longest).cloned(),
            worst: worst.map(|pair| self.names(setup, pair)),
            outages,
            moves: self.moves.iter().map(|(place, moved)| (*place, moved.clone().map(names))).collect(),
        }
    }
}
