//! What a plan of text stands for: its network by names, and of each line the events or the question.

use bench_tests::model::{Call, Model};
use bench_tests::network_random::map_of;
use bench_tests::plan_bytes::{event_field, field};
use reference::network::Network;

/// The network that the first lines name. Names stand in the order of their numbers.
#[derive(Clone, Default)]
pub struct Setup {
    pub bridges: Vec<String>,
    pub links: Vec<String>,
    /// The two bridges of each link.
    pub ends: Vec<[usize; 2]>,
    pub views: Vec<String>,
    /// What each link costs in each view, 0 where it is absent.
    pub costs: Vec<Vec<u32>>,
}

impl Setup {
    pub fn fresh(&self) -> Model {
        let ends: Vec<[u8; 2]> = self.ends.iter().map(|ends| ends.map(|bridge| bridge as u8)).collect();
        Model::of(Network::fresh(map_of(self.bridges.len(), &ends, &self.costs)))
    }

    pub fn bytes(&self) -> Vec<u8> {
        let links = self.ends.iter().map(|ends| field(2, &ends.map(|bridge| bridge as u8)));
        let views =
            self.costs.iter().map(|costs| field(3, &costs.iter().flat_map(|cost| cost.to_be_bytes()).collect::<Vec<u8>>()));
        [vec![field(1, &[self.bridges.len() as u8])], links.collect(), views.collect()].concat().concat()
    }

    /// All pairs of two different bridges: by start, and for each by destination.
    pub fn pairs(&self) -> Vec<[usize; 2]> {
        let bridges = self.bridges.len();
        let pairs = (0..bridges).flat_map(|from| (0..bridges).map(move |to| [from, to]));
        pairs.filter(|[from, to]| from != to).collect()
    }
}

/// What a planner counts on.
#[derive(Clone)]
pub enum Expectation {
    Delivered(usize, usize),
    /// Where a path stops, if that is said.
    Stops(usize, usize, Option<usize>),
    Port(usize, usize, Option<usize>),
    NoOutage,
}

/// What a line stands for. A label stands for nothing that is followed here.
#[derive(Clone)]
pub enum Deed {
    Events(Vec<Call>),
    Watch(Vec<[usize; 2]>),
    Why(usize, usize),
    Expect(Expectation),
}

#[derive(Clone)]
pub struct Line {
    /// From 1, as errors have it.
    pub number: usize,
    pub deed: Deed,
}

#[derive(Clone, Default)]
pub struct Plan {
    pub setup: Setup,
    /// All lines of the text.
    pub text: Vec<String>,
    /// Those after the setup that say something. Where an event is refused, its line is the last, with the events before it.
    pub lines: Vec<Line>,
    /// The line of the refused event, and the number of its refusal.
    pub refused: Option<(usize, u8)>,
    /// What kinds of lines it has.
    pub kinds: Vec<&'static str>,
}

impl Plan {
    pub fn text(&self) -> String {
        self.text.join("\n") + "\n"
    }

    /// The bytes that are meant, without the refused event.
    pub fn bytes(&self) -> Vec<u8> {
        let mut bytes = self.setup.bytes();
        for line in &self.lines {
            if let Deed::Events(calls) = &line.deed {
                bytes.extend(calls.iter().flat_map(|&call| event_field(call).expect("a call that plans have")));
            }
        }
        bytes
    }
}
