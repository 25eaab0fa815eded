//! What a line of a plan asks for.

use crate::proved::field::{Event, Field};
use crate::proved::library::Network;

/// The network that a plan sets up, by the planner's names.
#[derive(Clone, Debug, Default, PartialEq)]
pub struct Setup {
    pub bridges: Vec<String>,
    pub links: Vec<Link>,
    pub views: Vec<View>,
}

#[derive(Clone, Debug, PartialEq)]
pub struct Link {
    pub name: String,
    pub ends: [usize; 2],
}

/// A view has a cost for every link, 0 where the link is absent.
#[derive(Clone, Debug, PartialEq)]
pub struct View {
    pub name: String,
    pub costs: Vec<u32>,
}

/// Which message in flight.
#[derive(Clone, Debug, PartialEq)]
pub enum Which {
    Place(u8),
    All,
    /// The oldest of this bridge over this link.
    Oldest {
        bridge: usize,
        link: usize,
    },
}

/// What becomes of it.
#[derive(Clone, Copy, Debug, PartialEq)]
pub enum Fate {
    Deliver,
    Repeat,
    Lose,
}

impl Fate {
    pub fn word(self) -> &'static str {
        match self {
            Fate::Deliver => "deliver",
            Fate::Repeat => "repeat",
            Fate::Lose => "lose",
        }
    }

    pub fn of(self, place: u8) -> Event {
        match self {
            Fate::Deliver => Event::Deliver { place },
            Fate::Repeat => Event::Repeat { place },
            Fate::Lose => Event::Lose { place },
        }
    }
}

/// What a planner says will be.
#[derive(Clone, Debug, PartialEq)]
pub enum Expectation {
    Delivered {
        start: usize,
        dest: usize,
    },
    /// At this bridge, where one is named.
    Stops {
        start: usize,
        dest: usize,
        last: Option<usize>,
    },
    /// On this link, or on none.
    Port {
        bridge: usize,
        dest: usize,
        link: Option<usize>,
    },
    NoOutage,
}

/// A line after the setup. Nothing in place of a bridge, or of a pair of bridges, stands for all.
#[derive(Clone, Debug, PartialEq)]
pub enum Item {
    Update {
        bridges: Vec<usize>,
        view: usize,
    },
    Send {
        bridge: usize,
        link: usize,
    },
    SendAll,
    Message(Fate, Which),
    Round(u32),
    /// Both ends of a link go down or up, or one bridge's.
    Switch {
        down: bool,
        bridge: Option<usize>,
        link: usize,
    },
    Report(Option<usize>),
    Path(Option<(usize, usize)>),
    Why {
        bridge: usize,
        dest: usize,
    },
    Watch(Option<(usize, usize)>),
    Expect(Expectation),
    Label(String),
}

impl Item {
    /// The word of an item that plans in bytes do not have.
    pub fn without_bytes(&self) -> Option<&'static str> {
        match self {
            Item::Why { .. } => Some("why"),
            Item::Watch(_) => Some("watch"),
            Item::Expect(_) => Some("expect"),
            Item::Label(_) => Some("label"),
            _ => None,
        }
    }
}

/// A line with what it asks for, and as it is written.
#[derive(Clone, Debug, PartialEq)]
pub struct Line {
    pub number: usize,
    pub item: Item,
    pub text: String,
}

/// A plan as text: the network, and what is done with it.
#[derive(Clone, Debug, PartialEq)]
pub struct Plan {
    pub setup: Setup,
    pub lines: Vec<Line>,
}

impl Setup {
    /// The fresh network of these views' costs.
    pub fn network(&self, views: &[Vec<u32>]) -> Result<Network, u8> {
        let links: Vec<[usize; 2]> = self.links.iter().map(|link| link.ends).collect();
        Network::fresh(self.bridges.len(), &links, views)
    }

    /// The fields that set the network up.
    pub fn fields(&self) -> Vec<Field> {
        let links = self.links.iter().map(|link| Field::Link(link.ends[0] as u8, link.ends[1] as u8));
        let views = self.views.iter().map(|view| Field::View(view.costs.clone()));
        [Field::Bridges(self.bridges.len() as u8)].into_iter().chain(links).chain(views).collect()
    }

    /// The bridge's end of the link: twice the link's number, and 1 more for its second bridge. Nothing where it is on neither end.
    pub fn end_of(&self, bridge: usize, link: usize) -> Option<usize> {
        let side = self.links[link].ends.iter().position(|&end| end == bridge)?;
        Some(2 * link + side)
    }

    /// The bridge at an end.
    pub fn bridge_at(&self, end: usize) -> usize {
        self.links[end / 2].ends[end % 2]
    }

    pub fn all_pairs(&self) -> Vec<(usize, usize)> {
        let bridges = self.bridges.len();
        let pairs = (0..bridges).flat_map(|start| (0..bridges).map(move |dest| (start, dest)));
        pairs.filter(|(start, dest)| start != dest).collect()
    }

    /// An event in the notation, with the planner's names. A number that is past them stands as it is.
    pub fn words(&self, event: Event) -> String {
        let bridge = |b: u8| self.bridges.get(usize::from(b)).cloned().unwrap_or(b.to_string());
        let link = |l: u8| self.links.get(usize::from(l)).map_or(l.to_string(), |link| link.name.clone());
        let view = |v: u8| self.views.get(usize::from(v)).map_or(v.to_string(), |view| view.name.clone());
        match event {
            Event::Update { bridge: b, view: v } => format!("update {} to {}", bridge(b), view(v)),
            Event::Send { bridge: b, link: l } => format!("send {} over {}", bridge(b), link(l)),
            Event::Deliver { place } => format!("deliver {place}"),
            Event::Repeat { place } => format!("repeat {place}"),
            Event::Lose { place } => format!("lose {place}"),
            Event::Cut { bridge: b, link: l } => format!("cut {} {}", bridge(b), link(l)),
            Event::Restore { bridge: b, link: l } => format!("restore {} {}", bridge(b), link(l)),
            Event::Report { dest } => format!("report {}", bridge(dest)),
            Event::Path { start, dest } => format!("path {} {}", bridge(start), bridge(dest)),
        }
    }
}
