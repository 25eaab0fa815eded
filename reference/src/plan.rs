//! Reading the fields of a plan ('Plan file', and the header row of 'Where input is turned down').

use crate::refusal::Refusal;

/// A setup field or an event, with its own data.
#[derive(Clone, Copy, Debug, PartialEq, Eq)]
pub enum Field<'a> {
    Bridges(u8),
    Link([u8; 2]),
    View(&'a [u8]),
    Event(Event),
}

/// Fields with tags 4 to 12.
#[derive(Clone, Copy, Debug, PartialEq, Eq)]
pub enum Event {
    Update { bridge: u8, view: u8 },
    Send { bridge: u8, link: u8 },
    Deliver { place: u8 },
    Repeat { place: u8 },
    Lose { place: u8 },
    Cut { bridge: u8, link: u8 },
    Restore { bridge: u8, link: u8 },
    Report { destination: u8 },
    Path { start: u8, destination: u8 },
}

/// What has been read so far; it settles which tags may come next.
#[derive(Clone, Copy, Debug, PartialEq, Eq)]
pub enum Phase {
    /// Nothing yet.
    Start,
    /// The bridge count, and perhaps links.
    Links,
    /// At least one view, no event.
    Views,
    /// At least one event.
    Events,
}

impl Phase {
    /// Whether a field of this known tag is in order here.
    fn allows(self, tag: u8) -> bool {
        match tag {
            1 => self == Phase::Start,
            2 => self == Phase::Links,
            3 => self == Phase::Links || self == Phase::Views,
            _ => self.has_view(),
        }
    }

    fn has_view(self) -> bool {
        self == Phase::Views || self == Phase::Events
    }

    /// The phase after a field.
    pub fn after(field: &Field) -> Phase {
        match field {
            Field::Bridges(_) | Field::Link(_) => Phase::Links,
            Field::View(_) => Phase::Views,
            Field::Event(_) => Phase::Events,
        }
    }
}

/// The length of a value of this tag; nothing for an unknown tag.
fn value_length(tag: u8, links: usize) -> Option<usize> {
    match tag {
        1 | 6..=8 | 11 => Some(1),
        2 | 4 | 5 | 9 | 10 | 12 => Some(2),
        3 => Some(4 * links),
        _ => None,
    }
}

/// The field of this tag and value, once the header is checked.
fn field(tag: u8, value: &[u8]) -> Result<Field<'_>, Refusal> {
    let event = match (tag, value) {
        (1, &[count]) => return Ok(Field::Bridges(count)),
        (2, &[a, b]) => return Ok(Field::Link([a, b])),
        (3, costs) => return Ok(Field::View(costs)),
        (4, &[bridge, view]) => Event::Update { bridge, view },
        (5, &[bridge, link]) => Event::Send { bridge, link },
        (6, &[place]) => Event::Deliver { place },
        (7, &[place]) => Event::Repeat { place },
        (8, &[place]) => Event::Lose { place },
        (9, &[bridge, link]) => Event::Cut { bridge, link },
        (10, &[bridge, link]) => Event::Restore { bridge, link },
        (11, &[destination]) => Event::Report { destination },
        (12, &[start, destination]) => Event::Path { start, destination },
        // Not reached: the header check lets only the lengths above through.
        _ => return Err(Refusal::WrongLength),
    };
    Ok(Field::Event(event))
}

/// Reads the first field of the rest of a plan and hands on what follows it; nothing at the plan's end.
/// The checks are those of the header row, in its order.
pub fn read_field(rest: &[u8], phase: Phase, links: usize) -> Result<Option<(Field<'_>, &[u8])>, Refusal> {
    if rest.is_empty() {
        return if phase.has_view() { Ok(None) } else { Err(Refusal::OutOfOrder) };
    }
    let &[tag, high, low, ref after @ ..] = rest else { return Err(Refusal::CutShort) };
    let Some(wanted) = value_length(tag, links) else { return Err(Refusal::UnknownTag) };
    if !phase.allows(tag) {
        return Err(Refusal::OutOfOrder);
    }
    let length = usize::from(u16::from_be_bytes([high, low]));
    if length != wanted {
        return Err(Refusal::WrongLength);
    }
    if after.len() < length {
        return Err(Refusal::CutShort);
    }
    let (value, next) = after.split_at(length);
    Ok(Some((field(tag, value)?, next)))
}
