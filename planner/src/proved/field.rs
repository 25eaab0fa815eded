//! The fields of a plan in bytes, and what the proved reader reads in them.

use crate::proved::library::{read_costs, read_field, Progress, Read};

/// The longest plan in bytes that is carried out.
pub const LONGEST: usize = 61_440;

/// The most links that there are.
pub const MOST_LINKS: usize = 32;

/// A field: a setup or an event, with its numbers.
#[derive(Clone, Debug, PartialEq)]
pub enum Field {
    Bridges(u8),
    Link(u8, u8),
    View(Vec<u32>),
    Event(Event),
}

/// An event. Bridges, links, views and places are numbers from 0.
#[derive(Clone, Copy, Debug, PartialEq)]
pub enum Event {
    Update { bridge: u8, view: u8 },
    Send { bridge: u8, link: u8 },
    Deliver { place: u8 },
    Repeat { place: u8 },
    Lose { place: u8 },
    Cut { bridge: u8, link: u8 },
    Restore { bridge: u8, link: u8 },
    Report { dest: u8 },
    Path { start: u8, dest: u8 },
}

impl Event {
    /// Its tag and its one or two numbers.
    fn numbers(self) -> (u8, Vec<u8>) {
        match self {
            Event::Update { bridge, view } => (4, vec![bridge, view]),
            Event::Send { bridge, link } => (5, vec![bridge, link]),
            Event::Deliver { place } => (6, vec![place]),
            Event::Repeat { place } => (7, vec![place]),
            Event::Lose { place } => (8, vec![place]),
            Event::Cut { bridge, link } => (9, vec![bridge, link]),
            Event::Restore { bridge, link } => (10, vec![bridge, link]),
            Event::Report { dest } => (11, vec![dest]),
            Event::Path { start, dest } => (12, vec![start, dest]),
        }
    }

    /// The event of a tag and two numbers, as the proved reader tells them.
    fn of(tag: u32, first: u8, second: u8) -> Option<Event> {
        Some(match tag {
            4 => Event::Update { bridge: first, view: second },
            5 => Event::Send { bridge: first, link: second },
            6 => Event::Deliver { place: first },
            7 => Event::Repeat { place: first },
            8 => Event::Lose { place: first },
            9 => Event::Cut { bridge: first, link: second },
            10 => Event::Restore { bridge: first, link: second },
            11 => Event::Report { dest: first },
            12 => Event::Path { start: first, dest: second },
            _ => return None,
        })
    }

    /// Does it only ask? Then it changes nothing.
    pub fn asks(self) -> bool {
        matches!(self, Event::Report { .. } | Event::Path { .. })
    }

    pub fn bytes(self) -> Vec<u8> {
        let (tag, value) = self.numbers();
        with_header(tag, &value)
    }
}

/// A tag, the length of the value in two bytes, and the value, which is short.
fn with_header(tag: u8, value: &[u8]) -> Vec<u8> {
    let length = (value.len() as u16).to_be_bytes();
    [&[tag], &length[..], value].concat()
}

impl Field {
    pub fn bytes(&self) -> Vec<u8> {
        match self {
            Field::Bridges(count) => with_header(1, &[*count]),
            Field::Link(one, other) => with_header(2, &[*one, *other]),
            Field::View(costs) => with_header(3, &costs.iter().flat_map(|cost| cost.to_be_bytes()).collect::<Vec<u8>>()),
            Field::Event(event) => event.bytes(),
        }
    }
}

/// Why a plan in bytes ends before its end: document 01's number, and how far into the plan.
#[derive(Clone, Copy, Debug, PartialEq)]
pub struct Refused {
    pub number: u8,
    pub offset: usize,
}

/// Reads fields one after the other by the proved reader.
pub struct Reader {
    progress: Progress,
}

impl Default for Reader {
    fn default() -> Reader {
        Reader::new()
    }
}

impl Reader {
    pub fn new() -> Reader {
        Reader { progress: Progress { stage: 0, bridges: 0, links: 0, views: 0 } }
    }

    /// The field at the head of these bytes and how many it takes; nothing at the plan's proper end. An error is document 01's number.
    pub fn next(&mut self, rest: &[u8]) -> Result<Option<(Field, usize)>, u8> {
        let Some(read) = read_field(rest, self.progress)? else { return Ok(None) };
        let field = self.field(rest, &read)?;
        self.advance(&field);
        Ok(Some((field, read.used)))
    }

    fn field(&self, rest: &[u8], read: &Read) -> Result<Field, u8> {
        Ok(match read.tag {
            1 => Field::Bridges(read.first),
            2 => Field::Link(read.first, read.second),
            3 => {
                let row: [u32; MOST_LINKS] = read_costs(rest, self.progress.links)?;
                Field::View(row[..self.progress.links].to_vec())
            }
            // The reader knows no other tag.
            tag => Field::Event(Event::of(tag, read.first, read.second).ok_or(2)?),
        })
    }

    fn advance(&mut self, field: &Field) {
        let p = &mut self.progress;
        match field {
            Field::Bridges(count) => (p.stage, p.bridges) = (1, usize::from(*count)),
            Field::Link(..) => p.links += 1,
            Field::View(_) => (p.stage, p.views) = (2, p.views + 1),
            Field::Event(_) => p.stage = 3,
        }
    }
}

/// The fields of a plan in bytes, as the proved reader reads them, up to the first that is refused.
pub fn read_as_far(plan: &[u8]) -> (Vec<Field>, Option<Refused>) {
    if plan.len() > LONGEST {
        return (Vec::new(), Some(Refused { number: 18, offset: LONGEST }));
    }
    let (mut reader, mut fields, mut offset) = (Reader::new(), Vec::new(), 0);
    loop {
        match reader.next(&plan[offset..]) {
            Ok(Some((field, used))) => {
                fields.push(field);
                offset += used;
            }
            Ok(None) => return (fields, None),
            Err(number) => return (fields, Some(Refused { number, offset })),
        }
    }
}

/// Do these bytes, read by the proved reader, say what was meant? If not, in words where they differ.
pub fn read_back(plan: &[u8], meant: &[Field]) -> Result<(), String> {
    let (read, refused) = read_as_far(plan);
    if let Some(Refused { number, offset }) = refused {
        return Err(format!("the reader refuses byte {offset} with {number}"));
    }
    if read == meant {
        return Ok(());
    }
    let same = read.iter().zip(meant).take_while(|(one, other)| one == other).count();
    Err(format!("field {same} is read as {:?}, and {:?} was meant", read.get(same), meant.get(same)))
}

#[cfg(test)]
mod tests {
    use super::*;

    fn plan() -> Vec<Field> {
        let mut fields = vec![Field::Bridges(3), Field::Link(0, 1), Field::Link(2, 1), Field::View(vec![5, 16_777_215])];
        fields.push(Field::View(vec![0, 70_000]));
        let pairs = [(0, 1), (2, 0), (1, 1)];
        for (first, second) in pairs {
            fields.extend((4..=12).map(|tag| Field::Event(Event::of(tag, first, second).expect("an event"))));
        }
        fields
    }

    fn bytes_of(fields: &[Field]) -> Vec<u8> {
        fields.iter().flat_map(Field::bytes).collect()
    }

    #[test]
    fn what_is_written_is_read_back() {
        assert_eq!(read_back(&bytes_of(&plan()), &plan()), Ok(()));
    }

    /// Every slip of one byte, to every other value, is noticed; so are bytes too many or too few.
    #[test]
    fn a_slip_is_noticed() {
        let bytes = bytes_of(&plan());
        for at in 0..bytes.len() {
            for slip in 1..=255 {
                let mut slipped = bytes.clone();
                slipped[at] ^= slip;
                assert!(read_back(&slipped, &plan()).is_err(), "byte {at} as {}", slipped[at]);
            }
            assert!(read_back(&bytes[..at], &plan()).is_err(), "only {at} bytes");
        }
        let more = [bytes, Event::Report { dest: 0 }.bytes()].concat();
        assert!(read_back(&more, &plan()).is_err());
    }

    /// A field that is left out, doubled, or changed places with the next is noticed.
    #[test]
    fn a_field_out_of_place_is_noticed() {
        for at in 0..plan().len() {
            let (mut without, mut twice, mut moved) = (plan(), plan(), plan());
            without.remove(at);
            twice.insert(at, plan()[at].clone());
            let next = (at + 1) % moved.len();
            moved.swap(at, next);
            for fields in [without, twice, moved] {
                assert!(read_back(&bytes_of(&fields), &plan()).is_err(), "field {at}");
            }
        }
    }
}
