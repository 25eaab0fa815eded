//! A plan as text into one in bytes, and back. Each is read back by the proved reader and held to what was meant.

use crate::notation::fault::Fault;
use crate::notation::item::{Link, Plan, Setup, View};
use crate::notation::parse::parse;
use crate::proved::field::{read_as_far, read_back, Event, Field, Refused, LONGEST};
use crate::rehearsal::expand::fixed;
use crate::rehearsal::story::Story;

/// The plan in bytes of what was carried out.
pub fn bytes(plan: &Plan, story: &Story) -> Result<Vec<u8>, String> {
    let events = story.events.iter().map(|&event| Field::Event(event));
    let fields: Vec<Field> = plan.setup.fields().into_iter().chain(events).collect();
    let bytes: Vec<u8> = fields.iter().flat_map(Field::bytes).collect();
    if bytes.len() > LONGEST {
        return Err(format!(
            "the plan takes {} bytes, and rehearse takes {LONGEST} (18); planner run has no such limit",
            bytes.len()
        ));
    }
    read_back(&bytes, &fields).map_err(|why| format!("the bytes do not say what was meant: {why}; nothing is written"))?;
    Ok(bytes)
}

/// The text of a plan in bytes, by names made up from the numbers. An error names the first byte that is refused.
pub fn text(plan: &[u8]) -> Result<String, String> {
    let (fields, refused) = read_as_far(plan);
    let (setup, events) = taken_apart(&fields);
    let mut offset: usize = setup.fields().iter().map(|field| field.bytes().len()).sum();
    for &event in &events {
        if !is_named(&setup, event) {
            return Err(format!(
                "byte {offset}: {}: no such bridge, view or link (10); they are numbered from 0",
                setup.words(event)
            ));
        }
        offset += event.bytes().len();
    }
    if let Some(refused) = refused {
        return Err(refused_words(plan, refused));
    }
    let text = written(&setup, &events);
    leads_back(&text, plan).map_err(|why| format!("the text does not lead back to the bytes: {why}; nothing is written"))?;
    Ok(text)
}

fn refused_words(plan: &[u8], refused: Refused) -> String {
    let (what, advice) = match refused.number {
        1 => ("the plan breaks off within a field", "complete the field, or correct its length"),
        2 => ("no such tag", "tags are 1 to 12"),
        3 => ("wrong length for the tag", "a view has 4 bytes for each link, other fields 1 or 2"),
        4 if refused.offset == plan.len() => ("the plan ends without a view", "add one"),
        4 => ("out of order", "bridges, links, views, events"),
        5 => ("the bridge count is not 2 to 16", "give 2 to 16"),
        6 => ("a 33rd link", "leave out a link"),
        7 => ("an end of a link is no bridge, or both are the same", "name two different bridges"),
        8 => ("a 33rd view", "leave out a view"),
        9 => ("a cost above 16777215", "give less"),
        18 => ("the plan is longer than 61440 bytes", "split it"),
        _ => ("the library refused it", "this should not happen"),
    };
    let is_text = refused.offset == 0
        && std::str::from_utf8(plan).is_ok_and(|text| text.chars().all(|c| !c.is_control() || c.is_whitespace()));
    let advice =
        if is_text && !plan.is_empty() { "this is text already, it seems: planner run FILE carries it out" } else { advice };
    format!("byte {}: {what} ({}); {advice}", refused.offset, refused.number)
}

fn taken_apart(fields: &[Field]) -> (Setup, Vec<Event>) {
    let (mut setup, mut events) = (Setup::default(), Vec::new());
    for field in fields {
        match field {
            Field::Bridges(count) => setup.bridges = (0..*count).map(|b| format!("B{b}")).collect(),
            Field::Link(one, other) => {
                setup.links.push(Link { name: format!("L{}", setup.links.len()), ends: [*one, *other].map(usize::from) });
            }
            Field::View(costs) => setup.views.push(View { name: format!("V{}", setup.views.len()), costs: costs.clone() }),
            Field::Event(event) => events.push(*event),
        }
    }
    (setup, events)
}

/// Does the plan have what the event names? On a fresh network the library refuses it with 10 if not.
fn is_named(setup: &Setup, event: Event) -> bool {
    let views: Vec<Vec<u32>> = setup.views.iter().map(|view| view.costs.clone()).collect();
    setup.network(&views).is_ok_and(|mut network| network.carry_out(&event.bytes()) != Err(10))
}

/// The notation in its plainest form: one event a line.
fn written(setup: &Setup, events: &[Event]) -> String {
    let mut lines = vec![format!("bridges {}", setup.bridges.join(" "))];
    for link in &setup.links {
        let [one, other] = link.ends.map(|end| &setup.bridges[end]);
        lines.push(format!("link {} {one} {other}", link.name));
    }
    for view in &setup.views {
        let present = setup.links.iter().zip(&view.costs).filter(|(_, &cost)| cost != 0);
        let costs: String = present.map(|(link, cost)| format!(" {}={cost}", link.name)).collect();
        lines.push(format!("view {}{costs}", view.name));
    }
    lines.extend(events.iter().map(|&event| setup.words(event)));
    lines.join("\n") + "\n"
}

/// The text is read again, and its bytes have to be those of the plan.
fn leads_back(text: &str, plan: &[u8]) -> Result<(), String> {
    let first = |faults: Vec<Fault>| faults.first().map_or(String::new(), Fault::words);
    let read = parse(text.as_bytes()).map_err(first)?;
    let mut fields = read.setup.fields();
    for line in &read.lines {
        let events = fixed(&line.item).ok_or(format!("line {} is no event", line.number))?;
        fields.extend(events.into_iter().map(Field::Event));
    }
    let bytes: Vec<u8> = fields.iter().flat_map(Field::bytes).collect();
    if bytes == plan {
        Ok(())
    } else {
        Err("the bytes differ".into())
    }
}
