//! The lines that set the network up: bridges, link, view.

use crate::notation::fault::shown;
use crate::notation::item::{Link, View};
use crate::notation::names::Kind;
use crate::notation::parse::Notation;
use crate::notation::words::{number, wrong, Cursor, Word, Wrong};
use crate::proved::field::Field;

pub fn take(notation: &mut Notation, kind: Kind, cursor: &mut Cursor, line: usize) -> Result<(), Wrong> {
    match kind {
        Kind::Bridge => bridges(notation, cursor, line),
        Kind::Link => link(notation, cursor, line),
        Kind::View => view(notation, cursor, line),
    }
}

fn refused(what: impl Into<String>, number: u8, advice: &str) -> Wrong {
    (what.into(), Some(number), advice.into())
}

fn bridges(notation: &mut Notation, cursor: &mut Cursor, line: usize) -> Result<(), Wrong> {
    let count = cursor.left();
    // A count beyond a byte is refused as the greatest byte is.
    let field = Field::Bridges(count.min(255) as u8);
    notation.read(&field).map_err(|number| match (number, count) {
        (4, _) => refused("the bridges are there already", 4, "name all of them in one line, the first of the plan"),
        (_, 1) => refused("1 bridge", number, "there may be 2 to 16"),
        _ => refused(format!("{count} bridges"), number, "there may be 2 to 16"),
    })?;
    while !cursor.is_at_end() {
        let name = cursor.plain("a bridge's name")?;
        notation.names.add(name, Kind::Bridge, notation.setup.bridges.len(), line)?;
        notation.setup.bridges.push(name.to_string());
    }
    Ok(())
}

/// A link or a view before the bridges is out of order, whatever it names.
fn after_bridges(notation: &mut Notation, field: &Field) -> Result<(), Wrong> {
    if !notation.setup.bridges.is_empty() {
        return Ok(());
    }
    notation.read(field).map_err(|number| refused("there are no bridges yet", number, "the bridges come first"))
}

fn link(notation: &mut Notation, cursor: &mut Cursor, line: usize) -> Result<(), Wrong> {
    after_bridges(notation, &Field::Link(0, 1))?;
    let name = cursor.plain("the link's name")?;
    let place = notation.setup.links.len();
    notation.names.add(name, Kind::Link, place, line)?;
    // Where an end is wrong the link is still known by its name.
    notation.setup.links.push(Link { name: name.to_string(), ends: [0; 2] });
    let mut ends = [0; 2];
    for end in &mut ends {
        *end = notation.names.find(cursor.plain("a bridge's name")?, Kind::Bridge)?;
    }
    cursor.end()?;
    let field = Field::Link(ends[0] as u8, ends[1] as u8);
    notation.read(&field).map_err(|number| match number {
        4 => refused(format!("{} comes too late", shown(name)), 4, "links come before views and events"),
        6 => refused(format!("{} is a 33rd link", shown(name)), 6, "there may be 32"),
        _ => refused(format!("{} joins a bridge with itself", shown(name)), number, "name two different bridges"),
    })?;
    notation.setup.links[place].ends = ends;
    Ok(())
}

fn view(notation: &mut Notation, cursor: &mut Cursor, line: usize) -> Result<(), Wrong> {
    after_bridges(notation, &Field::View(Vec::new()))?;
    let name = cursor.plain("the view's name")?;
    let place = notation.setup.views.len();
    notation.names.add(name, Kind::View, place, line)?;
    let mut costs = Costs::of(notation.setup.links.len());
    // Where a cost is wrong the view is still known by its name.
    notation.setup.views.push(View { name: name.to_string(), costs: costs.costs.clone() });
    if cursor.takes_equals() {
        derived(notation, cursor, &mut costs)?;
    } else {
        costs.read(notation, cursor)?;
    }
    cursor.end()?;
    let field = Field::View(costs.costs.clone());
    notation.read(&field).map_err(|number| match number {
        4 => refused(format!("{} comes too late", shown(name)), 4, "views come before events"),
        8 => refused(format!("{} is a 33rd view", shown(name)), 8, "there may be 32"),
        _ => refused(costs.dearest.1.clone(), number, "a cost is at most 16777215"),
    })?;
    notation.setup.views[place].costs = costs.costs;
    Ok(())
}

/// A view by another one: `= BASE without A B with C=5`.
fn derived(notation: &Notation, cursor: &mut Cursor, costs: &mut Costs) -> Result<(), Wrong> {
    let base_name = cursor.plain("a view's name")?;
    let base = notation.names.find(base_name, Kind::View)?;
    if base + 1 == notation.setup.views.len() {
        return wrong(format!("{} cannot be made of itself", shown(base_name)), "name a view of a line above");
    }
    // After a wrong setup the other view may have fewer links.
    costs.costs.iter_mut().zip(&notation.setup.views[base].costs).for_each(|(cost, &other)| *cost = other);
    while !cursor.is_at_end() {
        if cursor.takes("without") {
            costs.take_out(notation, cursor, base_name)?;
        } else {
            cursor.expect("with").map_err(|(what, number, _)| (what, number, "write without LINK, or with LINK=COST".into()))?;
            if cursor.is_at_end() || is_mode(cursor) {
                return wrong("no link after \"with\"", "write with LINK=COST");
            }
            costs.read(notation, cursor)?;
        }
    }
    Ok(())
}

/// Costs of a view in the making, and which of them its line has named.
struct Costs {
    costs: Vec<u32>,
    given: Vec<bool>,
    /// The greatest cost that the line names, and as it is written.
    dearest: (u32, String),
}

impl Costs {
    fn of(links: usize) -> Costs {
        Costs { costs: vec![0; links], given: vec![false; links], dearest: (0, String::new()) }
    }

    /// A link that the line names for the first time.
    fn link(&mut self, notation: &Notation, name: &str) -> Result<usize, Wrong> {
        let link = notation.names.find(name, Kind::Link)?;
        if std::mem::replace(&mut self.given[link], true) {
            return wrong(format!("{} is named twice", shown(name)), "give each link one cost");
        }
        Ok(link)
    }

    /// LINK=COST, as many as there are.
    fn read(&mut self, notation: &Notation, cursor: &mut Cursor) -> Result<(), Wrong> {
        while !cursor.is_at_end() && !is_mode(cursor) {
            let name = cursor.plain("a link's name")?;
            let link = self.link(notation, name)?;
            if !cursor.takes_equals() {
                return wrong(format!("{} has no cost", shown(name)), format!("write {}=10", shown(name)));
            }
            let word = cursor.plain("a cost")?;
            let cost = number(word)?;
            if cost == 0 {
                return wrong(format!("{}=0", shown(name)), "a cost is 1 to 16777215; a link that is left out is absent");
            }
            // A cost beyond 32 bits is refused as the greatest number of 32 bits is.
            self.costs[link] = cost.min(u32::MAX.into()) as u32;
            if self.costs[link] > self.dearest.0 {
                self.dearest = (self.costs[link], format!("{}={}", shown(name), shown(word)));
            }
        }
        Ok(())
    }

    /// Links that the view lacks and the other one has.
    fn take_out(&mut self, notation: &Notation, cursor: &mut Cursor, base: &str) -> Result<(), Wrong> {
        let mut taken = false;
        while !cursor.is_at_end() && !is_mode(cursor) {
            let name = cursor.plain("a link's name")?;
            let link = self.link(notation, name)?;
            if self.costs[link] == 0 {
                return wrong(format!("{} is absent from {} already", shown(name), shown(base)), "leave it out");
            }
            self.costs[link] = 0;
            taken = true;
        }
        if taken {
            Ok(())
        } else {
            wrong("no link after \"without\"", "name the links that the view lacks")
        }
    }
}

fn is_mode(cursor: &Cursor) -> bool {
    matches!(cursor.peek(), Some(Word::Plain("with" | "without")))
}
