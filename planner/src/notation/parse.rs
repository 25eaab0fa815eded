//! Reads a plan as text: a line an item. Setups are handed to the proved reader as they come, which refuses them by document 01's table.

use crate::notation::fault::{shown, Fault};
use crate::notation::item::{Expectation, Item, Line, Plan, Setup};
use crate::notation::lines::{self, form};
use crate::notation::names::{Kind, Names};
use crate::notation::setup;
use crate::notation::words::{words_of, wrong, Cursor, Word, Wrong, SILENCE};
use crate::proved::field::{Event, Field, Reader};

/// The most mistakes that are kept: nobody reads more, and a file may be long.
pub const MOST_FAULTS: usize = 1_000;

/// A plan that is being read.
#[derive(Default)]
pub struct Notation {
    pub names: Names,
    pub setup: Setup,
    reader: Reader,
    lines: Vec<Line>,
    faults: Vec<Fault>,
    /// A setup was wrong: what follows from that is not told again.
    spoiled: bool,
    /// A line asked for pairs to be watched. Of none every expectation would be met.
    watches: bool,
}

/// The plan in these bytes of text, or all that is wrong with it.
pub fn parse(bytes: &[u8]) -> Result<Plan, Vec<Fault>> {
    let text = utf8(bytes).map_err(|fault| vec![fault])?;
    let mut notation = Notation::default();
    let mut last = 1;
    for (at, line) in text.lines().enumerate() {
        last = at + 1;
        notation.line(last, line);
    }
    notation.finish(last)
}

/// The text, without a byte order mark.
fn utf8(bytes: &[u8]) -> Result<&str, Fault> {
    let bytes = bytes.strip_prefix(b"\xef\xbb\xbf").unwrap_or(bytes);
    if bytes.starts_with(&[1, 0, 1]) {
        return Err(Fault::of_text(1, "this is a plan in bytes, not text", "planner text FILE turns it into text"));
    }
    std::str::from_utf8(bytes).map_err(|error| {
        let line = 1 + bytes[..error.valid_up_to()].iter().filter(|&&byte| byte == b'\n').count();
        Fault::of_text(line, "this is not UTF-8 text", "save the plan as UTF-8")
    })
}

impl Notation {
    fn line(&mut self, number: usize, line: &str) {
        // The last line may have lost its line feed.
        let line = line.strip_suffix('\r').unwrap_or(line);
        let words = match words_of(line) {
            Ok(words) => words,
            Err((what, advice)) => {
                line.split_whitespace().next().and_then(kind_of).into_iter().for_each(|kind| self.spoil(kind));
                return self.tell(Fault::of_text(number, what, advice));
            }
        };
        if words.is_empty() {
            return;
        }
        let text = as_written(&words);
        let mut cursor = Cursor::new(&words);
        let taken = cursor.plain("a word").and_then(|keyword| self.statement(keyword, &mut cursor, number, &text));
        match taken {
            Err(wrong) if wrong == SILENCE => {}
            Err((what, refusal, advice)) => {
                let advice = if advice.is_empty() { form(words[0].text().as_str()) } else { advice };
                self.tell(Fault { line: number, what: format!("{}: {what}", shown(&text)), number: refusal, advice });
            }
            Ok(()) => {}
        }
    }

    fn tell(&mut self, fault: Fault) {
        if self.faults.len() < MOST_FAULTS {
            self.faults.push(fault);
        }
    }

    /// A line that gives names of this kind was wrong: nothing will be run.
    fn spoil(&mut self, kind: Kind) {
        self.spoiled = true;
        self.names.doubt(kind);
    }

    /// How many names of a kind there are.
    fn named(&self, kind: Kind) -> usize {
        match kind {
            Kind::Bridge => self.setup.bridges.len(),
            Kind::Link => self.setup.links.len(),
            Kind::View => self.setup.views.len(),
        }
    }

    /// One line: a setup, or an item that is kept.
    fn statement(&mut self, keyword: &str, cursor: &mut Cursor, number: usize, text: &str) -> Result<(), Wrong> {
        if let Some(kind) = kind_of(keyword) {
            let before = self.named(kind);
            let taken = setup::take(self, kind, cursor, number);
            if taken.is_err() {
                self.spoiled = true;
                // Its name may be known all the same; of the bridges some are not.
                if kind == Kind::Bridge || self.named(kind) == before {
                    self.spoil(kind);
                }
            }
            return taken;
        }
        self.watches |= keyword == "watch";
        let item = lines::item(keyword, cursor, &self.names, &self.setup)?;
        cursor.end()?;
        if item == Item::Expect(Expectation::NoOutage) && !self.watches {
            return wrong("nothing is watched yet", "write watch all above it");
        }
        if keyword != "label" {
            self.begin_events()?;
        }
        self.lines.push(Line { number, item, text: text.to_string() });
        Ok(())
    }

    /// From here on the reader takes events alone.
    fn begin_events(&mut self) -> Result<(), Wrong> {
        if self.spoiled {
            return Ok(());
        }
        let event = Event::Report { dest: 0 }.bytes();
        self.reader.next(&event).map(|_| ()).map_err(|number| {
            self.spoiled = true;
            ("there is no view yet".into(), Some(number), "write bridges, links and views first".into())
        })
    }

    /// Hands a setup to the proved reader, which has to read what was meant. An error is document 01's number.
    pub fn read(&mut self, field: &Field) -> Result<(), u8> {
        if self.spoiled {
            return Ok(());
        }
        let bytes = field.bytes();
        let read = self.reader.next(&bytes)?;
        // What was written is read as something else: no plan may go by that.
        if read != Some((field.clone(), bytes.len())) {
            return Err(17);
        }
        Ok(())
    }

    fn finish(mut self, last: usize) -> Result<Plan, Vec<Fault>> {
        if !self.spoiled {
            if let Err(number) = self.reader.next(&[]) {
                let what = if self.setup.bridges.is_empty() { "the plan has no bridges" } else { "the plan has no view" };
                self.faults.push(Fault::refused(last, what, number, "bridges, links and views come first"));
            }
        }
        if self.faults.is_empty() {
            Ok(Plan { setup: self.setup, lines: self.lines })
        } else {
            Err(self.faults)
        }
    }
}

/// The words of a line without its comment: costs as `LINK=COST`, another view as `NAME = OTHER`.
fn as_written(words: &[Word]) -> String {
    let is_cost = |place: usize| place > 2 && words[place] == Word::Equals;
    let joined = |place: usize| place == 0 || is_cost(place) || is_cost(place - 1);
    let parts =
        words.iter().enumerate().map(|(place, word)| if joined(place) { word.text() } else { format!(" {}", word.text()) });
    parts.collect()
}

/// What a line that begins with this word gives names to, if it is a setup.
fn kind_of(keyword: &str) -> Option<Kind> {
    match keyword {
        "bridges" => Some(Kind::Bridge),
        "link" => Some(Kind::Link),
        "view" => Some(Kind::View),
        _ => None,
    }
}
