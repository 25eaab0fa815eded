//! The lines after the setup, by their first word.

use crate::notation::fault::shown;
use crate::notation::item::{Expectation, Fate, Item, Setup, Which};
use crate::notation::names::{Kind, Names};
use crate::notation::words::{number, wrong, Cursor, Word, Wrong};

/// The most rounds that one line asks for.
const MOST_ROUNDS: u64 = 1_000;

/// What a line asks for, with its words but the first.
pub fn item(keyword: &str, cursor: &mut Cursor, names: &Names, setup: &Setup) -> Result<Item, Wrong> {
    let mut line = Rest { cursor, names, setup };
    match keyword {
        "update" => line.update(),
        "send" => line.send(),
        "deliver" => line.message(Fate::Deliver),
        "repeat" => line.message(Fate::Repeat),
        "lose" => line.message(Fate::Lose),
        "round" => line.round(),
        "cut" => line.switch(true),
        "restore" => line.switch(false),
        "report" => line.report(),
        "path" => line.pair_or_all().map(Item::Path),
        "why" => line.pair().map(|(bridge, dest)| Item::Why { bridge, dest }),
        "watch" => line.watch(),
        "expect" => line.expectation().map(Item::Expect),
        "label" => line.cursor.quoted().map(|text| Item::Label(text.to_string())),
        _ => wrong(format!("{} begins no line", shown(keyword)), FIRST_WORDS),
    }
}

const FIRST_WORDS: &str =
    "a line begins with bridges, link, view, update, send, deliver, repeat, lose, round, cut, restore, report, \
                           path, why, watch, expect or label";

/// How a line with this first word is written.
pub fn form(keyword: &str) -> String {
    let form = match keyword {
        "bridges" => "bridges NAME NAME ..",
        "link" => "link NAME BRIDGE BRIDGE",
        "view" => "view NAME LINK=COST .., or view NAME = VIEW without LINK with LINK=COST",
        "update" => "update BRIDGE .. to VIEW, or update all to VIEW",
        "send" => "send BRIDGE over LINK, or send all",
        "deliver" | "repeat" | "lose" => return format!("write {keyword} PLACE, {keyword} BRIDGE over LINK, or {keyword} all"),
        "round" => "round, or round NUMBER",
        "cut" | "restore" => return format!("write {keyword} LINK, or {keyword} BRIDGE LINK"),
        "report" => "report BRIDGE, or report all",
        "path" | "watch" => return format!("write {keyword} BRIDGE BRIDGE, or {keyword} all"),
        "why" => "why BRIDGE BRIDGE",
        "expect" => "expect path BRIDGE BRIDGE delivered, expect port BRIDGE BRIDGE LINK, or expect no outage",
        "label" => "label \"some text\"",
        _ => return FIRST_WORDS.into(),
    };
    format!("write {form}")
}

/// The rest of a line, with the names that there are.
struct Rest<'a, 'b, 'c> {
    cursor: &'c mut Cursor<'a, 'b>,
    names: &'c Names,
    setup: &'c Setup,
}

impl Rest<'_, '_, '_> {
    fn bridge(&mut self) -> Result<usize, Wrong> {
        self.names.find(self.cursor.plain("a bridge's name")?, Kind::Bridge)
    }

    fn link(&mut self) -> Result<usize, Wrong> {
        self.names.find(self.cursor.plain("a link's name")?, Kind::Link)
    }

    fn pair(&mut self) -> Result<(usize, usize), Wrong> {
        Ok((self.bridge()?, self.bridge()?))
    }

    /// A pair of bridges; nothing for `all`.
    fn pair_or_all(&mut self) -> Result<Option<(usize, usize)>, Wrong> {
        if self.cursor.takes("all") {
            return Ok(None);
        }
        self.pair().map(Some)
    }

    /// BRIDGE over LINK.
    fn end(&mut self) -> Result<(usize, usize), Wrong> {
        let bridge = self.bridge()?;
        self.cursor.expect("over")?;
        Ok((bridge, self.link()?))
    }

    fn update(&mut self) -> Result<Item, Wrong> {
        let mut bridges = Vec::new();
        if self.cursor.takes("all") {
            bridges.extend(0..self.setup.bridges.len());
            self.cursor.expect("to")?;
        } else {
            bridges.push(self.bridge()?);
            while !self.cursor.takes("to") {
                if self.cursor.is_at_end() {
                    return wrong("no view is named", "write update BRIDGE .. to VIEW");
                }
                let bridge = self.bridge()?;
                if bridges.contains(&bridge) {
                    return wrong(format!("{} is named twice", self.setup.bridges[bridge]), "name each bridge once");
                }
                bridges.push(bridge);
            }
        }
        let view = self.names.find(self.cursor.plain("a view's name")?, Kind::View)?;
        Ok(Item::Update { bridges, view })
    }

    fn send(&mut self) -> Result<Item, Wrong> {
        if self.cursor.takes("all") {
            return Ok(Item::SendAll);
        }
        self.end().map(|(bridge, link)| Item::Send { bridge, link })
    }

    /// By place, all of them, or a bridge's oldest over a link.
    fn message(&mut self, fate: Fate) -> Result<Item, Wrong> {
        if self.cursor.takes("all") {
            return Ok(Item::Message(fate, Which::All));
        }
        if let Some(Word::Plain(word)) = self.cursor.peek() {
            if word.bytes().all(|byte| byte.is_ascii_digit()) {
                let word = self.cursor.plain("a place")?;
                let place = number(word)?;
                let none = || (format!("no message is at place {}", shown(word)), Some(15), "places are 0 to 63".to_string());
                return u8::try_from(place).map(|place| Item::Message(fate, Which::Place(place))).map_err(|_| none());
            }
        }
        let (bridge, link) = self.end()?;
        let named = &self.setup.links[link];
        // A link whose line was wrong has no two ends yet.
        if named.ends[0] != named.ends[1] && !named.ends.contains(&bridge) {
            let [one, other] = named.ends.map(|end| &self.setup.bridges[end]);
            let advice = format!("{} joins {one} and {other}: name the one that sent it", named.name);
            return Err((format!("{} is not on {}", self.setup.bridges[bridge], named.name), Some(11), advice));
        }
        Ok(Item::Message(fate, Which::Oldest { bridge, link }))
    }

    fn round(&mut self) -> Result<Item, Wrong> {
        if self.cursor.is_at_end() {
            return Ok(Item::Round(1));
        }
        let word = self.cursor.plain("a number")?;
        match number(word)? {
            rounds @ 1..=MOST_ROUNDS => Ok(Item::Round(rounds as u32)),
            _ => wrong(format!("{} rounds", shown(word)), format!("a line has 1 to {MOST_ROUNDS}")),
        }
    }

    /// A link, or a bridge and a link.
    fn switch(&mut self, down: bool) -> Result<Item, Wrong> {
        let bridge = if self.cursor.left() == 1 { None } else { Some(self.bridge()?) };
        Ok(Item::Switch { down, bridge, link: self.link()? })
    }

    fn report(&mut self) -> Result<Item, Wrong> {
        if self.cursor.takes("all") {
            return Ok(Item::Report(None));
        }
        self.bridge().map(|dest| Item::Report(Some(dest)))
    }

    fn watch(&mut self) -> Result<Item, Wrong> {
        match self.pair_or_all()? {
            Some((start, dest)) if start == dest => wrong("a bridge always reaches itself", "name two different bridges"),
            pair => Ok(Item::Watch(pair)),
        }
    }

    fn expectation(&mut self) -> Result<Expectation, Wrong> {
        let word = self.cursor.plain("path, port or no outage")?;
        match word {
            "path" => self.expected_path(),
            "port" => self.expected_port(),
            "no" => self.cursor.expect("outage").map(|()| Expectation::NoOutage),
            _ => wrong(
                format!("{} cannot be expected", shown(word)),
                "write expect path FROM TO delivered, expect port BRIDGE TO LINK, or expect no outage",
            ),
        }
    }

    fn expected_path(&mut self) -> Result<Expectation, Wrong> {
        let (start, dest) = self.pair()?;
        if self.cursor.takes("delivered") {
            return Ok(Expectation::Delivered { start, dest });
        }
        self.cursor
            .expect("stops")
            .map_err(|(what, number, _)| (what, number, "write delivered, stops, or stops BRIDGE".into()))?;
        let last = if self.cursor.is_at_end() { None } else { Some(self.bridge()?) };
        Ok(Expectation::Stops { start, dest, last })
    }

    /// A link, or `none`.
    fn expected_port(&mut self) -> Result<Expectation, Wrong> {
        let (bridge, dest) = self.pair()?;
        let none = self.cursor.takes("none") || self.cursor.takes("-");
        let link = if none { None } else { Some(self.link()?) };
        Ok(Expectation::Port { bridge, dest, link })
    }
}
