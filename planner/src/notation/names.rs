//! The planner's own names of bridges, links and views. A name has one meaning.

use crate::notation::fault::shown;
use crate::notation::words::{wrong, Wrong, SILENCE};
use std::collections::HashMap;

#[derive(Clone, Copy, Debug, PartialEq)]
pub enum Kind {
    Bridge,
    Link,
    View,
}

impl Kind {
    fn word(self) -> &'static str {
        match self {
            Kind::Bridge => "bridge",
            Kind::Link => "link",
            Kind::View => "view",
        }
    }
}

/// Words of the notation that stand where a name could.
const RESERVED: [&str; 7] = ["all", "to", "over", "with", "without", "none", "-"];

/// What each name stands for: its kind, its number, the line that gives it.
#[derive(Default)]
pub struct Names {
    known: HashMap<String, (Kind, usize, usize)>,
    /// Kinds of which a line that gives names was wrong: some are then not known.
    doubted: Vec<Kind>,
}

/// The most names that are looked through for one that was perhaps meant; plans in range have 80.
const MOST_ALIKE: usize = 100;

/// The most characters of a name: more would fill no table.
const LONGEST: usize = 64;

impl Names {
    /// A new name. Its number is how many of its kind there are.
    pub fn add(&mut self, name: &str, kind: Kind, number: usize, line: usize) -> Result<(), Wrong> {
        if RESERVED.contains(&name) {
            return wrong(format!("{name} is a word of the notation"), "choose another name");
        }
        if name.bytes().all(|byte| byte.is_ascii_digit()) {
            return wrong(format!("{} is a number", shown(name)), "a name has a letter in it");
        }
        if name.chars().nth(LONGEST).is_some() {
            return wrong(format!("{} is too long", shown(name)), format!("a name has at most {LONGEST} characters"));
        }
        if let Some((kind, _, line)) = self.known.get(name) {
            return wrong(
                format!("{} is a {} already, by line {line}", shown(name), kind.word()),
                "give each thing a name of its own",
            );
        }
        self.known.insert(name.to_string(), (kind, number, line));
        Ok(())
    }

    /// A line that gives names of this kind was wrong.
    pub fn doubt(&mut self, kind: Kind) {
        self.doubted.push(kind);
    }

    /// The number of what is named. What there is not is refused with 10; in silence where another line's mistake may be why.
    pub fn find(&self, name: &str, kind: Kind) -> Result<usize, Wrong> {
        let word = kind.word();
        match self.known.get(name) {
            Some(&(found, number, _)) if found == kind => Ok(number),
            Some((other, ..)) => Err((format!("{} is a {}, not a {word}", shown(name), other.word()), Some(10), String::new())),
            None if self.doubted.contains(&kind) => Err(SILENCE),
            None => Err((format!("no {word} is named {}", shown(name)), Some(10), self.advice(name, kind))),
        }
    }

    /// The name that was perhaps meant.
    fn advice(&self, name: &str, kind: Kind) -> String {
        if self.known.len() > MOST_ALIKE {
            return String::new();
        }
        let alike = |known: &str| known.to_lowercase() == name.to_lowercase();
        match self.known.iter().find(|(known, (found, ..))| *found == kind && alike(known)) {
            Some((known, _)) => format!("{} is one", shown(known)),
            None => String::new(),
        }
    }
}
