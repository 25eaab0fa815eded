//! What is wrong with a line of a plan, in words.

/// The line, what is wrong, document 01's number where it has one, and what to do.
#[derive(Clone, Debug, PartialEq)]
pub struct Fault {
    pub line: usize,
    pub what: String,
    pub number: Option<u8>,
    pub advice: String,
}

impl Fault {
    /// One that document 01 has no number for.
    pub fn of_text(line: usize, what: impl Into<String>, advice: impl Into<String>) -> Fault {
        Fault { line, what: what.into(), number: None, advice: advice.into() }
    }

    pub fn refused(line: usize, what: impl Into<String>, number: u8, advice: impl Into<String>) -> Fault {
        Fault { line, what: what.into(), number: Some(number), advice: advice.into() }
    }

    /// What is wrong, its number, and what to do.
    pub fn words(&self) -> String {
        let number = self.number.map_or(String::new(), |number| format!(" ({number})"));
        let advice = if self.advice.is_empty() { String::new() } else { format!("; {}", self.advice) };
        format!("{}{number}{advice}", self.what)
    }

    /// The same with the file and the line in front.
    pub fn in_file(&self, file: &str) -> String {
        format!("{file}:{}: {}", self.line, self.words())
    }
}

/// The most characters of a word that are shown.
const SHOWN: usize = 64;

/// A word as it may be printed: not too long, and without characters that act on a terminal.
pub fn shown(word: &str) -> String {
    let mut text: String = word.chars().take(SHOWN).flat_map(|c| printable(c).chars().collect::<Vec<_>>()).collect();
    if word.chars().nth(SHOWN).is_some() {
        text.push_str("..");
    }
    text
}

fn printable(c: char) -> String {
    if c.is_control() || is_unseen(c) {
        c.escape_unicode().to_string()
    } else {
        c.to_string()
    }
}

/// Characters that take no room, or turn the direction of writing: a name with one looks like another.
pub fn is_unseen(c: char) -> bool {
    matches!(c, '\u{ad}' | '\u{34f}' | '\u{61c}' | '\u{115f}' | '\u{1160}' | '\u{17b4}' | '\u{17b5}' | '\u{180b}'..='\u{180e}')
        || matches!(c, '\u{200b}'..='\u{200f}' | '\u{202a}'..='\u{202e}' | '\u{2060}'..='\u{206f}' | '\u{3164}' | '\u{feff}')
        || matches!(c, '\u{ffa0}' | '\u{fff9}'..='\u{fffb}' | '\u{e0000}'..='\u{e007f}')
}
