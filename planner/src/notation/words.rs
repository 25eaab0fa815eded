//! The words of a line: names and numbers, the sign `=`, and text in quotes. A `#` outside quotes begins a comment.

use crate::notation::fault::{is_unseen, shown};

#[derive(Clone, Debug, PartialEq)]
pub enum Word<'a> {
    Plain(&'a str),
    Equals,
    Quoted(&'a str),
}

impl Word<'_> {
    /// As it stands in the line.
    pub fn text(&self) -> String {
        match self {
            Word::Plain(word) => shown(word),
            Word::Equals => "=".into(),
            Word::Quoted(text) => format!("\"{}\"", shown(text)),
        }
    }
}

/// Characters at which an editor may show a new line, and a comment would still go on.
fn breaks_lines(c: char) -> bool {
    matches!(c, '\r' | '\u{b}' | '\u{c}' | '\u{85}' | '\u{2028}' | '\u{2029}')
}

/// What ends a plain word.
fn ends_word(c: char) -> bool {
    c.is_whitespace() || matches!(c, '=' | '#' | '"')
}

/// The words of a line. An error says what cannot stand in one, and what to do.
pub fn words_of(line: &str) -> Result<Vec<Word<'_>>, (String, &'static str)> {
    if let Some(c) = line.chars().find(|&c| breaks_lines(c)) {
        return Err((
            format!("{} within the line", c.escape_unicode()),
            "end each line with a line feed, or CR LF, and nothing else",
        ));
    }
    let mut words = Vec::new();
    let mut rest = line.trim_start();
    while let Some(first) = rest.chars().next() {
        match first {
            '#' => break,
            '=' => {
                words.push(Word::Equals);
                rest = &rest[1..];
            }
            '"' => {
                let (text, after) = quoted(&rest[1..])?;
                words.push(Word::Quoted(text));
                rest = after;
            }
            _ => {
                let (word, after) = rest.split_at(rest.find(ends_word).unwrap_or(rest.len()));
                words.push(Word::Plain(plain(word)?));
                rest = after;
            }
        }
        rest = rest.trim_start();
    }
    Ok(words)
}

fn quoted(rest: &str) -> Result<(&str, &str), (String, &'static str)> {
    let (text, after) =
        rest.split_once('"').ok_or((format!("\"{}: the quotes are not closed", shown(rest)), "end the text with \""))?;
    Ok((legible(text)?, after))
}

fn plain(word: &str) -> Result<&str, (String, &'static str)> {
    if word.contains(',') {
        return Err((format!("{}: a comma in a word", shown(word)), "put spaces between words, and no commas"));
    }
    legible(word)
}

/// Refuses what cannot be seen.
fn legible(text: &str) -> Result<&str, (String, &'static str)> {
    match text.chars().find(|&c| c.is_control() || is_unseen(c)) {
        Some(c) => Err((format!("{}: a character that cannot be seen, {}", shown(text), c.escape_unicode()), "take it out")),
        None => Ok(text),
    }
}

/// The words of one line, taken one after the other.
pub struct Cursor<'a, 'b> {
    words: &'b [Word<'a>],
    at: usize,
}

/// What is wrong with a line, document 01's number where it has one, and what to do.
pub type Wrong = (String, Option<u8>, String);

/// Something is wrong because of a mistake that is told already.
pub const SILENCE: Wrong = (String::new(), None, String::new());

pub fn wrong<T>(what: impl Into<String>, advice: impl Into<String>) -> Result<T, Wrong> {
    Err((what.into(), None, advice.into()))
}

impl<'a, 'b> Cursor<'a, 'b> {
    pub fn new(words: &'b [Word<'a>]) -> Cursor<'a, 'b> {
        Cursor { words, at: 0 }
    }

    pub fn peek(&self) -> Option<&'b Word<'a>> {
        self.words.get(self.at)
    }

    pub fn is_at_end(&self) -> bool {
        self.peek().is_none()
    }

    /// How many words are left.
    pub fn left(&self) -> usize {
        self.words.len() - self.at
    }

    /// Is the next word this one? Then it is taken.
    pub fn takes(&mut self, word: &str) -> bool {
        let is = self.peek() == Some(&Word::Plain(word));
        self.at += usize::from(is);
        is
    }

    pub fn takes_equals(&mut self) -> bool {
        let is = self.peek() == Some(&Word::Equals);
        self.at += usize::from(is);
        is
    }

    /// The next word, which has to be a plain one. `what` says what it is to be.
    pub fn plain(&mut self, what: &str) -> Result<&'a str, Wrong> {
        match self.peek() {
            Some(Word::Plain(word)) => {
                self.at += 1;
                Ok(word)
            }
            Some(word) => wrong(format!("{} in place of {what}", word.text()), ""),
            None => wrong(format!("the line ends in place of {what}"), ""),
        }
    }

    pub fn quoted(&mut self) -> Result<&'a str, Wrong> {
        match self.peek() {
            Some(Word::Quoted(text)) => {
                self.at += 1;
                Ok(text)
            }
            Some(word) => wrong(format!("{}: no quotes", word.text()), "put the text in quotes: label \"drain the ward\""),
            None => wrong("no text", "put it in quotes: label \"drain the ward\""),
        }
    }

    /// Takes this word, which has to come next.
    pub fn expect(&mut self, word: &str) -> Result<(), Wrong> {
        if self.takes(word) {
            return Ok(());
        }
        match self.peek() {
            Some(found) => wrong(format!("{} in place of \"{word}\"", found.text()), ""),
            None => wrong(format!("the line ends in place of \"{word}\""), ""),
        }
    }

    /// Nothing may follow.
    pub fn end(&self) -> Result<(), Wrong> {
        match self.peek() {
            Some(word) => wrong(format!("{}: a word too many", word.text()), "one item a line"),
            None => Ok(()),
        }
    }
}

/// A number in decimal. The greatest stands for those above it.
pub fn number(word: &str) -> Result<u64, Wrong> {
    if word.is_empty() || !word.bytes().all(|byte| byte.is_ascii_digit()) {
        return wrong(format!("{} is no number", shown(word)), "write a decimal number, digits alone");
    }
    if word.len() > 1 && word.starts_with('0') {
        return wrong(format!("{} begins with 0", shown(word)), "numbers are decimal and begin with another digit");
    }
    Ok(word.parse().unwrap_or(u64::MAX))
}

#[cfg(test)]
mod tests {
    use super::*;

    #[test]
    fn words_numbers_and_comments() {
        let line = " view é1  a=20\tb = 3 # not \"this\"";
        let expected = [
            Word::Plain("view"),
            Word::Plain("é1"),
            Word::Plain("a"),
            Word::Equals,
            Word::Plain("20"),
            Word::Plain("b"),
            Word::Equals,
            Word::Plain("3"),
        ];
        assert_eq!(words_of(line).expect("words"), expected);
        assert_eq!(words_of("label \"a # b\"x").expect("words"), [Word::Plain("label"), Word::Quoted("a # b"), Word::Plain("x")]);
        assert_eq!(words_of("# only").expect("words"), []);
        for bad in ["label \"open", "a,b", "a\u{202e}b", "a\u{7}", "\"\u{0}\""] {
            assert!(words_of(bad).is_err(), "{bad:?}");
        }
    }

    #[test]
    fn decimal_numbers() {
        assert_eq!([number("0"), number("16777215")], [Ok(0), Ok(16_777_215)]);
        assert_eq!(number(&"9".repeat(100)), Ok(u64::MAX));
        for bad in ["", "0140", "00", "-1", "+1", "1.0", "0x10", "१"] {
            assert!(number(bad).is_err(), "{bad:?}");
        }
    }
}
