//! A reader of JSON that takes nothing but JSON: RFC 8259, and no name twice in an object.

use std::collections::BTreeMap;

#[derive(Clone, Debug, PartialEq)]
pub enum Json {
    Null,
    Truth(bool),
    Number(f64),
    Text(String),
    List(Vec<Json>),
    Object(BTreeMap<String, Json>),
}

impl Json {
    /// What an object has under this name.
    pub fn at(&self, name: &str) -> &Json {
        match self {
            Json::Object(fields) => fields.get(name).unwrap_or_else(|| panic!("no {name} in {fields:?}")),
            other => panic!("no object with {name}: {other:?}"),
        }
    }

    pub fn list(&self) -> &[Json] {
        match self {
            Json::List(items) => items,
            other => panic!("no list: {other:?}"),
        }
    }

    pub fn text(&self) -> &str {
        match self {
            Json::Text(text) => text,
            other => panic!("no text: {other:?}"),
        }
    }

    /// A count or a place: a whole number that is not negative.
    pub fn count(&self) -> u64 {
        match self {
            Json::Number(number) if *number >= 0.0 && number.fract() == 0.0 => *number as u64,
            other => panic!("no count: {other:?}"),
        }
    }

    pub fn is_true(&self) -> bool {
        match self {
            Json::Truth(truth) => *truth,
            other => panic!("neither true nor false: {other:?}"),
        }
    }
}

/// What a text says in JSON, or what is wrong with it and how many bytes into it.
pub fn read(text: &str) -> Result<Json, String> {
    let mut reader = Reader { text: text.as_bytes(), at: 0 };
    let value = reader.value(0)?;
    reader.space();
    match reader.peek() {
        None => Ok(value),
        Some(_) => reader.wrong("more after the value"),
    }
}

/// Deeper than any output that is read here.
const DEEPEST: usize = 64;

struct Reader<'a> {
    text: &'a [u8],
    at: usize,
}

impl Reader<'_> {
    fn wrong<T>(&self, what: &str) -> Result<T, String> {
        Err(format!("{what}, at byte {}", self.at))
    }

    fn peek(&self) -> Option<u8> {
        self.text.get(self.at).copied()
    }

    fn space(&mut self) {
        while matches!(self.peek(), Some(b' ' | b'\t' | b'\n' | b'\r')) {
            self.at += 1;
        }
    }

    /// Goes past this byte if it comes next.
    fn takes(&mut self, byte: u8) -> bool {
        let comes = self.peek() == Some(byte);
        self.at += usize::from(comes);
        comes
    }

    fn value(&mut self, depth: usize) -> Result<Json, String> {
        self.space();
        match self.peek() {
            _ if depth > DEEPEST => self.wrong("too deep"),
            Some(b'{') => self.object(depth),
            Some(b'[') => self.items(depth),
            Some(b'"') => self.string().map(Json::Text),
            Some(b'-' | b'0'..=b'9') => self.number(),
            _ => self.word(),
        }
    }

    fn word(&mut self) -> Result<Json, String> {
        for (word, value) in [("null", Json::Null), ("true", Json::Truth(true)), ("false", Json::Truth(false))] {
            if self.text[self.at..].starts_with(word.as_bytes()) {
                self.at += word.len();
                return Ok(value);
            }
        }
        self.wrong("no value")
    }

    fn digits(&mut self) -> Result<(), String> {
        let first = self.at;
        while matches!(self.peek(), Some(b'0'..=b'9')) {
            self.at += 1;
        }
        if self.at == first {
            return self.wrong("no digit");
        }
        Ok(())
    }

    fn number(&mut self) -> Result<Json, String> {
        let first = self.at;
        self.takes(b'-');
        if !self.takes(b'0') {
            self.digits()?;
        }
        if self.takes(b'.') {
            self.digits()?;
        }
        if self.takes(b'e') || self.takes(b'E') {
            let _ = self.takes(b'+') || self.takes(b'-');
            self.digits()?;
        }
        let digits = std::str::from_utf8(&self.text[first..self.at]).expect("digits and signs");
        Ok(Json::Number(digits.parse().expect("a number")))
    }

    fn items(&mut self, depth: usize) -> Result<Json, String> {
        let mut items = Vec::new();
        self.at += 1;
        self.space();
        if self.takes(b']') {
            return Ok(Json::List(items));
        }
        loop {
            items.push(self.value(depth + 1)?);
            self.space();
            if self.takes(b']') {
                return Ok(Json::List(items));
            }
            if !self.takes(b',') {
                return self.wrong("neither , nor ]");
            }
        }
    }

    fn object(&mut self, depth: usize) -> Result<Json, String> {
        let mut fields = BTreeMap::new();
        self.at += 1;
        self.space();
        if self.takes(b'}') {
            return Ok(Json::Object(fields));
        }
        loop {
            self.space();
            let name = self.string()?;
            self.space();
            if !self.takes(b':') {
                return self.wrong("no :");
            }
            let value = self.value(depth + 1)?;
            if fields.insert(name, value).is_some() {
                return self.wrong("a name twice");
            }
            self.space();
            if self.takes(b'}') {
                return Ok(Json::Object(fields));
            }
            if !self.takes(b',') {
                return self.wrong("neither , nor }");
            }
        }
    }

    fn string(&mut self) -> Result<String, String> {
        if !self.takes(b'"') {
            return self.wrong("no quotes");
        }
        let mut bytes = Vec::new();
        while !self.takes(b'"') {
            match self.peek() {
                None => return self.wrong("the quotes are not closed"),
                Some(b'\\') => bytes.extend(self.escaped()?.to_string().bytes()),
                Some(0..=0x1f) => return self.wrong("a control character as it is"),
                Some(byte) => {
                    bytes.push(byte);
                    self.at += 1;
                }
            }
        }
        Ok(String::from_utf8(bytes).expect("parts of a text, cut at quotes and backslashes"))
    }

    fn escaped(&mut self) -> Result<char, String> {
        self.at += 1;
        let letter = self.peek();
        self.at += 1;
        Ok(match letter {
            Some(sign @ (b'"' | b'\\' | b'/')) => sign as char,
            Some(b'b') => '\u{8}',
            Some(b'f') => '\u{c}',
            Some(b'n') => '\n',
            Some(b'r') => '\r',
            Some(b't') => '\t',
            Some(b'u') => return self.by_number(),
            _ => return self.wrong("no such escape"),
        })
    }

    fn four(&mut self) -> Result<u32, String> {
        let digits = self.text.get(self.at..self.at + 4).filter(|digits| digits.iter().all(u8::is_ascii_hexdigit));
        let Some(digits) = digits else { return self.wrong("not four hexadecimal digits") };
        self.at += 4;
        let digits = std::str::from_utf8(digits).expect("digits");
        Ok(u32::from_str_radix(digits, 16).expect("four digits"))
    }

    /// A character by its number; those beyond four digits come as two halves.
    fn by_number(&mut self) -> Result<char, String> {
        let mut number = self.four()?;
        if (0xd800..0xdc00).contains(&number) && self.takes(b'\\') && self.takes(b'u') {
            let low = self.four()?;
            if !(0xdc00..0xe000).contains(&low) {
                return self.wrong("half a character");
            }
            number = 0x10000 + ((number - 0xd800) << 10) + (low - 0xdc00);
        }
        char::from_u32(number).map_or_else(|| self.wrong("half a character"), Ok)
    }
}
