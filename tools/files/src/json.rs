//! JSON, as far as manifests have it.

use std::fmt::Write;

/// A value. The members of an object keep their order.
#[derive(Clone, Debug, PartialEq)]
pub enum Value {
    /// null
    Null,
    /// true or false
    Bool(bool),
    /// A number without a point or an exponent.
    Whole(i128),
    /// Another number. It is finite: another one is written as null.
    Real(f64),
    /// A string.
    Text(String),
    /// An array.
    List(Vec<Value>),
    /// An object.
    Object(Vec<(String, Value)>),
}

impl Value {
    /// An object of these members.
    pub fn object<const N: usize>(members: [(&str, Value); N]) -> Self {
        Value::Object(members.into_iter().map(|(name, value)| (name.to_owned(), value)).collect())
    }

    /// The member of this name, if this is an object that has it.
    pub fn get(&self, name: &str) -> Option<&Value> {
        match self {
            Value::Object(members) => members.iter().find(|(other, _)| other == name).map(|(_, value)| value),
            _ => None,
        }
    }

    /// What it says, if this is true or false.
    pub fn bool(&self) -> Option<bool> {
        if let Value::Bool(value) = self { Some(*value) } else { None }
    }

    /// The number, if this is a whole one that the type asked for has.
    pub fn whole<T: TryFrom<i128>>(&self) -> Option<T> {
        if let Value::Whole(value) = self { T::try_from(*value).ok() } else { None }
    }

    /// The string, if this is one.
    pub fn text(&self) -> Option<&str> {
        if let Value::Text(text) = self { Some(text) } else { None }
    }

    /// The elements, if this is an array.
    pub fn list(&self) -> Option<&[Value]> {
        if let Value::List(list) = self { Some(list) } else { None }
    }
}

macro_rules! from_whole {
    ($($kind:ty),*) => {
        $(impl From<$kind> for Value {
            fn from(value: $kind) -> Self {
                Value::Whole(value.into())
            }
        })*
    };
}

from_whole!(u8, u16, u32, u64, i32, i64, i128);

impl From<usize> for Value {
    fn from(value: usize) -> Self {
        Value::Whole(value as i128)
    }
}

impl From<bool> for Value {
    fn from(value: bool) -> Self {
        Value::Bool(value)
    }
}

impl From<f64> for Value {
    fn from(value: f64) -> Self {
        Value::Real(value)
    }
}

impl From<&str> for Value {
    fn from(text: &str) -> Self {
        Value::Text(text.to_owned())
    }
}

impl From<String> for Value {
    fn from(text: String) -> Self {
        Value::Text(text)
    }
}

impl From<Vec<Value>> for Value {
    fn from(list: Vec<Value>) -> Self {
        Value::List(list)
    }
}

/// Writes a value with a line end: an object's members, or an array's elements, a line each, if one of them has some
/// of its own or the whole is long.
pub fn write(value: &Value) -> String {
    let mut text = String::new();
    put(value, 0, &mut text);
    text.push('\n');
    text
}

/// Writes a value in one line, without a line end.
pub fn line(value: &Value) -> String {
    let mut text = String::new();
    put_line(value, &mut text);
    text
}

/// The most columns of an array or an object that stays in one line.
const COLUMNS: usize = 160;

/// Pieces of a value: brackets, and for each part what stands before it and the part.
type Parts<'a> = (char, Vec<(Option<&'a str>, &'a Value)>, char);

fn parts(value: &Value) -> Option<Parts<'_>> {
    match value {
        Value::List(list) => Some(('[', list.iter().map(|value| (None, value)).collect(), ']')),
        Value::Object(members) => {
            Some(('{', members.iter().map(|(name, value)| (Some(name.as_str()), value)).collect(), '}'))
        }
        _ => None,
    }
}

fn put(value: &Value, depth: usize, to: &mut String) {
    let has_parts = |value: &Value| parts(value).is_some_and(|(_, parts, _)| !parts.is_empty());
    let Some((open, parts, close)) = parts(value) else { return put_line(value, to) };
    let short = line(value);
    if !parts.iter().any(|(_, value)| has_parts(value)) && short.len() <= COLUMNS {
        return to.push_str(&short);
    }
    to.push(open);
    for (place, (name, value)) in parts.into_iter().enumerate() {
        to.push_str(if place == 0 { "\n" } else { ",\n" });
        to.extend(std::iter::repeat_n("  ", depth + 1));
        put_name(name, to);
        put(value, depth + 1, to);
    }
    to.push('\n');
    to.extend(std::iter::repeat_n("  ", depth));
    to.push(close);
}

fn put_line(value: &Value, to: &mut String) {
    // Writing to a String does not fail.
    let _ = match value {
        Value::Bool(value) => write!(to, "{value}"),
        Value::Whole(value) => write!(to, "{value}"),
        // The shortest digits that are read as this number.
        Value::Real(value) if value.is_finite() => write!(to, "{value:?}"),
        Value::Text(text) => return put_text(text, to),
        Value::List(_) | Value::Object(_) => return put_parts(value, to),
        Value::Null | Value::Real(_) => write!(to, "null"),
    };
}

fn put_parts(value: &Value, to: &mut String) {
    let Some((open, parts, close)) = parts(value) else { return };
    to.push(open);
    for (place, (name, value)) in parts.into_iter().enumerate() {
        to.push_str(if place == 0 { "" } else { ", " });
        put_name(name, to);
        put_line(value, to);
    }
    to.push(close);
}

fn put_name(name: Option<&str>, to: &mut String) {
    if let Some(name) = name {
        put_text(name, to);
        to.push_str(": ");
    }
}

fn put_text(text: &str, to: &mut String) {
    to.push('"');
    for letter in text.chars() {
        match letter {
            '"' | '\\' => to.extend(['\\', letter]),
            '\n' => to.push_str("\\n"),
            '\t' => to.push_str("\\t"),
            '\r' => to.push_str("\\r"),
            '\0'..='\x1f' | '\x7f' => drop(write!(to, "\\u{:04x}", letter as u32)),
            _ => to.push(letter),
        }
    }
    to.push('"');
}

/// Why a text is not JSON, and at which byte.
#[derive(Clone, Debug, PartialEq, Eq)]
pub struct Wrong {
    /// The byte where reading stopped.
    pub at: usize,
    /// What is wrong there.
    pub what: &'static str,
}

impl std::fmt::Display for Wrong {
    fn fmt(&self, to: &mut std::fmt::Formatter<'_>) -> std::fmt::Result {
        write!(to, "{} at byte {}", self.what, self.at)
    }
}

/// Reads a text that is one value and nothing else. A name that an object has twice is wrong.
pub fn parse(text: &str) -> Result<Value, Wrong> {
    let mut reader = Reader { text, at: 0 };
    reader.space();
    let value = reader.value(0)?;
    if reader.at < text.len() { Err(reader.wrong("something behind the value")) } else { Ok(value) }
}

/// The most brackets in brackets.
const DEEPEST: usize = 64;

struct Reader<'a> {
    text: &'a str,
    at: usize,
}

impl<'a> Reader<'a> {
    fn wrong(&self, what: &'static str) -> Wrong {
        Wrong { at: self.at, what }
    }

    fn rest(&self) -> &'a str {
        &self.text[self.at..]
    }

    fn space(&mut self) {
        self.at = self.text.len() - self.rest().trim_start_matches([' ', '\t', '\n', '\r']).len();
    }

    /// Goes past these letters, if they are next.
    fn skip(&mut self, letters: &str) -> bool {
        let next = self.rest().starts_with(letters);
        self.at += if next { letters.len() } else { 0 };
        next
    }

    /// One value and the space behind it.
    fn value(&mut self, depth: usize) -> Result<Value, Wrong> {
        if depth > DEEPEST {
            return Err(self.wrong("more than 64 brackets in one another"));
        }
        let value = match self.rest().bytes().next() {
            Some(b'{') => self.object(depth)?,
            Some(b'[') => self.array(depth)?,
            Some(b'"') => Value::Text(self.string()?),
            Some(b'-' | b'0'..=b'9') => self.number()?,
            _ => self.word()?,
        };
        self.space();
        Ok(value)
    }

    fn word(&mut self) -> Result<Value, Wrong> {
        let words = [("null", Value::Null), ("true", Value::Bool(true)), ("false", Value::Bool(false))];
        let found = words.into_iter().find(|(word, _)| self.skip(word));
        found.map(|(_, value)| value).ok_or_else(|| self.wrong("no value"))
    }

    fn object(&mut self, depth: usize) -> Result<Value, Wrong> {
        let mut members: Vec<(String, Value)> = Vec::new();
        self.sequence("}", |reader| {
            let at = reader.at;
            let name = reader.string()?;
            if members.iter().any(|(other, _)| *other == name) {
                return Err(Wrong { at, what: "a name that was there before" });
            }
            reader.space();
            if !reader.skip(":") {
                return Err(reader.wrong("no ':'"));
            }
            reader.space();
            members.push((name, reader.value(depth + 1)?));
            Ok(())
        })?;
        Ok(Value::Object(members))
    }

    fn array(&mut self, depth: usize) -> Result<Value, Wrong> {
        let mut list = Vec::new();
        self.sequence("]", |reader| {
            list.push(reader.value(depth + 1)?);
            Ok(())
        })?;
        Ok(Value::List(list))
    }

    /// What stands in brackets, with commas between.
    fn sequence(&mut self, close: &str, mut one: impl FnMut(&mut Self) -> Result<(), Wrong>) -> Result<(), Wrong> {
        self.at += 1;
        self.space();
        if self.skip(close) {
            return Ok(());
        }
        loop {
            one(self)?;
            if self.skip(close) {
                return Ok(());
            }
            if !self.skip(",") {
                return Err(self.wrong("no ',' and no closing bracket"));
            }
            self.space();
        }
    }

    fn number(&mut self) -> Result<Value, Wrong> {
        let start = self.at;
        self.skip("-");
        let leading_zero = self.rest().starts_with('0');
        if self.digits()? > 1 && leading_zero {
            return Err(Wrong { at: start, what: "a number that begins with 0" });
        }
        let mut whole = true;
        if self.skip(".") {
            whole = false;
            self.digits()?;
        }
        if self.skip("e") || self.skip("E") {
            whole = false;
            let _ = self.skip("+") || self.skip("-");
            self.digits()?;
        }
        let digits = &self.text[start..self.at];
        let too_large = Wrong { at: start, what: "a number too large" };
        if whole {
            return digits.parse().map(Value::Whole).map_err(|_| too_large);
        }
        digits.parse().ok().filter(|value: &f64| value.is_finite()).map(Value::Real).ok_or(too_large)
    }

    /// Goes past digits, of which one must be there, and says how many.
    fn digits(&mut self) -> Result<usize, Wrong> {
        let rest = self.rest();
        let count = rest.len() - rest.trim_start_matches(|letter: char| letter.is_ascii_digit()).len();
        self.at += count;
        if count == 0 { Err(self.wrong("no digit")) } else { Ok(count) }
    }

    fn string(&mut self) -> Result<String, Wrong> {
        if !self.skip("\"") {
            return Err(self.wrong("no string"));
        }
        let mut text = String::new();
        loop {
            let plain = self.rest().find(|letter| matches!(letter, '"' | '\\' | '\0'..='\x1f'));
            let plain = plain.ok_or(Wrong { at: self.text.len(), what: "a string without an end" })?;
            text.push_str(&self.rest()[..plain]);
            self.at += plain;
            if self.skip("\"") {
                return Ok(text);
            }
            if !self.skip("\\") {
                return Err(self.wrong("a control character in a string"));
            }
            text.push(self.escape()?);
        }
    }

    /// What stands behind a backslash.
    fn escape(&mut self) -> Result<char, Wrong> {
        let names = [
            ("\"", '"'),
            ("\\", '\\'),
            ("/", '/'),
            ("b", '\x08'),
            ("f", '\x0c'),
            ("n", '\n'),
            ("r", '\r'),
            ("t", '\t'),
        ];
        if let Some((_, letter)) = names.into_iter().find(|(name, _)| self.skip(name)) {
            return Ok(letter);
        }
        let start = self.at;
        let first = self.unit()?;
        // Beyond 16 bits a letter is a pair of surrogates.
        let code = if (0xd800..0xdc00).contains(&first) && self.skip("\\") {
            let second = self.unit()?.wrapping_sub(0xdc00);
            if second < 0x400 { 0x10000 + ((first - 0xd800) << 10 | second) } else { first }
        } else {
            first
        };
        char::from_u32(code).ok_or(Wrong { at: start, what: "half a pair of surrogates" })
    }

    /// The four digits behind `\u`.
    fn unit(&mut self) -> Result<u32, Wrong> {
        if !self.skip("u") {
            return Err(self.wrong("an unknown escape"));
        }
        let digits = self.rest().as_bytes().first_chunk::<4>().filter(|four| four.iter().all(u8::is_ascii_hexdigit));
        let digits = digits.ok_or_else(|| self.wrong("no four hexadecimal digits"))?;
        self.at += 4;
        Ok(digits.iter().fold(0, |code, digit| code * 16 + (*digit as char).to_digit(16).unwrap_or(0)))
    }
}

#[cfg(test)]
mod tests {
    use super::*;
    use crate::tests::{Folder, other};
    use std::fs;

    fn sample() -> Value {
        let layer = |k: u32| Value::object([("layer", k.into()), ("z", "1/40".into()), ("sha256", "00ff".into())]);
        Value::object([
            ("formula", "max(x, \"y\") \\ \n\t\u{1} ö 😀 \u{7f}".into()),
            ("least", Value::from(i64::MIN)),
            ("most", Value::from(u64::MAX)),
            ("real", 0.1.into()),
            ("small", Value::Real(-1.5e-300)),
            ("none", Value::Null),
            ("up", true.into()),
            ("down", false.into()),
            ("empty", Value::List(vec![])),
            ("nothing", Value::Object(vec![])),
            ("size", vec![Value::from(3840), Value::from(2400)].into()),
            ("long", (0..100).map(Value::from).collect::<Vec<_>>().into()),
            ("layers", (0..3).map(layer).collect::<Vec<_>>().into()),
        ])
    }

    #[test]
    fn what_is_written_is_read_again() {
        let value = sample();
        assert_eq!(parse(&write(&value)), Ok(value.clone()));
        assert_eq!(parse(&line(&value)), Ok(value));
    }

    #[test]
    fn the_layout_is_a_line_an_element() {
        let layer = |k: u32| Value::object([("layer", k.into()), ("z", 0.5.into())]);
        let value =
            Value::object([("size", vec![1.into(), 2.into()].into()), ("layers", vec![layer(0), layer(1)].into())]);
        let lines = [
            "{",
            "  \"size\": [1, 2],",
            "  \"layers\": [",
            "    {\"layer\": 0, \"z\": 0.5},",
            "    {\"layer\": 1, \"z\": 0.5}",
            "  ]",
            "}",
            "",
        ];
        assert_eq!(write(&value), lines.join("\n"));
        let one = "{\"size\": [1, 2], \"layers\": [{\"layer\": 0, \"z\": 0.5}, {\"layer\": 1, \"z\": 0.5}]}";
        assert_eq!(line(&value), one);
    }

    #[test]
    fn members_are_found() {
        let value = sample();
        assert_eq!(value.get("size").and_then(Value::list).map(<[_]>::len), Some(2));
        assert_eq!(value.get("most").and_then(Value::whole::<u64>), Some(u64::MAX));
        assert_eq!(value.get("most").and_then(Value::whole::<i64>), None);
        assert_eq!(value.get("up").and_then(Value::bool), Some(true));
        assert_eq!(value.get("layers").and_then(|layers| layers.list()?[2].get("z")?.text()), Some("1/40"));
        assert_eq!(value.get("other"), None);
    }

    #[test]
    fn numbers_and_letters() {
        assert_eq!(parse(" -0 "), Ok(Value::Whole(0)));
        assert_eq!(parse("1e3"), Ok(Value::Real(1000.0)));
        assert_eq!(parse("-12.50E-1"), Ok(Value::Real(-1.25)));
        assert_eq!(parse(r#""A\u00e9\ud83d\ude00\/\b""#), Ok("Aé😀/\u{8}".into()));
        assert_eq!(line(&Value::Real(f64::NAN)), "null");
    }

    #[test]
    fn what_is_not_json_is_refused_with_its_place() {
        let wrong = [
            ("", 0, "no value"),
            ("nul", 0, "no value"),
            ("nullx", 4, "something behind the value"),
            ("1 2", 2, "something behind the value"),
            ("01", 0, "a number that begins with 0"),
            ("-", 1, "no digit"),
            ("1.", 2, "no digit"),
            ("1e", 2, "no digit"),
            (".5", 0, "no value"),
            ("+1", 0, "no value"),
            ("1e999", 0, "a number too large"),
            ("999999999999999999999999999999999999999999", 0, "a number too large"),
            ("[1,]", 3, "no value"),
            ("[1 2]", 3, "no ',' and no closing bracket"),
            ("[1", 2, "no ',' and no closing bracket"),
            ("{\"a\":1,}", 7, "no string"),
            ("{a:1}", 1, "no string"),
            ("{\"a\" 1}", 5, "no ':'"),
            ("{\"a\":1,\"a\":2}", 7, "a name that was there before"),
            ("\"a", 2, "a string without an end"),
            ("\"a\nb\"", 2, "a control character in a string"),
            ("\"\\x\"", 2, "an unknown escape"),
            ("\"\\u12g4\"", 3, "no four hexadecimal digits"),
            ("\"\\ud83d\"", 2, "half a pair of surrogates"),
            ("\"\\ud83d\\u0041\"", 2, "half a pair of surrogates"),
            ("\"\\ude00\"", 2, "half a pair of surrogates"),
            ("'a'", 0, "no value"),
        ];
        for (text, at, what) in wrong {
            assert_eq!(parse(text), Err(Wrong { at, what }), "{text}");
        }
        let deep = "[".repeat(100_000);
        assert_eq!(parse(&deep).unwrap_err().at, DEEPEST + 1);
    }

    /// Each cut of a text is refused, and no cut or changed byte panics.
    #[test]
    fn damaged_texts_are_refused() {
        let text = line(&sample());
        for (length, _) in text.char_indices() {
            assert!(parse(&text[..length]).is_err(), "cut to {length}");
        }
        for place in 0..text.len() {
            for other in *b"\"\\,:[]{}0-e. u\x01" {
                let mut bytes = text.clone().into_bytes();
                bytes[place] = other;
                if let Ok(text) = String::from_utf8(bytes) {
                    let _ = parse(&text);
                }
            }
        }
    }

    #[test]
    fn another_program_reads_the_same() {
        let folder = Folder::new();
        let path = folder.path("manifest.json");
        fs::write(&path, write(&sample())).unwrap();
        let reader = "import json, sys; print(json.dumps(json.load(open(sys.argv[1]))))";
        let Some(said) = other("python3", &["-c".as_ref(), reader.as_ref(), path.as_ref()]) else { return };
        assert_eq!(parse(&said), Ok(sample()));
    }
}
