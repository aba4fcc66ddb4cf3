//! How a run ends badly: in words, by a number where there is one, and by an exit status.

use files::json::Value;
use layers::Refusal;
use std::fmt;
use std::path::Path;
use std::process::ExitCode;

/// Why a run stopped.
#[derive(Clone, Debug, PartialEq, Eq)]
pub enum Stop {
    /// The part or its plate is turned down: the number of the core's table, the place, and the words.
    Refused { number: u8, place: Place, words: String },
    /// The flags, or the files that they name, don't say what to do.
    Usage(String),
    /// Values clamp, or something that was checked is not so.
    Failed(String),
    /// A file or folder cannot be written.
    Unwritten(String),
}

/// What a refusal points at.
#[derive(Clone, Copy, Debug, PartialEq, Eq)]
pub enum Place {
    /// The whole.
    Whole,
    /// A clause of a tape, counted from 0.
    Clause(u32),
    /// A byte of a text, counted from 0.
    Byte(usize),
}

impl fmt::Display for Place {
    fn fmt(&self, f: &mut fmt::Formatter) -> fmt::Result {
        match self {
            Place::Whole => write!(f, "0"),
            Place::Clause(clause) => write!(f, "clause {clause}"),
            Place::Byte(byte) => write!(f, "byte {byte}"),
        }
    }
}

impl fmt::Display for Stop {
    fn fmt(&self, f: &mut fmt::Formatter) -> fmt::Result {
        match self {
            Stop::Refused { number, place, words } => write!(f, "refused {number} at {place}: {words}"),
            Stop::Usage(words) | Stop::Failed(words) | Stop::Unwritten(words) => write!(f, "{words}"),
        }
    }
}

impl Stop {
    /// A refusal of the core, with what the tool knows besides.
    pub fn refused(refusal: Refusal, besides: &str) -> Stop {
        let place = refusal.place().map_or(Place::Whole, Place::Clause);
        let words = if besides.is_empty() { refusal.to_string() } else { format!("{besides}: {refusal}") };
        Stop::Refused { number: refusal.number(), place, words }
    }

    pub fn unwritten(path: &Path, error: &std::io::Error) -> Stop {
        Stop::Unwritten(format!("{} cannot be written: {error}", path.display()))
    }

    pub fn unread(path: &Path, error: &std::io::Error) -> Stop {
        Stop::Usage(format!("{} cannot be read: {error}", path.display()))
    }

    /// The exit status.
    pub fn status(&self) -> u8 {
        match self {
            Stop::Refused { .. } => 1,
            Stop::Usage(_) => 2,
            Stop::Failed(_) => 3,
            Stop::Unwritten(_) => 4,
        }
    }

    pub fn exit_code(&self) -> ExitCode {
        ExitCode::from(self.status())
    }

    /// The same for a program that reads it.
    pub fn to_json(&self) -> Value {
        let mut members = vec![("status".to_string(), Value::Whole(self.status().into()))];
        if let Stop::Refused { number, place, .. } = self {
            members.push(("refused".to_string(), Value::Whole((*number).into())));
            let place = match place {
                Place::Whole => Value::Null,
                Place::Clause(clause) => Value::object([("clause", Value::Whole((*clause).into()))]),
                Place::Byte(byte) => Value::object([("byte", Value::Whole(*byte as i128))]),
            };
            members.push(("place".to_string(), place));
        }
        members.push(("words".to_string(), Value::Text(self.to_string())));
        Value::Object(members)
    }
}

impl From<Refusal> for Stop {
    fn from(refusal: Refusal) -> Stop {
        Stop::refused(refusal, "")
    }
}

/// A text as a value.
pub fn text(text: impl fmt::Display) -> Value {
    Value::Text(text.to_string())
}

/// Numbers in runs, to be read: `0 to 3, 7`.
pub fn runs(numbers: &[usize]) -> String {
    let mut shown: Vec<String> = Vec::new();
    let mut rest = numbers;
    while let Some(&first) = rest.first() {
        let len = rest.iter().zip(first..).take_while(|(number, expected)| **number == *expected).count();
        shown.push(if len == 1 { first.to_string() } else { format!("{first} to {}", first + len - 1) });
        rest = &rest[len..];
    }
    if shown.is_empty() { "none".to_string() } else { shown.join(", ") }
}

/// A number with commas between its thousands.
pub fn grouped(number: u128) -> String {
    let digits = number.to_string();
    let mut shown = String::new();
    for (place, digit) in digits.chars().enumerate() {
        if place > 0 && (digits.len() - place).is_multiple_of(3) {
            shown.push(',');
        }
        shown.push(digit);
    }
    shown
}

#[cfg(test)]
mod tests {
    use super::*;

    #[test]
    fn runs_and_groups_are_shown_short() {
        assert_eq!(runs(&[]), "none");
        assert_eq!(runs(&[0, 1, 2, 3, 7, 9, 10]), "0 to 3, 7, 9 to 10");
        assert_eq!(
            ["1", "999", "1,000", "12,345,678"],
            [1, 999, 1_000, 12_345_678].map(grouped).map(|s| s.leak() as &str)
        );
    }

    #[test]
    fn each_end_has_its_status() {
        let refused = Stop::refused(Refusal::UnwrittenSlot { clause: 4 }, "bad.part");
        assert!(refused.to_string().starts_with("refused 9 at clause 4: bad.part: clause 4"), "{refused}");
        let stops = [refused, Stop::Usage("u".into()), Stop::Failed("f".into()), Stop::Unwritten("w".into())];
        assert_eq!(stops.map(|stop| stop.status()), [1, 2, 3, 4]);
    }
}
