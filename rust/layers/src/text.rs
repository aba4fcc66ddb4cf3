//! Formulas as text.

use crate::raw::{self, TEXT_TAPE};
use crate::{Refusal, Tape};
use std::error::Error;
use std::fmt;

/// Why a text has no tape, and where its reader stopped.
///
/// ```
/// use layers::{Refusal, Tape};
///
/// let error = Tape::from_text("min(x + 1, y) - root(z").unwrap_err();
/// assert_eq!((error.refusal(), error.at()), (Refusal::BrokenText, Some(22)));
/// assert!(error.to_string().starts_with("the text ends too early, at byte 22, after `min(x + 1, y) - root(z`"));
///
/// let error = Tape::from_text("min(x + 1; y)").unwrap_err();
/// assert_eq!((error.refusal(), error.at()), (Refusal::BrokenText, Some(9)));
/// assert!(error.to_string().starts_with("no text of a formula has `;` at byte 9, after `min(x + 1`"));
/// ```
#[derive(Clone, Debug, PartialEq, Eq, Hash)]
pub struct TextError {
    refusal: Refusal,
    at: Option<usize>,
    /// The end of what was read, and the character that stopped the reader.
    before: String,
    here: Option<char>,
}

/// How many bytes of what was read an error shows.
const SHOWN: usize = 24;

impl TextError {
    fn new(refusal: Refusal, text: &str) -> TextError {
        let at = stop(refusal, text.as_bytes());
        // every byte that was read is a character of its own
        let end = at.unwrap_or(0);
        let before = text[end.saturating_sub(SHOWN)..end].to_string();
        TextError { refusal, at, before, here: text[end..].chars().next() }
    }

    /// The line of the table: 17, 18 or 19.
    pub fn refusal(&self) -> Refusal {
        self.refusal
    }

    /// The byte, counted from 0, at which the reader stopped, or the text's length if it stopped at the end. `None`
    /// where the text is a formula, but too large a one.
    pub fn at(&self) -> Option<usize> {
        self.at
    }
}

impl fmt::Display for TextError {
    fn fmt(&self, f: &mut fmt::Formatter) -> fmt::Result {
        let TextError { refusal, before, .. } = self;
        match (self.at, self.here) {
            (None, _) => return write!(f, "{refusal}"),
            (Some(at), None) => write!(f, "the text ends too early, at byte {at}")?,
            (Some(at), Some(here)) if *refusal == Refusal::BrokenText => {
                write!(f, "no text of a formula has `{}` at byte {at}", here.escape_debug())?;
            }
            (Some(at), Some(here)) => write!(f, "`{here}` at byte {at} opens inside too many others")?,
        }
        if !before.is_empty() {
            write!(f, ", after `{before}`")?;
        }
        write!(f, ": {refusal}")
    }
}

impl Error for TextError {
    fn source(&self) -> Option<&(dyn Error + 'static)> {
        Some(&self.refusal)
    }
}

impl Tape {
    /// The tape of a formula that is written as text, such as `max(root(sqr(x) + sqr(y)) - 12.5, abs(z) - 2)`.
    ///
    /// A sum is products joined by + or -, a product signed items joined by * or /, from the left; an item is a number,
    /// x, y, z, a sum in brackets, abs, sqr or root of one sum in brackets, min or max of two with a comma between. A
    /// minus may stand before an item, and is negate of that item alone. A number has 1 to 5 digits, at most 32,767,
    /// then if wished a point and 1 to 4 digits; it is rounded down to a unit. Spaces are skipped, but not inside a
    /// number or a name, and nothing else is: a newline is no part of a formula.
    ///
    /// ```
    /// use layers::{fixed, Clause, Tape};
    ///
    /// let tape = Tape::from_text("-x*y + 1.5")?;
    /// assert_eq!(tape.slots(), 2);
    /// assert_eq!(tape.clauses(), [
    ///     Clause::x(0),
    ///     Clause::negate(0, 0),
    ///     Clause::y(1),
    ///     Clause::multiply(0, 0, 1),
    ///     Clause::constant(1, fixed(1.5)),
    ///     Clause::add(0, 0, 1),
    /// ]);
    /// # Ok::<(), layers::TextError>(())
    /// ```
    ///
    /// The tape has a clause for each number, axis and operation, and its value at every sample is what the formula
    /// means. Refused are a text that breaks these rules, one with a bracket inside 32 others, and a formula of more
    /// than 1,024 clauses or 64 slots: lines 17 to 19.
    pub fn from_text(text: &str) -> Result<Tape, TextError> {
        let mut out = vec![0; TEXT_TAPE];
        match raw::read_text(text.as_bytes(), &mut out).into_result() {
            Ok(_) => Ok(Tape::written(out)),
            Err(refusal) => Err(TextError::new(refusal, text)),
        }
    }
}

impl std::str::FromStr for Tape {
    type Err = TextError;

    /// [`Tape::from_text`].
    fn from_str(text: &str) -> Result<Tape, TextError> {
        Tape::from_text(text)
    }
}

/// Where the reader of a refused text stopped, found by reading the text's beginnings. The core returns no place; what
/// it does return fixes it.
fn stop(refusal: Refusal, text: &[u8]) -> Option<usize> {
    match refusal {
        // shorter beginnings may be allowed or broken at their end, but only one that has the deep bracket is 18
        Refusal::DeepBracket => Some(last(text.len(), |n| number(&text[..n]) != Refusal::DeepBracket.number())),
        Refusal::BrokenText => Some(last(text.len(), |n| begins(&text[..n]))),
        _ => None,
    }
}

/// The greatest n up to `most` that holds. 0 holds, and with n all that are smaller.
fn last(most: usize, holds: impl Fn(usize) -> bool) -> usize {
    let (mut low, mut high) = (0, most);
    while low < high {
        let middle = high - (high - low) / 2;
        if holds(middle) {
            low = middle;
        } else {
            high = middle - 1;
        }
    }
    low
}

/// What may come next: an item or a bracket; a join; decimals; the rest of a name.
const NEXT: [&str; 14] = ["", "+", "0+", "bs", "s", "qr", "r", "oot", "ot", "t", "in", "n", "ax", "x"];

/// Whether some allowed text begins so, given that no bracket is too deep in it. Each allowed beginning has something
/// that may come next and, after that, brackets, of which the 33rd at the latest opens inside 32 others: line 18. If
/// the beginning is not allowed, it is line 17 that is met, whatever comes next.
fn begins(beginning: &[u8]) -> bool {
    let deep = [b'('; 33];
    NEXT.iter().any(|next| number(&[beginning, next.as_bytes(), &deep].concat()) == Refusal::DeepBracket.number())
}

/// The number that comes back for a text.
fn number(text: &[u8]) -> u8 {
    raw::read_text(text, &mut [0; TEXT_TAPE]).number
}

#[cfg(test)]
mod tests {
    use super::*;

    /// What a person is shown, up to the refusal's own words.
    fn shown(text: &str) -> String {
        let error = Tape::from_text(text).unwrap_err();
        let words = error.to_string();
        words.strip_suffix(&error.refusal().to_string()).expect("the refusal's words").to_string()
    }

    #[test]
    fn errors_say_where() {
        assert_eq!(shown(""), "the text ends too early, at byte 0: ");
        assert_eq!(shown("x*"), "the text ends too early, at byte 2, after `x*`: ");
        assert_eq!(shown("?"), "no text of a formula has `?` at byte 0: ");
        assert_eq!(shown("x\n+ y"), "no text of a formula has `\\n` at byte 1, after `x`: ");
        assert_eq!(shown("x + \u{e9}"), "no text of a formula has `\u{e9}` at byte 4, after `x + `: ");
        assert_eq!(shown("x + 32768"), "no text of a formula has `8` at byte 8, after `x + 3276`: ");
        let deep = "(".repeat(33);
        assert_eq!(shown(&deep), format!("`(` at byte 32 opens inside too many others, after `{}`: ", &deep[..24]));
        assert_eq!(shown(&vec!["x"; 600].join("+")), "");
    }

    /// As long as any that `./draw` takes: there is room behind each beginning.
    #[test]
    fn a_long_text_that_ends_too_early() {
        let text = "x+".repeat(30_730);
        assert_eq!(Tape::from_text(&text).unwrap_err().at(), Some(61_460));
        assert!(shown(&text).starts_with("the text ends too early, at byte 61460, after `"));
        assert_eq!(Tape::from_text(&format!("{text}+")).unwrap_err().at(), Some(61_460));
    }

    #[test]
    fn the_refusal_is_the_source() {
        let error = "x y".parse::<Tape>().unwrap_err();
        assert_eq!((error.refusal(), error.at()), (Refusal::BrokenText, Some(2)));
        assert_eq!(error.source().expect("a source").to_string(), Refusal::BrokenText.to_string());
    }
}
