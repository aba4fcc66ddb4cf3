//! Formulas as people write them: names, comments, minima of many, powers, the sine of a number. A text is read to a
//! tree (`read`), and the tree is written as the plain formula that the proved reader reads (`expand`). Nothing here is
//! proved, and nothing needs to be: what is drawn is the plain formula, which can be looked at.

pub mod expand;
mod read;
mod tokens;
pub mod values;

use std::fmt;
use std::rc::Rc;

/// A part of a formula, with the byte at which it begins.
#[derive(Debug, PartialEq)]
pub struct Tree {
    pub at: usize,
    pub kind: Kind,
}

/// What a part of a formula is. A name stands for the tree that it was given: equal names share one.
#[derive(Debug, PartialEq)]
pub enum Kind {
    /// A number, not below 0.
    Number(f64),
    /// x, y or z.
    Axis(usize),
    Negate(Rc<Tree>),
    Unary(Unary, Rc<Tree>),
    Binary(Binary, Rc<Tree>, Rc<Tree>),
    /// The least or the greatest of one or more.
    Extreme(Extreme, Vec<Rc<Tree>>),
    Power(Rc<Tree>, u32),
    /// The sine or cosine of a number of degrees, as a number.
    Angle(Angle, Rc<Tree>),
}

#[derive(Clone, Copy, Debug, PartialEq, Eq)]
pub enum Unary {
    Absolute,
    Square,
    Root,
}

#[derive(Clone, Copy, Debug, PartialEq, Eq)]
pub enum Binary {
    Add,
    Subtract,
    Multiply,
    Divide,
}

#[derive(Clone, Copy, Debug, PartialEq, Eq)]
pub enum Extreme {
    Least,
    Greatest,
}

#[derive(Clone, Copy, Debug, PartialEq, Eq)]
pub enum Angle {
    Sine,
    Cosine,
}

/// Where a text is no formula: the byte, what is there, and what could be.
#[derive(Clone, Debug, PartialEq, Eq)]
pub struct Wrong {
    pub at: usize,
    pub words: String,
}

impl Wrong {
    fn new(at: usize, words: impl fmt::Display) -> Wrong {
        Wrong { at, words: words.to_string() }
    }

    /// The line with a mark under the byte, and what is wrong there.
    pub fn shown(&self, text: &str) -> String {
        let before = &text[..self.at];
        let line = before.matches('\n').count() + 1;
        let from = before.rfind('\n').map_or(0, |end| end + 1);
        let whole = text[from..].split(['\n', '\r']).next().unwrap_or("");
        let column = text[from..self.at].chars().count();
        let (shown, mark) = window(whole, column);
        format!("line {line}: {}\n    {shown}\n    {}^", self.words, " ".repeat(mark))
    }
}

/// How many characters of a line are shown on each side of a mark.
const BESIDE: usize = 50;

/// The part of a line around a character, tabs as spaces, and where in it the character is.
fn window(line: &str, column: usize) -> (String, usize) {
    let from = column.saturating_sub(BESIDE);
    let shown = line.chars().skip(from).take(2 * BESIDE).map(|c| if c.is_control() { ' ' } else { c });
    (shown.collect(), column - from)
}
