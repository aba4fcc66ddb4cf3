//! From words to a tree: names first, one a line, then the formula.
//!
//! Line ends mean nothing inside the formula and inside brackets. A name ends with its line, unless the line ends with a
//! sign, or the next one begins with `+`, `*`, `/` or `^`. One that begins with `-` could be either, and is refused.

use super::tokens::{Token, Word, tokens};
use super::{Angle, Binary, Extreme, Kind, Tree, Unary, Wrong};
use std::collections::HashMap;
use std::rc::Rc;

/// The tree of a text.
pub fn read(text: &str) -> Result<Rc<Tree>, Wrong> {
    let mut reader = Reader { tokens: tokens(text)?, next: 0, depth: 0, naming: false, names: HashMap::new() };
    while reader.is_definition() {
        reader.definition()?;
    }
    let formula = reader.sum()?;
    match reader.here().word {
        Word::End => Ok(formula),
        _ => Err(reader.unexpected("a sign such as + or *, or the end")),
    }
}

/// How deep brackets may go, so that no text can exhaust the stack.
const DEEPEST: usize = 200;

/// The greatest power.
const GREATEST_POWER: u32 = 16;

struct Reader {
    tokens: Vec<Token>,
    next: usize,
    /// Open brackets.
    depth: usize,
    /// Whether a name is being given.
    naming: bool,
    names: HashMap<String, Rc<Tree>>,
}

impl Reader {
    fn here(&self) -> &Token {
        &self.tokens[self.next]
    }

    fn step(&mut self) -> Token {
        let token = self.here().clone();
        self.next = (self.next + 1).min(self.tokens.len() - 1);
        token
    }

    fn take(&mut self, sign: u8) -> bool {
        let taken = self.here().is(sign);
        self.next += usize::from(taken);
        taken
    }

    fn unexpected(&self, expected: &str) -> Wrong {
        let found = match &self.here().word {
            Word::End => "the text ends too early".to_string(),
            Word::Sign(sign) => format!("`{}` does not fit here", char::from(*sign)),
            Word::Name(name) => format!("`{name}` does not fit here"),
            Word::Number(_) => "a number does not fit here".to_string(),
        };
        Wrong::new(self.here().at, format_args!("{found}: expected is {expected}"))
    }

    fn is_definition(&self) -> bool {
        matches!(self.here().word, Word::Name(_)) && self.tokens[self.next + 1].is(b'=')
    }

    fn definition(&mut self) -> Result<(), Wrong> {
        let token = self.step();
        let Word::Name(name) = token.word else { unreachable!("a definition begins with a name") };
        if meaning(&name).is_some() {
            return Err(Wrong::new(token.at, format_args!("`{name}` has its meaning already: choose another name")));
        }
        if self.names.contains_key(&name) {
            return Err(Wrong::new(token.at, format_args!("`{name}` was given before: each name is given once")));
        }
        self.step();
        self.naming = true;
        let tree = self.sum()?;
        self.naming = false;
        if self.here().is(b'-') {
            return Err(Wrong::new(
                self.here().at,
                format_args!(
                    "does this `-` go on with `{name}`, or begin the formula? End the line before with it, or put a bracket around what it begins"
                ),
            ));
        }
        if !self.here().first {
            return Err(self.unexpected("a sign such as + or *, or the end of the line"));
        }
        self.names.insert(name, tree);
        Ok(())
    }

    /// Whether the sum or product goes on here with this sign.
    fn goes_on(&self, sign: u8) -> bool {
        let ends = self.naming && self.depth == 0 && self.here().first && sign == b'-';
        self.here().is(sign) && !ends
    }

    fn joined(
        &mut self,
        part: fn(&mut Reader) -> Result<Rc<Tree>, Wrong>,
        signs: [(u8, Binary); 2],
    ) -> Result<Rc<Tree>, Wrong> {
        let mut tree = part(self)?;
        while let Some((_, binary)) = signs.iter().find(|(sign, _)| self.goes_on(*sign)) {
            self.step();
            let right = part(self)?;
            tree = Rc::new(Tree { at: tree.at, kind: Kind::Binary(*binary, tree, right) });
        }
        Ok(tree)
    }

    fn sum(&mut self) -> Result<Rc<Tree>, Wrong> {
        self.joined(Reader::product, [(b'+', Binary::Add), (b'-', Binary::Subtract)])
    }

    fn product(&mut self) -> Result<Rc<Tree>, Wrong> {
        self.joined(Reader::signed, [(b'*', Binary::Multiply), (b'/', Binary::Divide)])
    }

    /// A minus is of the power behind it alone: `-x^2` is the negative of the square.
    fn signed(&mut self) -> Result<Rc<Tree>, Wrong> {
        let at = self.here().at;
        if !self.take(b'-') {
            return self.power();
        }
        let tree = self.power()?;
        Ok(Rc::new(Tree { at, kind: Kind::Negate(tree) }))
    }

    fn power(&mut self) -> Result<Rc<Tree>, Wrong> {
        let tree = self.item()?;
        if !self.take(b'^') {
            return Ok(tree);
        }
        let token = self.step();
        match token.word {
            Word::Number(power) if power.fract() == 0.0 && (1.0..=GREATEST_POWER.into()).contains(&power) => {
                Ok(Rc::new(Tree { at: tree.at, kind: Kind::Power(tree, power as u32) }))
            }
            _ => Err(Wrong::new(token.at, format_args!("a power is a whole number from 1 to {GREATEST_POWER}"))),
        }
    }

    fn item(&mut self) -> Result<Rc<Tree>, Wrong> {
        let token = self.here().clone();
        match token.word {
            Word::Number(number) => {
                self.step();
                Ok(Rc::new(Tree { at: token.at, kind: Kind::Number(number) }))
            }
            Word::Sign(b'(') => {
                let mut inside = self.bracket(token.at)?;
                match (inside.pop(), inside.is_empty()) {
                    (Some(tree), true) => Ok(tree),
                    _ => Err(Wrong::new(
                        token.at,
                        "this bracket has a `,` in it: min and max of several are written min( , )",
                    )),
                }
            }
            Word::Name(name) => self.named(&name, token.at),
            _ => Err(self.unexpected("a number, x, y, z, a name, a function or a bracket")),
        }
    }

    fn named(&mut self, name: &str, at: usize) -> Result<Rc<Tree>, Wrong> {
        let Some(meaning) = meaning(name) else {
            return match self.names.get(name) {
                Some(tree) => {
                    let tree = Rc::clone(tree);
                    self.step();
                    Ok(tree)
                }
                None => Err(self.unknown(name, at)),
            };
        };
        self.step();
        if let Meaning::Axis(axis) = meaning {
            return Ok(Rc::new(Tree { at, kind: Kind::Axis(axis) }));
        }
        if !self.here().is(b'(') {
            return Err(self.unexpected(&format!("`(`, since `{name}` is a function")));
        }
        let inside = self.bracket(at)?;
        Ok(Rc::new(Tree { at, kind: meaning.of(name, inside, at)? }))
    }

    fn unknown(&self, name: &str, at: usize) -> Wrong {
        let hint = match name.to_ascii_lowercase().as_str() {
            "square" | "sq" => "; the square is written sqr(a) or a^2".to_string(),
            "length" | "len" | "norm" => "; a length is written root(sqr(x) + sqr(y))".to_string(),
            "pi" | "tan" | "atan" | "exp" | "log" | "pow" => {
                "; of angles there are sin and cos of a number of degrees".into()
            }
            lower if meaning(lower).is_some() => format!("; it is written {lower}"),
            _ if self.tokens[self.next + 1].is(b'(') => {
                "; functions are abs, sqr, root, min, max, sin, cos".to_string()
            }
            _ => "; a name is given in a line of its own, before it is used".to_string(),
        };
        Wrong::new(at, format_args!("`{name}` means nothing here{hint}"))
    }

    /// What stands in a bracket, parted by commas.
    fn bracket(&mut self, at: usize) -> Result<Vec<Rc<Tree>>, Wrong> {
        self.step();
        self.depth += 1;
        if self.depth > DEEPEST {
            return Err(Wrong::new(at, format_args!("more than {DEEPEST} brackets are open here")));
        }
        let mut inside = vec![self.sum()?];
        while self.take(b',') {
            inside.push(self.sum()?);
        }
        if !self.take(b')') {
            return Err(self.unexpected("a sign such as + or *, `,` or `)`"));
        }
        self.depth -= 1;
        Ok(inside)
    }
}

/// What a name means that is not given.
enum Meaning {
    Axis(usize),
    Unary(Unary),
    Extreme(Extreme),
    Angle(Angle),
}

fn meaning(name: &str) -> Option<Meaning> {
    Some(match name {
        "x" => Meaning::Axis(0),
        "y" => Meaning::Axis(1),
        "z" => Meaning::Axis(2),
        "abs" => Meaning::Unary(Unary::Absolute),
        "sqr" => Meaning::Unary(Unary::Square),
        "root" | "sqrt" => Meaning::Unary(Unary::Root),
        "min" => Meaning::Extreme(Extreme::Least),
        "max" => Meaning::Extreme(Extreme::Greatest),
        "sin" => Meaning::Angle(Angle::Sine),
        "cos" => Meaning::Angle(Angle::Cosine),
        _ => return None,
    })
}

impl Meaning {
    /// The function of what stands in its bracket.
    fn of(self, name: &str, mut inside: Vec<Rc<Tree>>, at: usize) -> Result<Kind, Wrong> {
        if let Meaning::Extreme(extreme) = self {
            return Ok(Kind::Extreme(extreme, inside));
        }
        let one = |of: &str| Wrong::new(at, format_args!("{name} takes one {of}, not {}", inside.len()));
        match (self, inside.len()) {
            (Meaning::Unary(unary), 1) => Ok(Kind::Unary(unary, inside.remove(0))),
            (Meaning::Angle(angle), 1) => Ok(Kind::Angle(angle, inside.remove(0))),
            _ => Err(one("part")),
        }
    }
}

#[cfg(test)]
mod tests {
    use super::*;

    fn wrong(text: &str) -> (usize, String) {
        let wrong = read(text).expect_err(text);
        (wrong.at, wrong.words)
    }

    #[test]
    fn names_end_with_their_line() {
        let same = |text: &str, plain: &str| {
            let shape = |text: &str| super::super::expand::plain(&read(text).expect(text)).expect(text);
            assert_eq!(shape(text), shape(plain), "{text}");
        };
        same("r = x\nr + 1", "x + 1");
        same("r = x\n  + y\nr", "x + y");
        same("r = x +\n -y\nr", "x + -y");
        same("r = max(x,\n -y)\n\n r*2", "max(x, -y)*2");
        same("a = 2 # two\nb = a*x\nb\n-\na", "2*x - 2");
    }

    #[test]
    fn errors_name_the_byte_and_what_was_expected() {
        for (text, at, words) in [
            ("", 0, "the text ends too early: expected is a number"),
            ("max(x - 24, 8 - root(y)", 23, "expected is a sign such as + or *, `,` or `)`"),
            ("max(x; y)", 5, "parted by `,`"),
            ("x y", 2, "`y` does not fit here: expected is a sign"),
            ("r = x\n-r", 6, "End the line before with it"),
            ("r = x", 5, "the text ends too early"),
            ("x = 2\nx", 0, "`x` has its meaning already"),
            ("a = 1\na = 2\na", 6, "given once"),
            ("a = 1 x", 6, "the end of the line"),
            ("q + 1", 0, "a name is given in a line of its own, before it is used"),
            ("Sqrt(x)", 0, "it is written sqrt"),
            ("foo(x)", 0, "functions are abs, sqr, root"),
            ("abs x", 4, "`(`, since `abs` is a function"),
            ("abs(x, y)", 0, "abs takes one part, not 2"),
            ("(x, y)", 0, "this bracket has a `,` in it"),
            ("x^y", 2, "a power is a whole number from 1 to 16"),
            ("x^-1", 2, "a power"),
            ("x^17", 2, "a power"),
            ("--x", 1, "`-` does not fit here"),
        ] {
            let (found, said) = wrong(text);
            assert_eq!(found, at, "{text}: {said}");
            assert!(said.contains(words), "{text}: {said}");
        }
        let deep = "(".repeat(5000) + "x" + &")".repeat(5000);
        assert!(wrong(&deep).1.contains("brackets are open"));
    }
}
