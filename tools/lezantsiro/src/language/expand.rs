//! A tree as the plain formula that the proved reader reads, or, where that does not fit a text's limits, as a tape
//! with equal parts shared.

use super::read::read;
use super::values::{number, sine, units, value};
use super::{Binary, Extreme, Kind, Tree, Unary, Wrong};
use crate::random::Random;
use layers::{MAX_CLAUSES, MAX_SLOTS, Opcode, Probe, Tape};
use parts::formula::{Formula, Id};
use parts::slots::{TooBig, compile};
use parts::text::text;
use std::collections::HashMap;
use std::rc::Rc;

/// What a text comes to.
#[derive(Clone, Debug, PartialEq)]
pub enum Expanded {
    /// The plain formula, within the limits of a text.
    Plain { formula: String, tape: Tape },
    /// A tape that the tool has compiled, compared with the tree at so many points; the plain formula, if it is not
    /// much too long to look at.
    Compiled { formula: Option<String>, tape: Tape, points: usize },
}

/// Why a text comes to nothing.
#[derive(Clone, Debug, PartialEq)]
pub enum Unread {
    /// It is no formula.
    Wrong(Wrong),
    /// Equal parts shared, it still has this many clauses, or `None`: more slots than a tape.
    TooBig(Option<usize>),
    /// The machine has no room for the work.
    NoRoom,
    /// The compiled tape has another value than the tree. This must not happen.
    Apart([i32; 3]),
}

impl From<Wrong> for Unread {
    fn from(wrong: Wrong) -> Unread {
        Unread::Wrong(wrong)
    }
}

/// The longest plain formula that is written out.
const LONGEST: u64 = 1 << 20;

/// How many points a compiled tape is compared at.
const POINTS: usize = 2_000;

/// A long sum is a deep tree: its stack is reserved, not used, unless it is needed.
const STACK: usize = 1 << 30;

/// Reads a text and expands it.
pub fn expanded(text: &str) -> Result<Expanded, Unread> {
    let owned = text.to_string();
    let work = std::thread::Builder::new().stack_size(STACK).spawn(move || expanded_here(&owned));
    match work.map(|work| work.join()) {
        Ok(Ok(found)) => found,
        _ => Err(Unread::NoRoom),
    }
}

fn expanded_here(source: &str) -> Result<Expanded, Unread> {
    let tree = read(source)?;
    let (graph, result) = graph(&tree)?;
    let formula = (length(&tree, &mut HashMap::new()) <= LONGEST).then(|| text(&graph, result));
    if let Some(Ok(tape)) = formula.as_ref().map(|formula| Tape::from_text(formula)) {
        return Ok(Expanded::Plain { formula: formula.unwrap_or_default(), tape });
    }
    let tape = compile(&graph, result, MAX_SLOTS).map_err(|big| match big {
        TooBig::Clauses(clauses) => Unread::TooBig(Some(clauses)),
        TooBig::Slots => Unread::TooBig(None),
    })?;
    debug_assert!(tape.clauses().len() <= MAX_CLAUSES);
    compared(&tree, &tape)?;
    Ok(Expanded::Compiled { formula, tape, points: POINTS })
}

/// The plain formula of a tree.
#[cfg(test)]
pub fn plain(tree: &Rc<Tree>) -> Result<String, Wrong> {
    let (graph, result) = graph(tree)?;
    Ok(text(&graph, result))
}

/// Compares a tape with the tree that it was made of at random points: near the origin, further away, and anywhere.
fn compared(tree: &Rc<Tree>, tape: &Tape) -> Result<(), Unread> {
    let mut random = Random::new(1);
    for point in 0..POINTS as u32 {
        let bits = [22, 24, 31][point as usize % 3];
        let sample = [(); 3].map(|()| random.below(1 << bits) as i64 - (1 << (bits - 1)));
        // a probe takes coordinates up to 32,767
        let sample = sample.map(|units| units.clamp(-32_767 * 65_536, 32_767 * 65_536) as i32);
        let [x, y, z] = sample.map(|units| f64::from(units) / 65_536.0);
        let probed = match tape.probe(x, y, z) {
            Ok(Probe::Inside(value) | Probe::Outside(value)) => (value * 65_536.0) as i32,
            Ok(Probe::Surface) => 0,
            Err(_) => return Err(Unread::Apart(sample)),
        };
        if probed != value(tree, sample)? {
            return Err(Unread::Apart(sample));
        }
    }
    Ok(())
}

/// About how many bytes the plain formula has: what a name stands for is written for each use.
fn length(tree: &Rc<Tree>, known: &mut HashMap<*const Tree, u64>) -> u64 {
    if let Some(length) = known.get(&Rc::as_ptr(tree)) {
        return *length;
    }
    let mut of = |tree: &Rc<Tree>| length(tree, known);
    let whole = match &tree.kind {
        Kind::Number(_) | Kind::Axis(_) | Kind::Angle(..) => 8,
        Kind::Negate(a) | Kind::Unary(_, a) => of(a).saturating_add(6),
        Kind::Binary(_, a, b) => of(a).saturating_add(of(b)).saturating_add(5),
        Kind::Extreme(_, all) => all.iter().fold(0_u64, |sum, tree| sum.saturating_add(of(tree)).saturating_add(7)),
        Kind::Power(a, power) => of(a).saturating_add(6).saturating_mul((*power).into()),
    };
    known.insert(Rc::as_ptr(tree), whole);
    whole
}

/// The tree as a graph in which equal parts are one node.
fn graph(tree: &Rc<Tree>) -> Result<(Formula, Id), Wrong> {
    let mut graph = Graph { formula: Formula::default(), known: HashMap::new() };
    let result = graph.put(tree)?;
    Ok((graph.formula, result))
}

struct Graph {
    formula: Formula,
    known: HashMap<*const Tree, Id>,
}

impl Graph {
    fn put(&mut self, tree: &Rc<Tree>) -> Result<Id, Wrong> {
        if let Some(id) = self.known.get(&Rc::as_ptr(tree)) {
            return Ok(*id);
        }
        let id = match &tree.kind {
            Kind::Number(number) => self.formula.constant(units(*number)),
            Kind::Axis(axis) => self.formula.axis(*axis),
            Kind::Negate(a) => self.unary(Opcode::Negate, a)?,
            Kind::Unary(unary, a) => self.unary(unary.opcode(), a)?,
            Kind::Binary(binary, a, b) => {
                let (a, b) = (self.put(a)?, self.put(b)?);
                self.formula.binary(binary.opcode(), a, b)
            }
            Kind::Extreme(extreme, all) => {
                let all: Result<Vec<Id>, Wrong> = all.iter().map(|tree| self.put(tree)).collect();
                self.halves(extreme.opcode(), &all?)
            }
            Kind::Power(a, power) => {
                let a = self.put(a)?;
                self.power(a, *power)
            }
            Kind::Angle(angle, a) => self.formula.constant(units(sine(*angle, number(a)?))),
        };
        self.known.insert(Rc::as_ptr(tree), id);
        Ok(id)
    }

    fn unary(&mut self, opcode: Opcode, a: &Rc<Tree>) -> Result<Id, Wrong> {
        let a = self.put(a)?;
        Ok(self.formula.unary(opcode, a))
    }

    /// A balanced tree of one or more: few brackets are open at once, and few slots wait.
    fn halves(&mut self, opcode: Opcode, all: &[Id]) -> Id {
        match all {
            [one] => *one,
            _ => {
                let (first, second) = all.split_at(all.len() / 2);
                let (first, second) = (self.halves(opcode, first), self.halves(opcode, second));
                self.formula.binary(opcode, first, second)
            }
        }
    }

    fn power(&mut self, a: Id, power: u32) -> Id {
        match power {
            1 => a,
            _ if power.is_multiple_of(2) => {
                let half = self.power(a, power / 2);
                self.formula.unary(Opcode::Square, half)
            }
            _ => {
                let less = self.power(a, power - 1);
                self.formula.binary(Opcode::Multiply, less, a)
            }
        }
    }
}

impl Unary {
    fn opcode(self) -> Opcode {
        match self {
            Unary::Absolute => Opcode::Absolute,
            Unary::Square => Opcode::Square,
            Unary::Root => Opcode::Root,
        }
    }
}

impl Binary {
    fn opcode(self) -> Opcode {
        match self {
            Binary::Add => Opcode::Add,
            Binary::Subtract => Opcode::Subtract,
            Binary::Multiply => Opcode::Multiply,
            Binary::Divide => Opcode::Divide,
        }
    }
}

impl Extreme {
    fn opcode(self) -> Opcode {
        match self {
            Extreme::Least => Opcode::Minimum,
            Extreme::Greatest => Opcode::Maximum,
        }
    }
}

#[cfg(test)]
mod tests {
    use super::*;
    use std::fmt::Write;

    /// A random text with names, powers, minima of many and angles, as a person could have written it.
    fn random_text(random: &mut Random) -> String {
        let mut text = String::new();
        let names = random.below(4) as usize;
        for name in 0..names {
            let tree = random_part(random, 3, name);
            writeln!(text, "n{name} = {tree}  # a name").expect("written");
        }
        // in brackets: behind a name, a minus could be either's
        text + "(" + &random_part(random, 4, names) + ")"
    }

    fn random_part(random: &mut Random, depth: u32, names: usize) -> String {
        let mut part = || random_part(random, depth.saturating_sub(1), names);
        let [a, b, c] = if depth == 0 { [const { String::new() }; 3] } else { [part(), part(), part()] };
        if depth == 0 {
            return random_leaf(random, names);
        }
        match random.below(14) {
            0 => format!("({a}\n + {b})"),
            1 => format!("({a} - {b})"),
            2 => format!("({a})*({b})"),
            3 => format!("({a})/({b})"),
            4 => format!("min({a}, {b},\n {c})"),
            5 => format!("max({a}, {b}, {c}, {a})"),
            6 => format!("-({a})"),
            7 => format!("({a})^{}", 1 + random.below(5)),
            8 => format!("sqrt({a})"),
            9 => format!("abs({a})"),
            10 => format!("sqr({a})"),
            11 => format!("({a})*sin({}/7)", random.below(2_000)),
            12 => format!("max({a})"),
            _ => random_leaf(random, names),
        }
    }

    fn random_leaf(random: &mut Random, names: usize) -> String {
        match random.below(6) {
            0 => "x".to_string(),
            1 => "y".to_string(),
            2 => "z".to_string(),
            3 => format!(".{}", random.below(10_000)),
            4 if names > 0 => format!("n{}", random.below(names as u64)),
            _ => format!("{}.{:03}", random.below(300), random.below(1_000)),
        }
    }

    /// What a text means, by its tree, is what its plain formula means, by the proved reader and probe, and what its
    /// compiled tape means.
    #[test]
    fn random_texts_mean_what_their_expansions_mean() {
        let mut random = Random::new(38);
        for _ in 0..300 {
            let text = random_text(&mut random);
            let tree = read(&text).unwrap_or_else(|wrong| panic!("{}", wrong.shown(&text)));
            let (graph, result) = graph(&tree).expect("a graph");
            let tapes = [
                Tape::from_text(&plain(&tree).expect("a formula")).ok(),
                Some(compile(&graph, result, MAX_SLOTS).expect("a tape")),
            ];
            for tape in tapes.into_iter().flatten() {
                assert_eq!(compared(&tree, &tape), Ok(()), "{text}");
            }
        }
    }

    #[test]
    fn a_long_sum_is_no_deep_stack() {
        let long = vec!["x"; 30_000].join(" + ");
        assert_eq!(expanded(&long), Err(Unread::TooBig(Some(30_000))));
        // what is shared is one clause each
        let doubled: String =
            (1..60).fold("a0 = x\n".to_string(), |text, i| text + &format!("a{i} = a{} + a{}\n", i - 1, i - 1));
        match expanded(&(doubled + "a59")) {
            Ok(Expanded::Compiled { formula: None, tape, .. }) => assert_eq!(tape.clause_count(), 60),
            other => panic!("{other:?}"),
        }
    }
}
