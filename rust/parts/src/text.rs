//! A formula as text that a designer could have typed.

use crate::formula::{Formula, Id, Node};
use layers::{ONE, Opcode};

/// The text of a node's formula. Shared nodes are written once for each use, and a run of minima or of maxima is
/// written in halves, so that few brackets are open at once. It means what the formula does, but for constants that no
/// number of four decimals has.
pub fn text(formula: &Formula, result: Id) -> String {
    let mut writer = Writer { formula, text: String::new() };
    writer.write(result, Level::Sum);
    writer.text
}

/// The number of a value, or of the nearest value that has one of four decimals; without needless zeros.
pub fn number(value: u32) -> String {
    let (value, one) = (u64::from(value), ONE as u64);
    // the reader rounds down: the least whose value is not below the one asked for, and the one before
    let above = (value * SCALE).div_ceil(one).min(GREATEST);
    let below = above.saturating_sub(1);
    let apart = |number: u64| (number * one / SCALE).abs_diff(value);
    let nearest = if apart(above) <= apart(below) { above } else { below };
    let digits = format!("{}.{:04}", nearest / SCALE, nearest % SCALE);
    digits.trim_end_matches('0').trim_end_matches('.').to_string()
}

/// Four decimals.
const SCALE: u64 = 10_000;

/// The greatest number that is read, 32767.9999.
const GREATEST: u64 = 32_768 * SCALE - 1;

/// What may stand in a place without a bracket.
#[derive(Clone, Copy, PartialEq, PartialOrd)]
enum Level {
    Sum,
    Product,
    Signed,
    Item,
}

struct Writer<'a> {
    formula: &'a Formula,
    text: String,
}

impl Writer<'_> {
    fn word(&mut self, word: &str) {
        self.text.push_str(word);
    }

    fn write(&mut self, id: Id, within: Level) {
        let bracket = level(self.formula.node(id)) < within;
        self.word(if bracket { "(" } else { "" });
        self.node(id);
        self.word(if bracket { ")" } else { "" });
    }

    fn node(&mut self, id: Id) {
        let node = self.formula.node(id);
        let reads = node.reads();
        match node.op {
            Opcode::Constant => self.constant(node.constant),
            Opcode::X => self.word("x"),
            Opcode::Y => self.word("y"),
            Opcode::Z => self.word("z"),
            Opcode::Copy => self.write(reads[0], Level::Item),
            Opcode::Negate => {
                self.word("-");
                self.write(reads[0], Level::Item);
            }
            Opcode::Absolute => self.function("abs", reads[0]),
            Opcode::Square => self.function("sqr", reads[0]),
            Opcode::Root => self.function("root", reads[0]),
            Opcode::Add => self.join(&reads, " + ", Level::Sum, Level::Product),
            Opcode::Subtract => self.join(&reads, " - ", Level::Sum, Level::Product),
            Opcode::Multiply => self.join(&reads, "*", Level::Product, Level::Signed),
            Opcode::Divide => self.join(&reads, "/", Level::Product, Level::Signed),
            Opcode::Minimum => self.halves("min", &self.run(id)),
            Opcode::Maximum => self.halves("max", &self.run(id)),
            op => panic!("{op:?} is not written"),
        }
    }

    /// The minus before a number is an operation of its own, which gives the same value.
    fn constant(&mut self, value: i32) {
        self.word(if value < 0 { "-" } else { "" });
        self.word(&number(value.unsigned_abs()));
    }

    fn function(&mut self, name: &str, operand: Id) {
        self.word(name);
        self.word("(");
        self.write(operand, Level::Sum);
        self.word(")");
    }

    fn join(&mut self, reads: &[Id], sign: &str, left: Level, right: Level) {
        self.write(reads[0], left);
        self.word(sign);
        self.write(reads[1], right);
    }

    /// The terms of nested minima or of nested maxima.
    fn run(&self, id: Id) -> Vec<Id> {
        let node = self.formula.node(id);
        let nested = |&read: &Id| if self.formula.node(read).op == node.op { self.run(read) } else { vec![read] };
        node.reads().iter().flat_map(nested).collect()
    }

    fn halves(&mut self, name: &str, terms: &[Id]) {
        if let [term] = terms {
            return self.write(*term, Level::Sum);
        }
        let (first, second) = terms.split_at(terms.len() / 2);
        self.word(name);
        self.word("(");
        self.halves(name, first);
        self.word(", ");
        self.halves(name, second);
        self.word(")");
    }
}

fn level(node: Node) -> Level {
    match node.op {
        Opcode::Add | Opcode::Subtract => Level::Sum,
        Opcode::Multiply | Opcode::Divide => Level::Product,
        Opcode::Negate => Level::Signed,
        Opcode::Constant if node.constant < 0 => Level::Signed,
        _ => Level::Item,
    }
}
