//! Random trees of formulas, and their text.

use crate::random::Random;
use slow::formula::{Binary, Node, Tree, Unary};

/// A number's value of any text that has one.
fn number(r: &mut Random) -> i128 {
    let whole = match r.below(4) {
        0 => r.pick(&[0, 1, 32_766, 32_767]),
        1 => r.below(32_768),
        _ => r.below(30),
    };
    let scale = r.pick(&[1, 10, 100, 1_000, 10_000]);
    let decimals = r.below(scale);
    (65_536 * (whole * scale + decimals) / scale) as i128
}

/// A text of a value that has one: the fewest decimals that do, or more; zeros before it.
fn number_text(r: &mut Random, value: i128) -> String {
    let (whole, units) = (value / 65_536, value % 65_536);
    let mut texts = Vec::new();
    for places in 0..=4 {
        let scale = 10i128.pow(places);
        // the least number of decimals that is not below the units
        let decimals = (units * scale + 65_535) / 65_536;
        if decimals < scale && decimals * 65_536 / scale == units {
            let digits = whole.to_string();
            let zeros = "0".repeat(r.index(6 - digits.len()) * r.below(2) as usize);
            let point = if places == 0 { String::new() } else { format!(".{decimals:0w$}", w = places as usize) };
            texts.push(zeros + &digits + &point);
        }
    }
    assert!(!texts.is_empty(), "{value} has no text");
    if r.one_in(2) { texts.swap_remove(0) } else { texts.swap_remove(r.index(texts.len())) }
}

/// Of few nodes mostly: chains to the left or the right and bushes.
pub fn random_tree(r: &mut Random) -> Tree {
    let size = match r.below(40) {
        0 => 1 + r.below(1_200),
        1..=5 => 1 + r.below(200),
        _ => 1 + r.below(30),
    };
    let mut tree = Tree::default();
    let lean = r.below(4);
    grow(r, &mut tree, size, lean);
    tree
}

/// A random tree of about so many nodes.
fn grow(r: &mut Random, tree: &mut Tree, size: u64, lean: u64) -> usize {
    if size <= 1 {
        let leaf = if r.one_in(2) { Node::Number(number(r)) } else { Node::Axis(r.index(3)) };
        return tree.put(leaf);
    }
    if size == 2 || r.one_in(6) {
        let operand = grow(r, tree, size - 1, lean);
        let op = r.pick(&[Unary::Negate, Unary::Negate, Unary::Absolute, Unary::Square, Unary::Root]);
        return tree.put(Node::Unary(op, operand));
    }
    let left = match lean {
        0 => size - 2,
        1 if r.one_in(2) => 1,
        1 => size - 2,
        _ => 1 + r.below(size - 2),
    };
    let (a, b) = (grow(r, tree, left, lean), grow(r, tree, size - 1 - left, lean));
    let joins = [Binary::Add, Binary::Subtract, Binary::Multiply, Binary::Divide];
    let op = if r.one_in(4) { r.pick(&[Binary::Minimum, Binary::Maximum]) } else { r.pick(&joins) };
    tree.put(Node::Binary(op, a, b))
}

/// What a part of the grammar may hold without a bracket.
#[derive(Clone, Copy, PartialEq, PartialOrd)]
enum Level {
    Sum,
    Product,
    Signed,
    Item,
}

/// A tree's text with random spaces between its numbers, names and signs, and now and then a needless bracket.
pub fn spaced(tree: &Tree, r: &mut Random) -> Vec<u8> {
    let mut words = Vec::new();
    let needless = if r.one_in(2) { 0 } else { 12 };
    Writer { r, tree, needless, words: &mut words }.write(tree.nodes.len() - 1, Level::Sum);
    let wide = r.pick(&[1, 1, 2, 4]);
    let mut text = Vec::new();
    for word in words {
        text.extend(vec![b' '; r.index(wide)]);
        text.extend(word.into_bytes());
    }
    text.extend(vec![b' '; r.index(wide)]);
    text
}

struct Writer<'a> {
    r: &'a mut Random,
    tree: &'a Tree,
    /// One node in so many stands in a needless bracket; none for 0.
    needless: u64,
    words: &'a mut Vec<String>,
}

impl Writer<'_> {
    fn word(&mut self, word: &str) {
        self.words.push(word.to_string());
    }

    fn write(&mut self, place: usize, within: Level) {
        let node = self.tree.nodes[place];
        let bracket = level(&node) < within || (self.needless > 0 && self.r.one_in(self.needless));
        if bracket {
            self.word("(");
        }
        self.node(node);
        if bracket {
            self.word(")");
        }
    }

    fn node(&mut self, node: Node) {
        match node {
            Node::Number(value) => {
                let text = number_text(self.r, value);
                self.word(&text);
            }
            Node::Axis(axis) => self.word(["x", "y", "z"][axis]),
            Node::Unary(Unary::Negate, a) => {
                self.word("-");
                self.write(a, Level::Item);
            }
            Node::Unary(op, a) => {
                let name = match op {
                    Unary::Absolute => "abs",
                    Unary::Square => "sqr",
                    _ => "root",
                };
                self.function(name, &[a]);
            }
            Node::Binary(Binary::Minimum, a, b) => self.function("min", &[a, b]),
            Node::Binary(Binary::Maximum, a, b) => self.function("max", &[a, b]),
            Node::Binary(Binary::Add, a, b) => self.join(a, "+", b, Level::Sum, Level::Product),
            Node::Binary(Binary::Subtract, a, b) => self.join(a, "-", b, Level::Sum, Level::Product),
            Node::Binary(Binary::Multiply, a, b) => self.join(a, "*", b, Level::Product, Level::Signed),
            Node::Binary(Binary::Divide, a, b) => self.join(a, "/", b, Level::Product, Level::Signed),
        }
    }

    fn join(&mut self, a: usize, sign: &str, b: usize, left: Level, right: Level) {
        self.write(a, left);
        self.word(sign);
        self.write(b, right);
    }

    fn function(&mut self, name: &str, operands: &[usize]) {
        self.word(name);
        for (i, &operand) in operands.iter().enumerate() {
            self.word(if i == 0 { "(" } else { "," });
            self.write(operand, Level::Sum);
        }
        self.word(")");
    }
}

fn level(node: &Node) -> Level {
    match node {
        Node::Binary(Binary::Add | Binary::Subtract, ..) => Level::Sum,
        Node::Binary(Binary::Multiply | Binary::Divide, ..) => Level::Product,
        Node::Unary(Unary::Negate, _) => Level::Signed,
        _ => Level::Item,
    }
}
