//! Formulas as trees, and what a tree means at a sample. Nothing here knows of text or of tapes.

use crate::arith::{add, divide, multiply, root, subtract};

#[derive(Clone, Copy, Debug, PartialEq, Eq)]
pub enum Unary {
    Negate,
    Absolute,
    Square,
    Root,
}

#[derive(Clone, Copy, Debug, PartialEq, Eq)]
pub enum Binary {
    Add,
    Subtract,
    Multiply,
    Divide,
    Minimum,
    Maximum,
}

/// A node of a tree, and the places of its operands among the nodes.
#[derive(Clone, Copy, Debug, PartialEq, Eq)]
pub enum Node {
    Number(i128),
    Axis(usize),
    Unary(Unary, usize),
    Binary(Binary, usize, usize),
}

impl Node {
    /// The operands, the left first.
    pub fn operands(&self) -> Vec<usize> {
        match *self {
            Node::Number(_) | Node::Axis(_) => vec![],
            Node::Unary(_, a) => vec![a],
            Node::Binary(_, a, b) => vec![a, b],
        }
    }
}

/// A tree. A long sum is as deep as it has operations, so that nothing here may call itself for an operand.
#[derive(Clone, Debug, Default)]
pub struct Tree {
    pub nodes: Vec<Node>,
}

impl Tree {
    /// Puts a node behind its operands; its place comes back. The last one put is the whole tree's.
    pub fn put(&mut self, node: Node) -> usize {
        assert!(node.operands().iter().all(|&operand| operand < self.nodes.len()));
        self.nodes.push(node);
        self.nodes.len() - 1
    }

    /// The formula's meaning at a sample.
    pub fn meaning(&self, sample: [i128; 3]) -> i128 {
        let mut values: Vec<i128> = Vec::new();
        for node in &self.nodes {
            values.push(match *node {
                Node::Number(number) => number,
                Node::Axis(axis) => sample[axis],
                Node::Unary(Unary::Negate, a) => -values[a],
                Node::Unary(Unary::Absolute, a) => values[a].abs(),
                Node::Unary(Unary::Square, a) => multiply(values[a], values[a]),
                Node::Unary(Unary::Root, a) => root(values[a]),
                Node::Binary(Binary::Add, a, b) => add(values[a], values[b]),
                Node::Binary(Binary::Subtract, a, b) => subtract(values[a], values[b]),
                Node::Binary(Binary::Multiply, a, b) => multiply(values[a], values[b]),
                Node::Binary(Binary::Divide, a, b) => divide(values[a], values[b]),
                Node::Binary(Binary::Minimum, a, b) => values[a].min(values[b]),
                Node::Binary(Binary::Maximum, a, b) => values[a].max(values[b]),
            });
        }
        *values.last().expect("a tree has a node")
    }

    /// The places in order: operands, the left first, before their operator.
    fn order(&self) -> Vec<usize> {
        // backward: the operator, then all of its right operand, then all of its left one
        let mut backward = Vec::new();
        let mut ahead = vec![self.nodes.len() - 1];
        while let Some(place) = ahead.pop() {
            backward.push(place);
            ahead.extend(self.nodes[place].operands());
        }
        backward.reverse();
        backward
    }

    /// The same tree with its nodes in that order: two trees are the same if these are equal.
    pub fn ordered(&self) -> Vec<Node> {
        let order = self.order();
        let mut moved = vec![0; self.nodes.len()];
        for (later, &place) in order.iter().enumerate() {
            moved[place] = later;
        }
        let node = |&place: &usize| match self.nodes[place] {
            Node::Unary(op, a) => Node::Unary(op, moved[a]),
            Node::Binary(op, a, b) => Node::Binary(op, moved[a], moved[b]),
            leaf => leaf,
        };
        order.iter().map(node).collect()
    }
}
