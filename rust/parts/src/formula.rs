//! Formulas over the fixed-point numbers of a tape, as a graph in which equal subformulas are one node.

use layers::{ONE, Opcode, fixed};
use std::collections::HashMap;

/// The value nearest to a length, which must have one.
pub fn nearest(length: f64) -> i32 {
    // `fixed` rounds down
    let value = fixed(length + 0.5 / f64::from(ONE));
    assert!(value.abs() < i32::MAX, "{length} is outside the range of values");
    value
}

/// A node's index in its formula. What a node reads has a smaller index.
pub type Id = usize;

/// One operation. Fields that it doesn't use are 0.
#[derive(Clone, Copy, Debug, PartialEq, Eq, Hash)]
pub struct Node {
    pub op: Opcode,
    pub constant: i32,
    left: Id,
    right: Id,
}

impl Node {
    /// The nodes read: none, the left one, or both.
    pub fn reads(&self) -> Vec<Id> {
        [self.left, self.right][..self.op.reads()].to_vec()
    }
}

/// A graph of operations.
#[derive(Default)]
pub struct Formula {
    nodes: Vec<Node>,
    known: HashMap<Node, Id>,
}

impl Formula {
    pub fn node(&self, id: Id) -> Node {
        self.nodes[id]
    }

    /// How many nodes there are.
    pub fn count(&self) -> usize {
        self.nodes.len()
    }

    /// The node, which is made only if there is none equal to it.
    fn put(&mut self, op: Opcode, constant: i32, left: Id, right: Id) -> Id {
        let node = Node { op, constant, left, right };
        *self.known.entry(node).or_insert_with(|| {
            self.nodes.push(node);
            self.nodes.len() - 1
        })
    }

    pub fn constant(&mut self, value: i32) -> Id {
        self.put(Opcode::Constant, value, 0, 0)
    }

    /// x, y or z of the sample.
    pub fn axis(&mut self, axis: usize) -> Id {
        self.put([Opcode::X, Opcode::Y, Opcode::Z][axis], 0, 0, 0)
    }

    pub fn unary(&mut self, op: Opcode, a: Id) -> Id {
        self.put(op, 0, a, 0)
    }

    pub fn binary(&mut self, op: Opcode, a: Id, b: Id) -> Id {
        self.put(op, 0, a, b)
    }

    /// a less a number. Only numbers above 0 are loaded, so that a + c and a − c share theirs.
    pub fn less(&mut self, a: Id, number: i32) -> Id {
        if number == 0 {
            return a;
        }
        let size = self.constant(number.abs());
        self.binary(if number > 0 { Opcode::Subtract } else { Opcode::Add }, a, size)
    }

    /// A number less a.
    pub fn from(&mut self, number: i32, a: Id) -> Id {
        if number == 0 {
            return self.unary(Opcode::Negate, a);
        }
        let number = self.constant(number);
        self.binary(Opcode::Subtract, number, a)
    }
}
