//! Numbers that look random and are the same in every run, and the values of formulas.

use parts::formula::{Formula, Id};

pub struct Random(pub u64);

impl Random {
    /// A number below a limit.
    pub fn below(&mut self, limit: u64) -> u64 {
        self.0 = self.0.wrapping_mul(6_364_136_223_846_793_005).wrapping_add(1_442_695_040_888_963_407);
        (self.0 >> 33) % limit
    }

    /// A place on each axis, at most `reach` from 0.
    pub fn sample(&mut self, reach: i32) -> [i128; 3] {
        [0; 3].map(|_| i128::from(self.below(2 * reach as u64 + 1)) - i128::from(reach))
    }
}

/// The value of a node at a sample, by the slow arithmetic.
pub fn value_at(formula: &Formula, id: Id, sample: [i128; 3]) -> i128 {
    let mut values: Vec<i128> = Vec::with_capacity(id + 1);
    for id in 0..=id {
        let (node, reads) = (formula.node(id), formula.node(id).reads());
        let operand = |i: usize| reads.get(i).map_or(0, |&read| values[read]);
        values.push(slow::arith::value(node.op.number(), node.constant, sample, operand(0), operand(1)));
    }
    values[id]
}
