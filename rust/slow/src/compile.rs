//! The tape of a tree.

use crate::arith::M;
use crate::formula::{Binary, Node, Tree, Unary};
use crate::tape::{Refused, Tape, refuse};
use crate::text::Fault;

/// One clause for each node: 19 if there would be more than 1,024 clauses or 64 slots.
pub fn tape(tree: &Tree, fault: Option<Fault>) -> Result<Tape, Refused> {
    let nodes = tree.ordered();
    if nodes.len() > 1_024 {
        return refuse(19);
    }
    let slots = slots(&nodes, fault);
    let used = slots.iter().max().expect("a tree has a node") + 1;
    if used > 64 {
        return refuse(19);
    }
    let mut list = Vec::new();
    for (node, &out) in nodes.iter().zip(&slots) {
        let read = |i: usize| node.operands().get(i).map_or(0, |&operand| slots[operand] as i32);
        // a fault alone makes a number above M
        let constant = if let Node::Number(number) = *node { number.min(M) as i32 } else { 0 };
        list.extend([opcode(node, fault), out as i32, read(0), read(1), constant]);
    }
    Ok(Tape::from_list(used as u32, &list).expect("clauses that packing accepts"))
}

fn opcode(node: &Node, fault: Option<Fault>) -> i32 {
    match *node {
        Node::Number(_) => 0,
        Node::Axis(axis) => 1 + axis as i32,
        Node::Unary(Unary::Negate, _) => 5,
        Node::Unary(Unary::Absolute, _) => 6,
        Node::Unary(Unary::Square, _) => 7,
        Node::Unary(Unary::Root, _) => 8,
        Node::Binary(Binary::Add, ..) => 9,
        Node::Binary(Binary::Subtract, ..) if fault == Some(Fault::SubtractIsAdd) => 9,
        Node::Binary(Binary::Subtract, ..) => 10,
        Node::Binary(Binary::Multiply, ..) => 11,
        Node::Binary(Binary::Minimum, ..) => 12,
        Node::Binary(Binary::Maximum, ..) => 13,
        Node::Binary(Binary::Divide, ..) => 14,
    }
}

/// The slot of each clause's result: the lowest not holding an operand that waits for a later operation.
fn slots(nodes: &[Node], fault: Option<Fault>) -> Vec<usize> {
    // the clause that reads each result; the whole formula's has none
    let mut reader = vec![None; nodes.len()];
    for (clause, node) in nodes.iter().enumerate() {
        for operand in node.operands() {
            reader[operand] = Some(clause);
        }
    }
    let mut slots: Vec<usize> = Vec::new();
    for clause in 0..nodes.len() {
        let forgotten = |earlier: usize| fault == Some(Fault::RightInLeftSlot) && reader[earlier] == reader[clause];
        let waits = |earlier: &usize| reader[*earlier].is_some_and(|later| later > clause) && !forgotten(*earlier);
        let held: Vec<usize> = (0..clause).filter(waits).map(|earlier| slots[earlier]).collect();
        let lowest = (0..).find(|slot| !held.contains(slot)).expect("fewer slots held than there are numbers");
        slots.push(lowest);
    }
    slots
}
