//! From a formula to a tape: the order of clauses, and a slot for each value.
//!
//! Of two operands the one that needs more slots comes first (the order of Sethi and Ullman). A slot is free again
//! after the last clause that reads it. Where slots run out, the constant or axis that is read again last gives up its
//! slot and is loaded once more when needed. Each clause costs time in every region that it is run over, each slot
//! below the limit nothing, so fewest clauses come first, then fewest slots.

use crate::formula::{Formula, Id, Node};
use layers::{Clause, MAX_CLAUSES, MAX_SLOTS, Tape};
use std::collections::VecDeque;

/// Why a formula has no tape.
#[derive(Clone, Copy, Debug, PartialEq, Eq)]
pub enum TooBig {
    Slots,
    Clauses(usize),
}

/// The tape of a node's formula within a number of slots, with the fewest clauses and among these the fewest slots.
pub fn compile(formula: &Formula, result: Id, slots: u8) -> Result<Tape, TooBig> {
    let order = order(formula, result);
    let roomy = allocate(formula, &order, slots.min(MAX_SLOTS)).ok_or(TooBig::Slots)?;
    let count = roomy.clauses.len();
    if count > MAX_CLAUSES {
        return Err(TooBig::Clauses(count));
    }
    let mut fewer = (1..roomy.slots).filter_map(|slots| allocate(formula, &order, slots));
    let List { slots, clauses } = fewer.find(|list| list.clauses.len() == count).unwrap_or(roomy);
    Ok(Tape::from_clauses(slots, &clauses).expect("clauses within the limits, each after those whose slots it reads"))
}

/// The nodes to compute, each after what it reads. Constants and axes are left out, but for the result.
fn order(formula: &Formula, result: Id) -> Vec<Id> {
    let needs = needs(formula);
    let mut order = Vec::new();
    let mut seen = vec![false; formula.count()];
    visit(formula, &needs, result, &mut seen, &mut order);
    if order.is_empty() {
        order.push(result);
    }
    order
}

fn visit(formula: &Formula, needs: &[usize], id: Id, seen: &mut [bool], order: &mut Vec<Id>) {
    let node = formula.node(id);
    if seen[id] || is_leaf(node) {
        return;
    }
    seen[id] = true;
    let mut reads = node.reads();
    reads.sort_by_key(|&read| std::cmp::Reverse(needs[read]));
    for read in reads {
        visit(formula, needs, read, seen, order);
    }
    order.push(id);
}

/// How many slots each node needs if nothing is shared.
fn needs(formula: &Formula) -> Vec<usize> {
    let mut needs: Vec<usize> = Vec::with_capacity(formula.count());
    for id in 0..formula.count() {
        let need = match formula.node(id).reads()[..] {
            [] => 1,
            [a] => needs[a],
            [a, b] if a == b => needs[a],
            [a, b] if needs[a] == needs[b] => needs[a] + 1,
            [a, b] => needs[a].max(needs[b]),
            _ => unreachable!("an operation reads two at most"),
        };
        needs.push(need);
    }
    needs
}

fn is_leaf(node: Node) -> bool {
    node.op.reads() == 0
}

/// Clauses, and how many slots they use.
struct List {
    slots: u8,
    clauses: Vec<Clause>,
}

/// The clauses in this order within a number of slots, or none if they don't do.
fn allocate(formula: &Formula, order: &[Id], slots: u8) -> Option<List> {
    let mut desk = Desk::new(formula, order, slots);
    for &id in order {
        desk.compute(id)?;
    }
    Some(desk.list)
}

/// What each slot holds while clauses are written.
struct Desk<'a> {
    formula: &'a Formula,
    holds: Vec<Option<Id>>,
    slot_of: Vec<Option<usize>>,
    /// For each node, the places in the order of the clauses yet to come that read it.
    readers: Vec<VecDeque<usize>>,
    list: List,
}

impl<'a> Desk<'a> {
    fn new(formula: &'a Formula, order: &[Id], slots: u8) -> Self {
        let mut readers = vec![VecDeque::new(); formula.count()];
        for (place, &id) in order.iter().enumerate() {
            for read in formula.node(id).reads() {
                readers[read].push_back(place);
            }
        }
        let (holds, slot_of) = (vec![None; slots.into()], vec![None; formula.count()]);
        Desk { formula, holds, slot_of, readers, list: List { slots: 0, clauses: Vec::new() } }
    }

    /// Writes the clause of a node, after loads of what it reads.
    fn compute(&mut self, id: Id) -> Option<()> {
        let reads = self.formula.node(id).reads();
        for &read in &reads {
            if self.slot_of[read].is_none() {
                let slot = self.vacant(&reads)?;
                self.write(read, slot, &[]);
            }
        }
        let operands: Vec<usize> = reads.iter().filter_map(|&read| self.slot_of[read]).collect();
        self.finish(&reads);
        // An operand's own slot, if free now, is taken before others: where a minimum then chooses this operand,
        // shortening drops the clause and needs no copy.
        let own = operands.iter().copied().find(|&slot| self.holds[slot].is_none());
        let slot = match own {
            Some(slot) => slot,
            None => self.vacant(&[])?,
        };
        self.write(id, slot, &operands);
        Some(())
    }

    /// Frees the slots of what no later clause reads.
    fn finish(&mut self, reads: &[Id]) {
        for &read in reads {
            self.readers[read].pop_front();
            if let (true, Some(slot)) = (self.readers[read].is_empty(), self.slot_of[read]) {
                self.holds[slot] = None;
                self.slot_of[read] = None;
            }
        }
    }

    /// The first free slot, or that of the constant or axis, not among those kept, which is read again last.
    fn vacant(&mut self, kept: &[Id]) -> Option<usize> {
        if let Some(slot) = self.holds.iter().position(Option::is_none) {
            return Some(slot);
        }
        let leaves = self.holds.iter().flatten().copied();
        let leaves = leaves.filter(|id| is_leaf(self.formula.node(*id)) && !kept.contains(id));
        let evicted = leaves.max_by_key(|&id| self.readers[id].front().copied())?;
        self.slot_of[evicted].take()
    }

    fn write(&mut self, id: Id, slot: usize, operands: &[usize]) {
        let Node { op, constant, .. } = self.formula.node(id);
        let operand = |i: usize| operands.get(i).map_or(0, |&slot| slot as u8);
        let clause = Clause { opcode: op, out: slot as u8, left: operand(0), right: operand(1), constant };
        self.list.clauses.push(clause);
        self.list.slots = self.list.slots.max(clause.out + 1);
        self.holds[slot] = Some(id);
        self.slot_of[id] = Some(slot);
    }
}
