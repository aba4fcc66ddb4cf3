//! Random lists of clauses.

use crate::random::Random;
use crate::{grids, shapes};
use slow::draw::Grid;
use slow::tape::Tape;

/// An accepted list of clauses: opcode, out, left, right, constant each.
#[derive(Clone, Debug)]
pub struct List {
    pub slots: u32,
    pub clauses: Vec<[i32; 5]>,
}

impl List {
    pub fn numbers(&self) -> Vec<i32> {
        self.clauses.concat()
    }

    pub fn tape(&self) -> Vec<u8> {
        Tape::from_list(self.slots, &self.numbers()).expect("an accepted list").to_bytes()
    }
}

/// What the clauses of a list are drawn from.
struct Kind {
    opcode: fn(&mut Random) -> u64,
    constant: fn(&mut Random, &Grid) -> i32,
}

/// Minima and maxima most often; constants of any size, many that samples of the grid lie about.
const CHOICES: Kind = Kind {
    opcode: |r| match r.below(10) {
        0 => 0,
        1 | 2 => 1 + r.below(3),
        3 => 4 + r.below(5),
        4 => r.pick(&[9, 10, 11, 14]),
        _ => 12 + r.below(2),
    },
    constant: |r, grid| match r.below(10) {
        0 => end(r),
        1 => r.number() as i32 / 2,
        2 | 3 => r.within(-2_000_000, 2_000_000) as i32,
        _ => sample(r, grid),
    },
};

/// Sums, products and quotients, of values at the ends of the range and about 0: where they are clamped and rounded.
const ARITHMETIC: Kind = Kind {
    opcode: |r| match r.below(10) {
        0 | 1 => 0,
        2 | 3 => 1 + r.below(3),
        4 => 4 + r.below(5),
        _ => r.pick(&[9, 10, 11, 14]),
    },
    constant: |r, grid| match r.below(4) {
        0 | 1 => end(r),
        2 => r.within(-2, 2) as i32,
        _ => sample(r, grid),
    },
};

/// At an end of the range of values, or next to it.
fn end(r: &mut Random) -> i32 {
    r.pick(&[1, -1]) * (i32::MAX - r.below(3) as i32)
}

fn sample(r: &mut Random, grid: &Grid) -> i32 {
    let axis = r.index(3);
    grids::sample(grid, axis, r.below(grid.sizes[axis] as u64) as u32)
}

/// Half of the products are of a slot by itself.
fn right_slot(r: &mut Random, opcode: u64, left: i32, written: &[i32]) -> i32 {
    match opcode {
        0..=8 => 0,
        11 if r.one_in(2) => left,
        _ => r.pick(written),
    }
}

fn list(r: &mut Random, grid: &Grid, slots: u64, count: u64, kind: &Kind) -> List {
    let mut written: Vec<i32> = Vec::new();
    let mut clauses = Vec::new();
    for _ in 0..count {
        let opcode = if written.is_empty() { r.below(4) } else { (kind.opcode)(r) };
        let left = if opcode >= 4 { r.pick(&written) } else { 0 };
        let right = right_slot(r, opcode, left, &written);
        let constant = if opcode == 0 { (kind.constant)(r, grid) } else { 0 };
        let out = if opcode >= 9 && r.one_in(3) { left } else { r.below(slots) as i32 };
        clauses.push([opcode as i32, out, left, right, constant]);
        if !written.contains(&out) {
            written.push(out);
        }
    }
    List { slots: slots as u32, clauses }
}

/// A list of choices with so many slots and clauses.
pub fn sized(r: &mut Random, grid: &Grid, slots: u64, count: u64) -> List {
    list(r, grid, slots, count, &CHOICES)
}

/// A list of any kind, none of them long.
pub fn any(r: &mut Random, grid: &Grid) -> List {
    match r.below(8) {
        0 | 1 => random(r, grid),
        2 => arithmetic(r, grid),
        3 => wide(r, grid),
        _ => shapes::random(r, grid),
    }
}

/// A list of more slots than edition 01 has.
pub fn wide(r: &mut Random, grid: &Grid) -> List {
    let (slots, count) = (65 + r.below(64), 40 + r.below(160));
    list(r, grid, slots, count, &CHOICES)
}

/// A list of more clauses than edition 01 has, in any number of slots.
pub fn long(r: &mut Random, grid: &Grid) -> List {
    let slots = if r.one_in(4) { 128 } else { 1 + r.below(128) };
    let count = match r.below(4) {
        0 => 1025,
        1 => 6144,
        _ => 1025 + r.below(400),
    };
    list(r, grid, slots, count, &CHOICES)
}

/// The same list in more slots than edition 01 has, each put to some other place.
pub fn spread(r: &mut Random, list: &List) -> List {
    let slots = 65 + r.below(64) as u32;
    let mut places: Vec<i32> = (0..slots as i32).collect();
    for i in 1..places.len() {
        places.swap(i, r.index(i + 1));
    }
    let place = |used: bool, slot: i32| if used { places[slot as usize] } else { 0 };
    let clauses = list.clauses.iter();
    let clauses = clauses.map(|&[opcode, out, left, right, constant]| {
        [opcode, places[out as usize], place(opcode >= 4, left), place(opcode >= 9, right), constant]
    });
    List { slots, clauses: clauses.collect() }
}

/// A list of choices on few slots, so that slots are used again.
pub fn random(r: &mut Random, grid: &Grid) -> List {
    let slots = if r.one_in(20) { 64 } else { 1 + r.below(8) };
    let count = match r.below(200) {
        0 => 1024,
        1..=9 => 60,
        _ => 1 + r.below(30),
    };
    list(r, grid, slots, count, &CHOICES)
}

/// A short list of arithmetic; its result often goes past an end of the range and back, or is a product or a quotient
/// of which rounding decides the sign, or a product by itself or a quotient less some value.
pub fn arithmetic(r: &mut Random, grid: &Grid) -> List {
    let (slots, count) = (2 + r.below(3), 3 + r.below(7));
    let mut list = list(r, grid, slots, count, &ARITHMETIC);
    let axis = [r.pick(&[1, 2, 3]), 0];
    match r.below(6) {
        0 => [0; 2].iter().for_each(|_| list.and_then([0, end(r)], r.pick(&[9, 10]))),
        1 => list.and_then(axis, 11),
        2 => {
            // small by small, and small by great
            list.start_again(r.pick(&[1, 2, 3]));
            if r.one_in(2) { list.and_then(axis, 11) } else { list.and_then([0, end(r)], 14) }
        }
        3 => {
            list.by_itself();
            list.and_then([0, r.within(0, 3_000_000) as i32], 10);
        }
        4 => {
            list.and_then(axis, 14);
            list.and_then([0, r.within(-200_000, 200_000) as i32], 10);
        }
        _ => {}
    }
    list
}

/// More clauses that write the result's slot.
impl List {
    fn result(&self) -> i32 {
        self.clauses.last().expect("a clause")[1]
    }

    /// The result is the sample's place on an axis.
    fn start_again(&mut self, axis: i32) {
        self.clauses.push([axis, self.result(), 0, 0, 0]);
    }

    /// The result is the old one and another operand, a constant or an axis, by an operation.
    fn and_then(&mut self, operand: [i32; 2], opcode: i32) {
        let result = self.result();
        let other = (result + 1) % self.slots as i32;
        self.clauses.push([operand[0], other, 0, 0, operand[1]]);
        self.clauses.push([opcode, result, result, other, 0]);
    }

    /// The result is the old one by itself.
    fn by_itself(&mut self) {
        let result = self.result();
        self.clauses.push([11, result, result, result, 0]);
    }
}
