//! Random parts: minima and maxima, one inside another, of balls, cones, boxes and half spaces.

use crate::grids;
use crate::lists::List;
use crate::random::Random;
use slow::draw::Grid;

const X: i32 = 1;
const NEGATE: i32 = 5;
const SQUARE: i32 = 7;
const ROOT: i32 = 8;
const ADD: i32 = 9;
const SUBTRACT: i32 = 10;
const MULTIPLY: i32 = 11;
const MINIMUM: i32 = 12;
const MAXIMUM: i32 = 13;
const DIVIDE: i32 = 14;

/// Writes clauses, each slot given out again as soon as its value was read.
struct Maker<'a> {
    r: &'a mut Random,
    grid: &'a Grid,
    free: Vec<i32>,
    slots: u32,
    clauses: Vec<[i32; 5]>,
}

/// A part of shapes that lie about the grid's samples.
pub fn random(r: &mut Random, grid: &Grid) -> List {
    let nested = r.within(0, 3) as u32;
    let mut maker = Maker { r, grid, free: (0..64).rev().collect(), slots: 1, clauses: Vec::new() };
    maker.part(nested);
    List { slots: maker.slots, clauses: maker.clauses }
}

impl Maker<'_> {
    fn fresh(&mut self) -> i32 {
        let slot = self.free.pop().expect("few slots at once");
        self.slots = self.slots.max(slot as u32 + 1);
        slot
    }

    fn constant(&mut self, constant: i32) -> i32 {
        let out = self.fresh();
        self.clauses.push([0, out, 0, 0, constant]);
        out
    }

    /// The result goes to one of the slots read, or to another.
    fn operation(&mut self, opcode: i32, reads: &[i32]) -> i32 {
        let out = if reads.is_empty() || self.r.one_in(3) { self.fresh() } else { self.r.pick(reads) };
        let field = |i: usize| reads.get(i).copied().unwrap_or(0);
        self.clauses.push([opcode, out, field(0), field(1), 0]);
        self.free.extend(reads.iter().filter(|&&s| s != out));
        out
    }

    /// The square, as its own operation or as a product of the slot by itself.
    fn square(&mut self, of: i32) -> i32 {
        let out = self.operation(SQUARE, &[of]);
        if self.r.one_in(2) {
            let last = self.clauses.last_mut().expect("the square");
            (last[0], last[3]) = (MULTIPLY, of);
        }
        out
    }

    /// The distance along an axis from some sample of the grid.
    fn along(&mut self, axis: usize) -> i32 {
        let index = self.r.below(self.grid.sizes[axis] as u64) as u32;
        let sample = grids::sample(self.grid, axis, index);
        let (place, from) = (self.operation(X + axis as i32, &[]), self.constant(sample));
        self.operation(SUBTRACT, &[place, from])
    }

    fn half_space(&mut self) -> i32 {
        let axis = self.r.index(3);
        let distance = self.along(axis);
        if self.r.one_in(2) { self.operation(NEGATE, &[distance]) } else { distance }
    }

    /// The sum of the squares of two distances, along x and y.
    fn squares_across(&mut self) -> i32 {
        let squares = [0, 1].map(|axis| {
            let distance = self.along(axis);
            self.square(distance)
        });
        self.operation(ADD, &squares)
    }

    /// The distance from a line along z, divided by the height above or the depth below some sample, less a slope. At
    /// that sample the divisor is 0.
    fn cone(&mut self) -> i32 {
        let across = self.squares_across();
        let distance = self.operation(ROOT, &[across]);
        let height = self.along(2);
        let height = if self.r.one_in(2) { self.operation(NEGATE, &[height]) } else { height };
        let quotient = self.operation(DIVIDE, &[distance, height]);
        let slope = self.r.within(-3 * 65_536, 3 * 65_536) as i32;
        let slope = self.constant(slope);
        self.operation(SUBTRACT, &[quotient, slope])
    }

    fn ball(&mut self) -> i32 {
        let (across, height) = (self.squares_across(), self.along(2));
        let height = self.square(height);
        let sum = self.operation(ADD, &[across, height]);
        let distance = self.operation(ROOT, &[sum]);
        let width = self.grid.sizes[0] as i64 * self.grid.steps[0] as i64;
        let radius = self.r.within(0, width / 2) as i32;
        let radius = self.constant(radius);
        self.operation(SUBTRACT, &[distance, radius])
    }

    fn cut(&mut self, walls: u32) -> i32 {
        let mut result = self.half_space();
        for _ in 1..walls {
            let wall = self.half_space();
            result = self.operation(MAXIMUM, &[result, wall]);
        }
        result
    }

    fn part(&mut self, nested: u32) -> i32 {
        if nested == 0 {
            return match self.r.below(5) {
                0 | 1 => self.ball(),
                2 => self.cone(),
                _ => self.cut(4),
            };
        }
        let (left, right) = (self.part(nested - 1), self.part(nested - 1));
        let opcode = if self.r.one_in(3) { MAXIMUM } else { MINIMUM };
        self.operation(opcode, &[left, right])
    }
}
