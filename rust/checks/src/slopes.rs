//! Input of the solid drawing with slopes.

use crate::compare::both;
use crate::drawing::Drawing;
use crate::grids;
use crate::lists::List;
use crate::random::Random;
use layers::raw;
use slow::call::Answer;
use slow::draw::Grid;

/// A drawing, and how many slopes are lent.
#[derive(Clone, Debug)]
pub struct Sloping {
    pub drawing: Drawing,
    pub slopes: usize,
}

/// The buffers lent: picture, slopes, work.
pub type Lent = (Vec<u16>, Vec<i32>, Vec<u8>);

impl Sloping {
    /// With buffers that fit.
    pub fn new(drawing: Drawing) -> Self {
        Sloping { slopes: 3 * drawing.solid, drawing }
    }

    /// Any accepted drawing.
    pub fn random(r: &mut Random) -> Self {
        Sloping::new(match r.below(12) {
            0 | 1 => Drawing::random(r),
            2 | 3 => Drawing::arithmetic(r),
            4 | 5 => Drawing::shapes(r),
            6 => Drawing::wide(r),
            _ => of_all_opcodes(r),
        })
    }

    /// One with something damaged.
    pub fn damaged(r: &mut Random) -> Self {
        let mut case = Sloping::new(Drawing::damaged(r));
        if r.one_in(3) {
            case.slopes = case.slopes.saturating_add_signed(r.pick(&[-3, -1, 1, 3]));
        }
        case
    }

    /// Both calls' answer, or how they differ in it or in any lent buffer, all full of noise before.
    pub fn compare(
        &self,
        noise: &mut Random,
        core: impl FnOnce(&[u8], raw::Grid, &mut Lent) -> raw::Answer,
        slow: impl FnOnce(&[u8], &Grid, &mut Lent) -> Answer,
    ) -> Result<Answer, String> {
        let Drawing { tape, grid, .. } = &self.drawing;
        let picture = noise.noise(self.drawing.solid, |v| (v >> 32) as u16);
        let slopes = noise.noise(self.slopes, |v| (v >> 32) as i32);
        let lent = (picture, slopes, noise.bytes(self.drawing.work));
        let core_grid = self.drawing.core_grid();
        both("tile_slopes", &lent, |l| core(tape, core_grid, l), |l| slow(tape, grid, l))
            .map_err(|e| format!("{e}: {self:?}"))
    }
}

/// A list of every opcode alike, on values about one, often with two equal ones to choose from; and less some number,
/// so that there is material.
fn of_all_opcodes(r: &mut Random) -> Drawing {
    let grid = grids::tame(r, 600);
    let mut clauses = vec![[1, 0, 0, 0, 0], [2, 1, 0, 0, 0], [3, 2, 0, 0, 0], [0, 3, 0, 0, constant(r, &grid)]];
    for _ in 0..1 + r.below(12) {
        let opcode = if r.one_in(3) { r.pick(&[12, 13]) } else { r.within(0, 14) as i32 };
        let slot = |r: &mut Random, used: bool| if used { r.within(0, 3) as i32 } else { 0 };
        let (left, right) = (slot(r, opcode >= 4), slot(r, opcode >= 9));
        let constant = if opcode == 0 { constant(r, &grid) } else { 0 };
        clauses.push([opcode, r.within(0, 3) as i32, left, right, constant]);
    }
    let result = clauses[clauses.len() - 1][1];
    let other = (result + 1) % 4;
    clauses.push([0, other, 0, 0, r.within(0, 400_000) as i32]);
    clauses.push([10, result, result, other, 0]);
    Drawing::new(List { slots: 4, clauses }.tape(), grid)
}

/// A sample of the grid, or a number about one.
fn constant(r: &mut Random, grid: &Grid) -> i32 {
    let axis = r.index(3);
    let sample = grids::sample(grid, axis, r.below(grid.sizes[axis] as u64) as u32);
    if r.one_in(2) { sample } else { r.within(-200_000, 200_000) as i32 }
}
