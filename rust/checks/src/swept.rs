//! Input of the drawing of what is swept along a path.

use crate::compare::both;
use crate::drawing::Drawing;
use crate::grids::{self, M};
use crate::random::Random;
use layers::raw;
use slow::call::Answer;
use slow::draw::Grid;
use slow::swept::tile_swept;

/// A drawing, whose picture has a number for each pixel of its solid one, and the path.
#[derive(Clone, Debug)]
pub struct Sweeping {
    pub drawing: Drawing,
    pub path: Vec<i32>,
}

/// The least and the greatest offset that move no sample of the axis outside the values.
fn ends(grid: &Grid, axis: usize) -> (i64, i64) {
    let [first, last] = [0, grid.sizes[axis] - 1].map(|i| grids::sample(grid, axis, i) as i64);
    ((last - M).max(i32::MIN as i64), (first + M).min(M))
}

/// Offsets of an axis at so many positions: in small steps, or anywhere; often at an end of what is allowed.
fn offsets(r: &mut Random, grid: &Grid, axis: usize, positions: usize) -> Vec<i64> {
    let (low, high) = ends(grid, axis);
    let extent = grid.sizes[axis] as i64 * grid.steps[axis] as i64;
    let (smooth, mut at) = (r.one_in(2), r.within(-extent, extent));
    (0..positions)
        .map(|_| {
            let offset = match r.below(40) {
                0 => r.pick(&[low, high, 0]),
                1 => r.within(low, high),
                _ if smooth => at,
                _ => r.within(-extent, extent),
            };
            at += r.within(-2, 3) * extent / 20;
            offset.clamp(low, high)
        })
        .collect()
}

impl Sweeping {
    /// Any part and path; a long one on few pixels.
    pub fn random(r: &mut Random) -> Self {
        let (most, positions) = match r.below(40) {
            0 => (20, 4_096 - r.index(2)),
            1 => (100, 1 + r.index(300)),
            2 => (10_000, 1 + r.index(5)),
            _ => (1_500, 1 + r.index(20)),
        };
        let drawing = Drawing::flat(r, most);
        let along = [0, 1].map(|axis| offsets(r, &drawing.grid, axis, positions));
        let path = (0..positions).flat_map(|k| [along[0][k] as i32, along[1][k] as i32]).collect();
        Sweeping { drawing, path }
    }

    /// With a wrong path, or something else damaged, or both.
    pub fn damaged(r: &mut Random) -> Self {
        let mut case = Sweeping::random(r);
        let at_fault = case.drawing.grid;
        if r.one_in(2) {
            case.drawing.damage(r);
        }
        if r.one_in(2) {
            case.damage_path(r, &at_fault);
        }
        case
    }

    fn damage_path(&mut self, r: &mut Random, grid: &Grid) {
        match r.below(8) {
            0 => self.path.clear(),
            1 => self.path.push(0),
            2 => drop(self.path.pop()),
            3 => self.path.resize(2 * 4_096 + r.pick(&[1, 2, 3]), 0),
            _ => {
                // one beyond what is allowed, if a number of 32 bits can be
                let at = r.index(self.path.len());
                let (low, high) = ends(grid, at % 2);
                self.path[at] = r.pick(&[low - 1, high + 1, low, high]).clamp(i32::MIN as i64, M) as i32;
            }
        }
    }

    /// Both calls' answer, or how they differ in it or in a buffer, all full of noise before.
    pub fn compare(
        &self,
        noise: &mut Random,
        core: impl FnOnce(&[u8], raw::Grid, &[i32], &mut [u16], &mut [u8]) -> raw::Answer,
    ) -> Result<Answer, String> {
        let Sweeping { drawing: Drawing { tape, grid, solid, work, .. }, path } = self;
        let lent = (noise.noise(*solid, |v| (v >> 32) as u16), noise.bytes(*work));
        let core_grid = self.drawing.core_grid();
        both(
            "tile_swept",
            &lent,
            |(p, w)| core(tape, core_grid, path, p, w),
            |(p, w)| tile_swept(tape, grid, path, p, w),
        )
        .map_err(|e| format!("{e}: {self:?}"))
    }
}
