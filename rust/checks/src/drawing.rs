//! Input of the four drawings.

use crate::compare::both;
use crate::random::{Random, cases};
use crate::{damage, grids, lists, shapes};
use layers::raw;
use slow::call::{self, Answer};
use slow::draw::Grid;

/// A tape, a grid and the lengths of the buffers lent.
#[derive(Clone, Debug)]
pub struct Drawing {
    pub tape: Vec<u8>,
    pub grid: Grid,
    pub flat: usize,
    pub solid: usize,
    pub work: usize,
}

/// The samples of most grids, so that a slow drawing takes few milliseconds.
const FEW: u64 = 6_000;
const MANY: u64 = 120_000;

impl Drawing {
    /// With buffers that fit.
    pub fn new(tape: Vec<u8>, grid: Grid) -> Self {
        Drawing { tape, grid, flat: grid.picture_len(false), solid: grid.picture_len(true), work: raw::WORK }
    }

    /// An accepted list and grid of any kind.
    pub fn random(r: &mut Random) -> Self {
        let most = if r.one_in(40) { MANY } else { FEW };
        let grid = grids::wild(r, most);
        let work = r.index(3);
        let drawing = Drawing::new(lists::random(r, &grid).tape(), grid);
        Drawing { work: raw::WORK + work, ..drawing }
    }

    /// Arithmetic at the ends of the range of values and about 0.
    pub fn arithmetic(r: &mut Random) -> Self {
        let grid = if r.one_in(2) { grids::wild(r, 300) } else { grids::fine(r, 300) };
        Drawing::new(lists::arithmetic(r, &grid).tape(), grid)
    }

    /// A part of shapes.
    pub fn shapes(r: &mut Random) -> Self {
        let most = if r.one_in(20) { MANY } else { FEW };
        let grid = if r.one_in(4) { grids::wild(r, most) } else { grids::tame(r, most) };
        Drawing::new(shapes::random(r, &grid).tape(), grid)
    }

    /// A tape that edition 01 can't hold: for its clauses, on few samples, or for its slots.
    pub fn wide(r: &mut Random) -> Self {
        let most = r.pick(&[60, 1500, FEW, FEW]);
        let grid = if r.one_in(2) { grids::wild(r, most) } else { grids::tame(r, most) };
        let list = match most {
            60 => lists::long(r, &grid),
            1500 => lists::wide(r, &grid),
            _ => {
                let part = shapes::random(r, &grid);
                lists::spread(r, &part)
            }
        };
        Drawing::new(list.tape(), grid)
    }

    /// An accepted input with something damaged.
    pub fn damaged(r: &mut Random) -> Self {
        let grid = grids::wild(r, 400);
        let list = if r.one_in(4) { lists::wide(r, &grid) } else { lists::random(r, &grid) };
        let mut drawing = Drawing::new(list.tape(), grid);
        drawing.damage(r);
        drawing
    }

    /// Damages one thing or two: the tape, the grid or the length of a buffer.
    pub fn damage(&mut self, r: &mut Random) {
        for _ in 0..1 + r.below(2) {
            match r.below(10) {
                0..=4 => damage::tape(r, &mut self.tape),
                5..=7 => damage::grid(r, &mut self.grid),
                8 => self.work -= 1,
                _ => {
                    let off = r.pick(&[-1, 1]);
                    let length = if r.one_in(2) { &mut self.flat } else { &mut self.solid };
                    *length = length.saturating_add_signed(off);
                }
            }
        }
    }

    /// A part of any kind on a flat grid of several 64-tiles.
    pub fn flat(r: &mut Random, most: u64) -> Self {
        let mut grid = grids::flat(r, most);
        let tape = lists::any(r, &grid).tape();
        grids::unread(r, &mut grid);
        Drawing::new(tape, grid)
    }

    pub fn core_grid(&self) -> raw::Grid {
        let Grid { sizes, origins, steps } = self.grid;
        raw::Grid {
            width: sizes[0],
            height: sizes[1],
            depth: sizes[2],
            xorigin: origins[0],
            yorigin: origins[1],
            zorigin: origins[2],
            xstep: steps[0],
            ystep: steps[1],
            zstep: steps[2],
        }
    }

    /// All four drawings by the core and by the slow drawing, on buffers full of noise: flat and solid in full, flat and
    /// solid by tiles.
    pub fn compare(&self, r: &mut Random) -> Result<[Answer; 4], String> {
        let (tape, grid, core) = (&self.tape, &self.grid, self.core_grid());
        let flat = r.bytes(self.flat);
        let solid = r.noise(self.solid, |v| (v >> 32) as u16);
        let work = r.bytes(self.work);
        let all = || {
            let full_flat = both("draw_flat", &flat, |p| raw::draw_flat(tape, core, p), |p| call::draw(tape, grid, p))?;
            let full_solid =
                both("draw_solid", &solid, |p| raw::draw_solid(tape, core, p), |p| call::draw(tape, grid, p))?;
            let tile_flat = both(
                "tile_flat",
                &(flat, work.clone()),
                |(p, w)| raw::tile_flat(tape, core, p, w),
                |(p, w)| call::tile(tape, grid, p, w),
            )?;
            let tile_solid = both(
                "tile_solid",
                &(solid, work),
                |(p, w)| raw::tile_solid(tape, core, p, w),
                |(p, w)| call::tile(tape, grid, p, w),
            )?;
            Ok([full_flat, full_solid, tile_flat, tile_solid])
        };
        all().map_err(|e: String| format!("{e}: {self:?}"))
    }
}

/// Cases from one seed, the same in every test that asks for them.
pub struct Series {
    pub seed: u64,
    pub cases: u64,
    pub of: fn(&mut Random) -> Drawing,
}

pub const RANDOM: Series = Series { seed: 0x5EED_0001, cases: 3000, of: Drawing::random };
pub const ARITHMETIC: Series = Series { seed: 0x5EED_0002, cases: 3000, of: Drawing::arithmetic };
pub const SHAPES: Series = Series { seed: 0x5EED_0003, cases: 1500, of: Drawing::shapes };
pub const DAMAGED: Series = Series { seed: 0x5EED_0004, cases: 4000, of: Drawing::damaged };
pub const WIDE: Series = Series { seed: 0x5EED_0005, cases: 1000, of: Drawing::wide };

impl Series {
    /// Calls `check` with each case; the noise in the buffers has a seed of its own. The number of cases comes back.
    pub fn each(&self, test: &str, mut check: impl FnMut(&Drawing, &mut Random)) -> u64 {
        let cases = cases(self.cases);
        let mut r = Random::seeded(&format!("{test}: {cases} cases"), self.seed);
        let mut noise = Random::new(self.seed ^ 0xFFFF);
        for _ in 0..cases {
            check(&(self.of)(&mut r), &mut noise);
        }
        cases
    }
}
