//! Example parts, built of simple shapes (`shape`) and compiled to tapes with few slots (`slots`).

pub mod examples;
pub mod formula;
pub mod picture;
pub mod shape;
pub mod slots;
pub mod text;

use formula::{Formula, nearest};
use layers::{Grid, MAX_SLOTS, Tape};
use shape::Shape;
use slots::{TooBig, compile};

/// A part to draw: its tape, and the grids that show it.
pub struct Part {
    pub name: &'static str,
    pub tape: Tape,
    /// 512 by 512, at a z that shows the inside.
    pub flat: Grid,
    /// 128 by 128 by 128, of the whole part.
    pub solid: Grid,
}

/// The part as it is designed: its shape, the box that holds it, and the z of its flat picture.
pub struct Design {
    pub name: &'static str,
    pub shape: Shape,
    pub low: [f64; 3],
    pub high: [f64; 3],
    pub z: f64,
}

impl Design {
    pub fn part(&self) -> Part {
        let tape = self.compiled(MAX_SLOTS).unwrap_or_else(|e| panic!("{}: {e:?}", self.name));
        let flat = Grid { depth: 0, zorigin: nearest(self.z), zstep: 0, ..self.grid(512) };
        Part { name: self.name, tape, flat, solid: self.grid(128) }
    }

    /// The part's tape within a number of slots.
    pub fn compiled(&self, slots: u8) -> Result<Tape, TooBig> {
        let mut formula = Formula::default();
        let result = self.shape.formula(&mut formula);
        compile(&formula, result, slots)
    }

    /// The part's formula as a designer could have typed it.
    pub fn text(&self) -> String {
        let mut formula = Formula::default();
        let result = self.shape.formula(&mut formula);
        text::text(&formula, result)
    }

    /// The box, cut into n cells along each axis.
    fn grid(&self, n: u32) -> Grid {
        let low = self.low.map(nearest);
        let sizes = [0, 1, 2].map(|axis| nearest(self.high[axis] - self.low[axis]));
        cut(low, sizes, n)
    }
}

/// A grid of n cells along each axis of a box.
fn cut(low: [i32; 3], sizes: [i32; 3], n: u32) -> Grid {
    let [xstep, ystep, zstep] = sizes.map(|size| size / n as i32);
    Grid::solid(n, n, n).origin(low[0], low[1], low[2]).step(xstep, ystep, zstep)
}

impl Part {
    pub fn clauses(&self) -> usize {
        self.tape.clause_count()
    }

    /// The program's inputs that draw this part, with their file names.
    pub fn inputs(&self) -> [(String, Vec<u8>); 2] {
        [("flat", self.flat), ("solid", self.solid)]
            .map(|(kind, grid)| (format!("{}-{kind}.part", self.name), input(grid, &self.tape)))
    }

    /// The solid grid's box, cut into n cells along each axis (n up to 512).
    pub fn solid_at(&self, n: u32) -> Grid {
        let g = self.solid;
        let sizes = [g.xstep * g.width as i32, g.ystep * g.height as i32, g.zstep * g.depth as i32];
        cut([g.xorigin, g.yorigin, g.zorigin], sizes, n)
    }
}

/// A program's input: the grid record, then the tape.
fn input(grid: Grid, tape: &Tape) -> Vec<u8> {
    let mut bytes = vec![0x47, 0x52];
    for size in [grid.width, grid.height, grid.depth] {
        bytes.extend((size as u16).to_le_bytes());
    }
    for number in [grid.xorigin, grid.yorigin, grid.zorigin, grid.xstep, grid.ystep, grid.zstep] {
        bytes.extend(number.to_le_bytes());
    }
    bytes.extend(tape.as_bytes());
    bytes
}

/// The example parts of one design each, which the benchmark draws.
pub fn designed() -> Vec<Part> {
    examples::designs().iter().map(Design::part).collect()
}

/// Every example part.
pub fn all() -> Vec<Part> {
    designed().into_iter().chain([examples::plate()]).collect()
}
