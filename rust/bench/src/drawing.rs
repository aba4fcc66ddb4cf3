//! One drawing of a part, by each way: the core's tiles, the plain walk, the core's full drawing.

use crate::plain;
use layers::raw::{self, Answer};
use layers::{Grid, Tape};

/// A flat or a solid drawing.
#[derive(Clone, Copy, PartialEq, Eq)]
pub enum Kind {
    Flat,
    Solid,
}

/// A way to draw.
#[derive(Clone, Copy, PartialEq, Eq)]
pub enum Way {
    Tiles,
    Plain,
    Full,
}

/// The two drawings by tiles of a core.
#[derive(Clone, Copy)]
pub struct Core {
    pub flat: fn(&[u8], Grid, &mut [u8], &mut [u8]) -> Answer,
    pub solid: fn(&[u8], Grid, &mut [u16], &mut [u8]) -> Answer,
}

/// The picture of either kind, in the core's form, and room to work in.
#[derive(Clone)]
pub struct Canvas {
    pub kind: Kind,
    pub grid: Grid,
    pub bits: Vec<u8>,
    pub heights: Vec<u16>,
    /// Three a pixel of a solid.
    pub slopes: Vec<i32>,
    work: Vec<u8>,
}

impl Canvas {
    pub fn new(kind: Kind, grid: Grid) -> Canvas {
        let (width, height) = (grid.width as usize, grid.height as usize);
        let (bytes, numbers) = match kind {
            Kind::Flat => (width.div_ceil(8) * height, 0),
            Kind::Solid => (0, width * height),
        };
        // what the buffers held must not matter
        let (bits, heights, slopes) = (vec![0xA5; bytes], vec![0xA5A5; numbers], vec![-7; 3 * numbers]);
        Canvas { kind, grid, bits, heights, slopes, work: vec![0; raw::WORK] }
    }

    /// Draws the tape, and returns the count of clauses.
    pub fn draw(&mut self, way: Way, tape: &Tape) -> u64 {
        let bytes = tape.as_bytes();
        match (self.kind, way) {
            (_, Way::Tiles) => self.draw_by(Core { flat: raw::tile_flat, solid: raw::tile_solid }, tape),
            (Kind::Flat, Way::Plain) => plain::tile_flat(bytes, self.grid, &mut self.bits),
            (Kind::Solid, Way::Plain) => plain::tile_solid(bytes, self.grid, &mut self.heights),
            (Kind::Flat, Way::Full) => counted(raw::draw_flat(bytes, self.grid, &mut self.bits)),
            (Kind::Solid, Way::Full) => counted(raw::draw_solid(bytes, self.grid, &mut self.heights)),
        }
    }

    /// Draws the tape by the tiles of this core.
    pub fn draw_by(&mut self, core: Core, tape: &Tape) -> u64 {
        let (tape, grid) = (tape.as_bytes(), self.grid);
        counted(match self.kind {
            Kind::Flat => (core.flat)(tape, grid, &mut self.bits, &mut self.work),
            Kind::Solid => (core.solid)(tape, grid, &mut self.heights, &mut self.work),
        })
    }

    /// Draws a solid with its slopes, by the core's tiles or by the plain walk.
    pub fn draw_slopes(&mut self, way: Way, tape: &Tape) -> u64 {
        let (tape, grid) = (tape.as_bytes(), self.grid);
        if way == Way::Plain {
            return plain::tile_slopes(tape, grid, &mut self.heights, &mut self.slopes);
        }
        counted(raw::tile_slopes(tape, grid, &mut self.heights, &mut self.slopes, &mut self.work))
    }

    pub fn same_picture(&self, other: &Canvas) -> bool {
        self.bits == other.bits && self.heights == other.heights && self.slopes == other.slopes
    }
}

fn counted(answer: Answer) -> u64 {
    assert_eq!(answer.number, 0, "refused at clause {}", answer.place);
    answer.count
}

/// The grid's box in another number of samples.
pub fn resized(grid: Grid, sizes: [u32; 3]) -> Grid {
    let step = |step: i32, old: u32, new: u32| (step as i64 * old.max(1) as i64 / new as i64).max(1) as i32;
    Grid {
        width: sizes[0],
        height: sizes[1],
        depth: sizes[2],
        xstep: step(grid.xstep, grid.width, sizes[0]),
        ystep: step(grid.ystep, grid.height, sizes[1]),
        zstep: step(grid.zstep, grid.depth, sizes[2]),
        ..grid
    }
}
