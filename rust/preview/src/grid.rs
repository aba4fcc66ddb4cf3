//! The grid record at the start of the program's input.

use crate::Fault;

/// What a preview needs of a grid: its sizes, and for a solid the lengths between its samples.
#[derive(Clone, Copy, Debug, PartialEq, Eq)]
pub struct Grid {
    pub width: usize,
    pub height: usize,
    /// 0: one layer.
    pub depth: usize,
    pub xstep: i32,
    pub ystep: i32,
    pub zstep: i32,
}

const RECORD: usize = 32;

impl Grid {
    /// The grid of an input. A solid's steps are checked, because shading divides by them.
    pub fn read(input: &[u8]) -> Result<Grid, Fault> {
        let record = input.get(..RECORD).filter(|record| record.starts_with(b"GR")).ok_or(Fault::Record)?;
        let size = |at: usize| u16::from_le_bytes([record[at], record[at + 1]]) as usize;
        let step = |at: usize| i32::from_le_bytes([0, 1, 2, 3].map(|byte| record[at + byte]));
        let [width, height, depth] = [2, 4, 6].map(size);
        let [xstep, ystep, zstep] = [20, 24, 28].map(step);
        match [xstep, ystep, zstep].into_iter().find(|step| *step < 1) {
            Some(step) if depth > 0 => Err(Fault::Step(step)),
            _ => Ok(Grid { width, height, depth, xstep, ystep, zstep }),
        }
    }
}
