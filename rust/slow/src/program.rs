//! The program: a grid record and a tape in, a Netpbm file and the count out.

use crate::call::{Answer, answer};
use crate::draw::{self, Grid};
use crate::fault::{Fault, planted};
use crate::netpbm;
use crate::tape::{Refused, Tape, refuse};
use crate::walk;

/// What comes of an input: number, place and count, the bytes on standard output and those on descriptor 2.
#[derive(Clone, Debug, PartialEq, Eq)]
pub struct Said {
    pub answer: Answer,
    pub first: Vec<u8>,
    pub second: Vec<u8>,
}

const RECORD: usize = 32;
const MARK: [u8; 2] = [0x47, 0x52];

/// The picture goes to standard output, the count as a decimal line to descriptor 2; otherwise standard output has just
/// the refusal.
pub fn program(input: &[u8]) -> Said {
    let drawn = drawn(input);
    let answer = answer(drawn.as_ref().map(|d| d.1).map_err(|r| *r));
    let count = format!("{}\n", answer.count).into_bytes();
    match drawn {
        Ok((file, _)) => Said { answer, first: file, second: count },
        Err(r) => Said {
            answer,
            first: format!("refused {} at {}\n", r.number, r.place).into_bytes(),
            second: if planted(Fault::CountWhenRefused) { count } else { Vec::new() },
        },
    }
}

/// The file and the count: checks 15, 16, then as drawing. The program's own buffers fit, so 12 and 13 never come.
fn drawn(input: &[u8]) -> Result<(Vec<u8>, u64), Refused> {
    if input.len() < RECORD {
        return refuse(15);
    }
    let grid = grid(input);
    let solid = grid.sizes[2] > 0;
    if planted(Fault::SixteenBeforeFifteen) {
        small_enough(&grid)?;
    }
    if input[..2] != MARK {
        return refuse(15);
    }
    if !planted(Fault::SixteenAfterTape) {
        small_enough(&grid)?;
    }
    let tape = Tape::from_bytes(&input[RECORD..])?;
    small_enough(&grid)?;
    grid.check(solid)?;
    if planted(Fault::ThirdStepRead) && grid.steps[2] < 1 {
        return refuse(11);
    }
    let (heights, count) = walk::walk(&tape, &grid, solid);
    Ok((file(&grid, &heights), count))
}

/// The grid record's fields, little-endian.
fn grid(input: &[u8]) -> Grid {
    let size = |at: usize| u16::from_le_bytes([input[at], input[at + 1]]) as u32;
    let word = |at: usize| i32::from_le_bytes([input[at], input[at + 1], input[at + 2], input[at + 3]]);
    Grid {
        sizes: [size(2), size(4), size(6)],
        origins: [word(8), word(12), word(16)],
        steps: [word(20), word(24), word(28)],
    }
}

/// A grid's record. A size that two bytes don't hold loses what is above them.
pub fn record(grid: &Grid) -> Vec<u8> {
    let mut bytes = MARK.to_vec();
    bytes.extend(grid.sizes.iter().flat_map(|&n| (n as u16).to_le_bytes()));
    bytes.extend(grid.origins.iter().chain(&grid.steps).flat_map(|v| v.to_le_bytes()));
    bytes
}

/// Line 16.
fn small_enough(grid: &Grid) -> Result<(), Refused> {
    let [width, height, depth] = grid.sizes;
    if depth > 0 && (width > 128 || height > 128) {
        return refuse(16);
    }
    Ok(())
}

/// Depth 0 means flat.
fn file(grid: &Grid, heights: &[u16]) -> Vec<u8> {
    let [width, height, depth] = grid.sizes;
    if depth == 0 {
        netpbm::bitmap_file(width, height, &draw::bits(grid, heights))
    } else {
        netpbm::height_file(width, height, heights)
    }
}
