//! Netpbm files as the program writes them: a mark, the sizes with one space between, no comments.

use crate::Fault;
use std::num::NonZeroU16;

/// A layer.
#[derive(Debug, PartialEq, Eq)]
pub struct Bitmap {
    pub width: usize,
    pub height: usize,
    /// Each row in whole bytes, the leftmost pixel in the highest bit, 1 for material.
    pub rows: Vec<u8>,
}

/// The heights of a solid.
#[derive(Debug, PartialEq, Eq)]
pub struct Heights {
    pub width: usize,
    pub height: usize,
    /// For each pixel 1 + the index of the highest layer with material, or 0.
    pub values: Vec<u16>,
}

#[derive(Debug, PartialEq, Eq)]
pub enum Picture {
    Bitmap(Bitmap),
    Heights(Heights),
}

impl Picture {
    pub fn read(file: &[u8]) -> Result<Picture, Fault> {
        match file.split_at_checked(3) {
            Some((b"P4\n", rest)) => bitmap(rest).map(Picture::Bitmap),
            Some((b"P5\n", rest)) => heights(rest).map(Picture::Heights),
            _ => Err(Fault::Mark),
        }
    }

    pub fn sizes(&self) -> [usize; 2] {
        match self {
            Picture::Bitmap(bitmap) => [bitmap.width, bitmap.height],
            Picture::Heights(heights) => [heights.width, heights.height],
        }
    }
}

fn bitmap(rest: &[u8]) -> Result<Bitmap, Fault> {
    let ([width, height], rows) = sizes(rest).ok_or(Fault::Sizes)?;
    exact(rows, width.div_ceil(8) * height)?;
    Ok(Bitmap { width, height, rows: rows.to_vec() })
}

fn heights(rest: &[u8]) -> Result<Heights, Fault> {
    let ([width, height], rest) = sizes(rest).ok_or(Fault::Sizes)?;
    let bytes = rest.strip_prefix(b"65535\n").ok_or(Fault::Greatest)?;
    exact(bytes, 2 * width * height)?;
    let values = bytes.chunks_exact(2).map(|pair| u16::from_be_bytes([pair[0], pair[1]])).collect();
    Ok(Heights { width, height, values })
}

/// The line with width and height, and what follows it.
fn sizes(rest: &[u8]) -> Option<([usize; 2], &[u8])> {
    let end = rest.iter().position(|byte| *byte == b'\n')?;
    let (width, height) = std::str::from_utf8(&rest[..end]).ok()?.split_once(' ')?;
    Some(([size(width)?, size(height)?], &rest[end + 1..]))
}

/// A size above 0, in the only way that the program writes it.
fn size(text: &str) -> Option<usize> {
    let size: NonZeroU16 = text.parse().ok()?;
    (size.to_string() == text).then_some(size.get().into())
}

fn exact(bytes: &[u8], asked: usize) -> Result<(), Fault> {
    let found = bytes.len();
    if found == asked { Ok(()) } else { Err(Fault::Length { asked, found }) }
}
