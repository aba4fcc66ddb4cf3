//! PNG files of pictures, small pictures enlarged.

use crate::png::png;
use crate::shade::{lit, shades};
use crate::{Bitmap, Fault, Grid, Heights, Picture};
use std::iter::repeat_n;

/// The longer side of a file is at least this many pixels.
const LEAST: usize = 384;

/// The file of a picture that the program drew on a grid.
pub fn view(grid: &Grid, picture: &Picture) -> Result<Vec<u8>, Fault> {
    let (input, picture_sizes) = ([grid.width, grid.height], picture.sizes());
    match picture {
        Picture::Bitmap(_) if grid.depth > 0 => Err(Fault::Kind),
        Picture::Heights(_) if grid.depth == 0 => Err(Fault::Kind),
        _ if input != picture_sizes => Err(Fault::Size { input, picture: picture_sizes }),
        Picture::Bitmap(bitmap) => Ok(bitmap_png(bitmap)),
        Picture::Heights(heights) => {
            within(heights, grid.depth)?;
            Ok(heights_png(heights, grid))
        }
    }
}

fn within(heights: &Heights, depth: usize) -> Result<(), Fault> {
    match heights.values.iter().find(|height| usize::from(**height) > depth) {
        Some(&height) => Err(Fault::TooHigh { depth, height }),
        None => Ok(()),
    }
}

/// A layer, its material black: one bit a pixel.
pub fn bitmap_png(bitmap: &Bitmap) -> Vec<u8> {
    let pixels = Pixels { width: bitmap.width, height: bitmap.height, values: whites(bitmap) }.enlarged();
    let rows: Vec<u8> = pixels.values.chunks(pixels.width).flat_map(packed).collect();
    png(pixels.width as u32, pixels.height as u32, 1, &rows)
}

/// A solid, shaded by its heights: eight bits a pixel.
pub fn heights_png(heights: &Heights, grid: &Grid) -> Vec<u8> {
    greys_png(heights, shades(heights, grid))
}

/// A solid, lit by its slopes, three a pixel: eight bits a pixel.
pub fn slopes_png(heights: &Heights, slopes: &[i32], grid: &Grid) -> Vec<u8> {
    greys_png(heights, lit(heights, slopes, grid))
}

fn greys_png(heights: &Heights, values: Vec<u8>) -> Vec<u8> {
    let pixels = Pixels { width: heights.width, height: heights.height, values }.enlarged();
    png(pixels.width as u32, pixels.height as u32, 8, &pixels.values)
}

/// A layer's pixels: 0 for material, which PNG shows black, otherwise 1.
fn whites(bitmap: &Bitmap) -> Vec<u8> {
    let white = |row: &[u8], column: usize| !row[column / 8] >> (7 - column % 8) & 1;
    let rows = bitmap.rows.chunks(bitmap.width.div_ceil(8));
    rows.flat_map(|row| (0..bitmap.width).map(move |column| white(row, column))).collect()
}

/// A row of one bit a pixel, the leftmost in the highest bit.
fn packed(row: &[u8]) -> Vec<u8> {
    let byte = |eight: &[u8]| eight.iter().enumerate().fold(0, |byte, (i, bit)| byte | bit << (7 - i));
    row.chunks(8).map(byte).collect()
}

/// A picture of one byte a pixel.
struct Pixels {
    width: usize,
    height: usize,
    values: Vec<u8>,
}

impl Pixels {
    /// Each pixel as a square, by the least whole number that makes the picture large enough to look at.
    fn enlarged(&self) -> Pixels {
        let times = LEAST.div_ceil(self.width.max(self.height));
        let wide = |row: &[u8]| -> Vec<u8> { row.iter().flat_map(|value| repeat_n(*value, times)).collect() };
        let values = self.values.chunks(self.width).flat_map(|row| wide(row).repeat(times)).collect();
        Pixels { width: self.width * times, height: self.height * times, values }
    }
}
