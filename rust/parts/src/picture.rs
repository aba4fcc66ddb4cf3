//! Pictures of the parts, drawn by the core.

use crate::Part;
use layers::{Bitmap, Drawn, Grid, Heightmap, Refusal, Slopes};
use preview::view::{bitmap_png, slopes_png};

/// The flat picture.
pub fn flat(part: &Part) -> Drawn<Bitmap> {
    drawn(part, Bitmap::draw(&part.tape, part.flat))
}

/// The solid's heights on a grid.
pub fn solid(part: &Part, grid: Grid) -> Drawn<Heightmap> {
    drawn(part, Heightmap::draw(&part.tape, grid))
}

/// The same with the slopes at the visible samples.
pub fn sloped(part: &Part, grid: Grid) -> (Drawn<Heightmap>, Slopes) {
    drawn(part, Heightmap::draw_with_slopes(&part.tape, grid))
}

fn drawn<T>(part: &Part, picture: Result<T, Refusal>) -> T {
    picture.unwrap_or_else(|refusal| panic!("{}: {refusal}", part.name))
}

/// The flat picture as a file, material black.
pub fn flat_png(part: &Part) -> Vec<u8> {
    let seen = seen(part.flat);
    let rows = flat(part).picture.into_vec();
    bitmap_png(&preview::Bitmap { width: seen.width, height: seen.height, rows })
}

/// The side of the solid picture's file; the program's own limit for a solid is 128.
const FINE: u32 = 512;

/// The solid's box in finer samples, lit by its slopes.
pub fn solid_png(part: &Part) -> Vec<u8> {
    let grid = part.solid_at(FINE);
    let seen = seen(grid);
    let (drawn, slopes) = sloped(part, grid);
    let values = drawn.picture.into_vec();
    slopes_png(&preview::Heights { width: seen.width, height: seen.height, values }, slopes.as_slice(), &seen)
}

/// What a preview needs of a grid.
fn seen(grid: Grid) -> preview::Grid {
    let [width, height, depth] = [grid.width, grid.height, grid.depth].map(|size| size as usize);
    preview::Grid { width, height, depth, xstep: grid.xstep, ystep: grid.ystep, zstep: grid.zstep }
}
