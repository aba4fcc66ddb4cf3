//! A solid as seen from above and lit from the upper left, nothing white.

use crate::{Grid, Heights};

/// Every pixel's grey, by how the heights around it rise.
pub fn shades(heights: &Heights, grid: &Grid) -> Vec<u8> {
    let facing = |index: usize| {
        let [east, south] = rise(heights, index, grid);
        facing([-east, -south, 1.0])
    };
    // Few shades: the file is smaller, and the steps of the heights show less.
    (0..heights.values.len()).map(|index| grey(heights, index, grid, 5, facing)).collect()
}

/// Every pixel's grey, by the slopes of the formula at its visible sample, three a pixel along x, y and z, of which only
/// the direction counts; and what stands between a pixel and the light casts its shadow there.
pub fn lit(heights: &Heights, slopes: &[i32], grid: &Grid) -> Vec<u8> {
    let facing = |index: usize| {
        let out = [0, 1, 2].map(|axis| f64::from(slopes[3 * index + axis]));
        let facing = if is_side(out) && is_level(heights, index) { 1.0 } else { facing(out) };
        if in_shadow(heights, index, grid) { SHADOW * facing } else { facing }
    };
    (0..heights.values.len()).map(|index| grey(heights, index, grid, 1, facing)).collect()
}

/// How much of the light reaches a shadow.
const SHADOW: f64 = 0.55;

/// A pixel's grey, a multiple of `step` up to 250: how squarely its surface faces the light, darker where deep down.
/// Nothing is white, 255.
fn grey(heights: &Heights, index: usize, grid: &Grid, step: u8, facing: impl Fn(usize) -> f64) -> u8 {
    let height = heights.values[index];
    if height == 0 {
        return 255;
    }
    let raised = height as f64 / grid.depth as f64;
    let light = 0.12 + 0.62 * facing(index).max(0.0) * (0.55 + 0.45 * raised);
    (light.min(1.0) * 250.0 / f64::from(step)).round() as u8 * step
}

/// The light, for each unit of length that it is higher: so much further to the left, and up in the picture.
const LIGHT: [f64; 2] = [0.45, 0.55];

/// How squarely a surface faces the light, 1 where it is level; `out` points out of it, in any length. One without a
/// direction counts as level.
fn facing(out: [f64; 3]) -> f64 {
    let [x, y, z] = out;
    let length = length_of(out);
    if length == 0.0 { 1.0 } else { (z - LIGHT[0] * x - LIGHT[1] * y) / length }
}

fn length_of([x, y, z]: [f64; 3]) -> f64 {
    (x * x + y * y + z * z).sqrt()
}

/// Whether slopes are those of a side face, steeper than 60 degrees.
fn is_side(out: [f64; 3]) -> bool {
    out[2] < 0.5 * length_of(out)
}

/// Whether a pixel is as high as one beside it, to the left or right, and as one above or below it. The visible sample
/// lies some way under the surface, where a side face close by can have the slopes: such a pixel is level all the same.
fn is_level(heights: &Heights, index: usize) -> bool {
    let (width, height) = (heights.width, heights.values[index]);
    let same = |there: bool, at: usize| there && heights.values[at] == height;
    let (column, row) = (index % width, index / width);
    let beside = same(column > 0, index.wrapping_sub(1)) || same(column + 1 < width, index + 1);
    let along = same(row > 0, index.wrapping_sub(width)) || same(row + 1 < heights.height, index + width);
    beside && along
}

/// Whether something higher stands on the way to the light, which is gone in steps of at most a pixel on either axis.
fn in_shadow(heights: &Heights, index: usize, grid: &Grid) -> bool {
    let (column, row) = ((index % heights.width) as f64, (index / heights.width) as f64);
    let pixels = [LIGHT[0] / grid.xstep as f64, LIGHT[1] / grid.ystep as f64];
    let step = 1.0 / pixels[0].max(pixels[1]);
    // two layers more, so that a slope does not shade itself by its steps
    let layers = |steps: f64| heights.values[index] as f64 + 2.0 + steps * step / grid.zstep as f64;
    for steps in (1..).map(f64::from).take_while(|&steps| layers(steps) < grid.depth as f64) {
        let [left, up] = pixels.map(|pixel| steps * step * pixel);
        let (column, row) = ((column - left).round(), (row - up).round());
        if column < 0.0 || row < 0.0 {
            return false;
        }
        if f64::from(heights.values[row as usize * heights.width + column as usize]) > layers(steps) {
            return true;
        }
    }
    false
}

/// How far the heights rise to the right and downward in the picture, per unit of length.
fn rise(heights: &Heights, index: usize, grid: &Grid) -> [f64; 2] {
    let width = heights.width;
    let (column, row) = (index % width, index / width);
    let z = |column: usize, row: usize| heights.values[row * width + column] as f64 * grid.zstep as f64;
    let ([left, right], [up, down]) = (around(column, width), around(row, heights.height));
    let east = (z(right, row) - z(left, row)) / length([left, right], grid.xstep);
    let south = (z(column, down) - z(column, up)) / length([up, down], grid.ystep);
    [east, south]
}

/// The pixels between which a slope is taken: two each way, or as many as there are.
fn around(place: usize, count: usize) -> [usize; 2] {
    [place.saturating_sub(2), (place + 2).min(count - 1)]
}

/// The length from one pixel to another, or of one step where they are the same, between which nothing rises.
fn length([from, to]: [usize; 2], step: i32) -> f64 {
    (to - from).max(1) as f64 * step as f64
}
