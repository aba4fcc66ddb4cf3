//! Random grids.

use crate::random::Random;
use slow::draw::Grid;

pub const M: i64 = 2_147_483_647;

/// Sample i on an axis, also where a fault is planted in the slow drawing's own.
pub fn sample(grid: &Grid, axis: usize, i: u32) -> i32 {
    let (origin, step) = (grid.origins[axis] as i64, grid.steps[axis] as i64);
    (origin + i as i64 * step + step / 2) as i32
}

/// One sample, a few, odd sizes, sizes about one 64-tile, several tiles.
fn size(r: &mut Random) -> u32 {
    let size = match r.below(8) {
        0 => 1,
        1..=3 => 1 + r.below(12),
        4 | 5 => 1 + r.below(40),
        6 => 62 + r.below(8),
        _ => 60 + r.below(141),
    };
    size as u32
}

/// Three sizes with at most so many samples in all.
fn sizes(r: &mut Random, most: u64) -> [u32; 3] {
    loop {
        let sizes = [0; 3].map(|_| size(r));
        if sizes.iter().map(|&n| n as u64).product::<u64>() <= most {
            return sizes;
        }
    }
}

/// Origin and step of an axis, anywhere in the range of values: small and great steps, samples at both ends of the range.
fn wild_axis(r: &mut Random, size: u32) -> (i32, i32) {
    // from −M the last sample, in the middle of its cell, is at most M
    let greatest = (4 * M / (2 * size as i64 - 1)).min(M);
    let step = match r.below(4) {
        0 => r.within(1, 20),
        1 => r.within(1, greatest),
        _ => r.within(1, 4_000_000 / size as i64),
    };
    let highest = M - (size as i64 - 1) * step - step / 2;
    let origin = match r.below(8) {
        0 => -M,
        1 => highest,
        2 => r.within(-M, highest),
        // 0 lies among the samples
        _ => (-r.within(0, size as i64) * step + r.within(0, step)).clamp(-M, highest),
    };
    (origin as i32, step as i32)
}

/// An axis of some units about 0, where parts have their shapes.
fn tame_axis(r: &mut Random, size: u32) -> (i32, i32) {
    let step = r.pick(&[65_536, 20_000, 4_321]) + r.within(0, 3) * 10_007;
    let origin = -(size as i64 / 2) * step + r.within(-step, step);
    (origin as i32, step as i32)
}

/// An axis of the smallest values, on both sides of 0.
fn fine_axis(r: &mut Random, size: u32) -> (i32, i32) {
    let step = r.within(1, 300);
    (-(r.within(0, size as i64) * step) as i32, step as i32)
}

fn grid(r: &mut Random, most: u64, axis: fn(&mut Random, u32) -> (i32, i32)) -> Grid {
    let sizes = sizes(r, most);
    let axes = sizes.map(|n| axis(r, n));
    Grid { sizes, origins: axes.map(|a| a.0), steps: axes.map(|a| a.1) }
}

/// Any accepted grid of at most so many samples.
pub fn wild(r: &mut Random, most: u64) -> Grid {
    grid(r, most, wild_axis)
}

/// A grid of some units, with 0 in its middle.
pub fn tame(r: &mut Random, most: u64) -> Grid {
    grid(r, most, tame_axis)
}

/// A grid about 0 that is small beside one unit.
pub fn fine(r: &mut Random, most: u64) -> Grid {
    grid(r, most, fine_axis)
}

/// The axis of a flat grid: some samples, or several 64-tiles.
fn flat_size(r: &mut Random) -> u32 {
    let size = match r.below(6) {
        0 => 1 + r.below(12),
        1 => 62 + r.below(8),
        2 => 126 + r.below(6),
        _ => 1 + r.below(200),
    };
    size as u32
}

/// A flat grid of at most so many pixels; its depth and third step are 1.
pub fn flat(r: &mut Random, most: u64) -> Grid {
    let sizes = loop {
        let [width, height] = [0; 2].map(|_| flat_size(r));
        if width as u64 * height as u64 <= most {
            break [width, height, 1];
        }
    };
    let axis = if r.one_in(4) { wild_axis } else { tame_axis };
    let axes = sizes.map(|n| axis(r, n));
    Grid { sizes, origins: axes.map(|a| a.0), steps: [axes[0].1, axes[1].1, 1] }
}

/// Noise in the fields that a flat drawing does not read.
pub fn unread(r: &mut Random, grid: &mut Grid) {
    grid.sizes[2] = r.pick(&[0, 1, 513, u32::MAX]);
    grid.steps[2] = r.pick(&[0, 1, -1, i32::MIN, i32::MAX]);
}

/// A solid grid of several 64-tiles and at most so many samples: two tiles along each axis, if that is not too much.
pub fn tiled(r: &mut Random, most: u64) -> Grid {
    let samples = |sizes: &[u32; 3]| sizes.iter().map(|&n| n as u64).product::<u64>();
    let mut sizes = [0; 3].map(|_| 65 + r.below(5) as u32);
    while samples(&sizes) > most {
        sizes = sizes.map(|_| r.pick(&[1, 2, 3, 9, 65, 70, 128, 130, 200]));
    }
    let axes = sizes.map(|n| tame_axis(r, n));
    Grid { sizes, origins: axes.map(|a| a.0), steps: axes.map(|a| a.1) }
}
