//! Grids, refusals 10 and 11, and the full drawings.

use crate::arith::{M, Range};
use crate::fault::{Fault, planted};
use crate::tape::{Refused, Tape, refuse};

/// Width, height, depth (unread in a flat drawing), three origins, three steps.
#[derive(Clone, Copy, Debug, PartialEq, Eq)]
pub struct Grid {
    pub sizes: [u32; 3],
    pub origins: [i32; 3],
    pub steps: [i32; 3],
}

impl Grid {
    /// Where cell i on an axis begins.
    fn begin(&self, axis: usize, i: u32) -> i128 {
        self.origins[axis] as i128 + i as i128 * self.steps[axis] as i128
    }

    /// From where a cell begins to its middle: floor(step/2).
    fn half(&self, axis: usize) -> i128 {
        let step = self.steps[axis] as i128;
        if planted(Fault::WholeStepAdded) {
            return step;
        }
        if planted(Fault::HalfRoundedUp) {
            return (step + 1).div_euclid(2);
        }
        step.div_euclid(2)
    }

    /// Sample i on an axis is origin + i·step + floor(step/2).
    pub fn sample(&self, axis: usize, i: u32) -> i128 {
        self.begin(axis, i) + self.half(axis)
    }

    /// The sample at three indices; the one z of a flat picture is taken as given.
    pub fn sample_at(&self, solid: bool, i: [u32; 3]) -> [i128; 3] {
        let z = match solid {
            true => self.sample(2, i[2]),
            false if planted(Fault::HalfOnFlatZ) => self.sample(2, 0),
            false => self.origins[2] as i128,
        };
        [self.sample(0, i[0]), self.sample(1, i[1]), z]
    }

    /// The layers drawn.
    pub fn layers(&self, solid: bool) -> u32 {
        if solid { self.sizes[2] } else { 1 }
    }

    /// The axes drawn.
    fn drawn(solid: bool) -> usize {
        if solid { 3 } else { 2 }
    }

    /// Lines 10 and 11.
    pub fn check(&self, solid: bool) -> Result<(), Refused> {
        self.check_sizes(solid)?;
        self.check_samples(solid)
    }

    /// Line 10.
    pub fn check_sizes(&self, solid: bool) -> Result<(), Refused> {
        if self.sizes[..Self::drawn(solid)].iter().any(|n| !(1..=512).contains(n)) {
            return refuse(10);
        }
        Ok(())
    }

    /// Line 11, where line 10 does not hold.
    pub fn check_samples(&self, solid: bool) -> Result<(), Refused> {
        let outside = |v: i128| !(-M..=M).contains(&v);
        for axis in 0..Self::drawn(solid) {
            if self.steps[axis] < 1 || outside(self.first_tested(axis)) || outside(self.last_tested(axis)) {
                return refuse(11);
            }
        }
        if outside(self.first_tested(2)) {
            return refuse(11);
        }
        Ok(())
    }

    /// The origin.
    fn first_tested(&self, axis: usize) -> i128 {
        if planted(Fault::OriginNotTested) { self.sample(axis, 0) } else { self.origins[axis] as i128 }
    }

    /// The last sample.
    fn last_tested(&self, axis: usize) -> i128 {
        let last = self.sizes[axis] - 1;
        if planted(Fault::LastWithoutHalf) { self.begin(axis, last) } else { self.sample(axis, last) }
    }

    /// The picture buffer's length: bytes of a flat picture, heights of a solid.
    pub fn picture_len(&self, solid: bool) -> usize {
        let (w, h) = (self.sizes[0] as usize, self.sizes[1] as usize);
        if solid { w * h } else { h * w.div_ceil(8) }
    }

    /// The axes' ranges over the samples from `first` to `last`.
    pub fn axes(&self, solid: bool, first: [u32; 3], last: [u32; 3]) -> [Range; 3] {
        let (a, b) = (self.sample_at(solid, first), self.sample_at(solid, last));
        [Range::new(a[0], b[0]), Range::new(a[1], b[1]), Range::new(a[2], b[2])]
    }
}

/// The full drawing's heights, in row order: 1 + the greatest z index with material, or 0. Flat heights are 0 and 1.
pub fn heights(tape: &Tape, grid: &Grid, solid: bool) -> Vec<u16> {
    let mut heights = Vec::new();
    for y in 0..grid.sizes[1] {
        for x in 0..grid.sizes[0] {
            let top = (0..grid.layers(solid)).rev().find(|&z| tape.material(grid.sample_at(solid, [x, y, z])));
            heights.push(top.map_or(0, |z| z as u16 + 1));
        }
    }
    heights
}

/// The count of the full drawing: clauses times samples.
pub fn full_count(tape: &Tape, grid: &Grid, solid: bool) -> u64 {
    let samples = grid.sizes[0] as u64 * grid.sizes[1] as u64 * grid.layers(solid) as u64;
    tape.clauses.len() as u64 * samples
}

/// A flat picture's bytes: the leftmost pixel is the highest bit, spare bits are 0.
pub fn bits(grid: &Grid, heights: &[u16]) -> Vec<u8> {
    let width = grid.sizes[0] as usize;
    let mut bytes = Vec::new();
    for row in heights.chunks(width) {
        for part in row.chunks(8) {
            bytes.push(part.iter().enumerate().fold(0, |b, (k, &h)| b | ((h as u8) << (7 - k))));
        }
    }
    bytes
}

/// Figures of the request for samples in the middle of the cell.
#[cfg(test)]
mod tests {
    use super::*;

    /// The same size, origin and step on each axis.
    fn grid(size: u32, origin: i128, step: i128) -> Grid {
        Grid { sizes: [size; 3], origins: [origin as i32; 3], steps: [step as i32; 3] }
    }

    /// The samples of each axis are the same.
    fn samples(grid: &Grid) -> Vec<i128> {
        let along = |axis: usize| (0..grid.sizes[axis]).map(|i| grid.sample(axis, i)).collect::<Vec<_>>();
        assert!(along(1) == along(0) && along(2) == along(0));
        along(0)
    }

    #[test]
    fn samples_are_in_the_middle() {
        assert_eq!(samples(&grid(3, 0, 65_536)), [32_768, 98_304, 163_840]);
        assert_eq!(samples(&grid(3, 0, 3)), [1, 4, 7]);
        assert_eq!(samples(&grid(3, 0, 1)), [0, 1, 2]);
        assert_eq!(samples(&grid(2, -M, M)), [-1_073_741_824, 1_073_741_823]);
    }

    #[test]
    fn a_flat_z_is_taken_as_given() {
        let grid = grid(2, 5, 4);
        assert_eq!(grid.sample_at(true, [0, 1, 1]), [7, 11, 11]);
        assert_eq!(grid.sample_at(false, [0, 1, 0]), [7, 11, 5]);
        assert_eq!(grid.axes(false, [0, 0, 0], [1, 1, 0]), [Range::new(7, 11), Range::new(7, 11), Range::new(5, 5)]);
    }

    /// Line 11 tests the last of the samples, and still the origin.
    #[test]
    fn the_last_sample_is_tested_with_its_half() {
        let refused = |size, origin, step| grid(size, origin, step).check(true).is_err();
        assert_eq!([1, 2].map(|step| refused(1, M, step)), [false, true]);
        assert_eq!([2, 3].map(|size| refused(size, -M, M)), [false, true]);
        assert_eq!([M - 25, M - 24].map(|origin| refused(3, origin, 10)), [false, true]);
        // 2·step + floor(step/2) is at most 2·M up to this step
        assert_eq!([1_717_986_917, 1_717_986_918].map(|step| refused(3, -M, step)), [false, true]);
        // the first sample would be −M
        assert!(refused(1, -M - 1, 2));
    }

    #[test]
    fn a_flat_z_is_tested_as_given() {
        let flat = |z: i128, step: i32| {
            let grid = Grid { origins: [0, 0, z as i32], steps: [1, 1, step], ..grid(1, 0, 1) };
            grid.check(false).is_ok()
        };
        assert!(flat(M, i32::MAX) && flat(-M, 0) && flat(0, i32::MIN));
        assert!(!flat(-M - 1, 2));
    }
}
