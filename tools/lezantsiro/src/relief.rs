//! Heights: the part from above, each block drawn by the proved core, the highest block with material counted.

use crate::messages::Stop;
use crate::plate::{Block, Plate, Samples, pieces};
use layers::{Grid, Heightmap, Refusal, Slopes, Tape, Work};
use rayon::prelude::*;

/// Heights by rows from the least y on: 1 + the index of the highest layer with material, or 0.
#[derive(Clone, Debug, PartialEq, Eq)]
pub struct Relief {
    pub width: u32,
    pub height: u32,
    pub depth: u32,
    pub heights: Vec<u16>,
    /// Three a pixel where they were asked for, along the grid's axes.
    pub slopes: Vec<i32>,
    /// The clauses that were run.
    pub count: u64,
}

/// The heights of the plate over these layers, with slopes if asked for.
pub fn relief(tape: &Tape, plate: &Plate, z: &Samples, slopes: bool) -> Result<Relief, Stop> {
    let blocks: Vec<Block> = plate.bands().into_iter().flatten().collect();
    let columns: Result<Vec<Relief>, Refusal> =
        blocks.par_iter().map_init(Work::new, |work, block| column(tape, plate, z, block, slopes, work)).collect();
    let (width, height, depth) = (plate.width, plate.height, z.axis.count);
    let pixels = width as usize * height as usize;
    let slopes = vec![0; if slopes { 3 * pixels } else { 0 }];
    let mut whole = Relief { width, height, depth, heights: vec![0; pixels], slopes, count: 0 };
    for (block, column) in blocks.iter().zip(columns?) {
        whole.put(block, &column);
    }
    Ok(whole)
}

/// A block's column of layers, drawn from the highest piece down as long as a pixel has no material.
fn column(
    tape: &Tape,
    plate: &Plate,
    z: &Samples,
    block: &Block,
    slopes: bool,
    work: &mut Work,
) -> Result<Relief, Refusal> {
    let pixels = block.width as usize * block.height as usize;
    let (width, height, depth) = (block.width, block.height, z.axis.count);
    let sloped = vec![0; if slopes { 3 * pixels } else { 0 }];
    let mut found = Relief { width, height, depth, heights: vec![0; pixels], slopes: sloped, count: 0 };
    for (begin, layers) in pieces(depth).into_iter().rev() {
        if found.heights.iter().all(|height| *height > 0) {
            break;
        }
        let grid = placed(plate, z, block, begin, layers).ok_or(Refusal::SampleOutOfRange)?;
        let (drawn, piece) = match slopes {
            true => Heightmap::draw_slopes_with(tape, grid, work).map(|(drawn, slopes)| (drawn, Some(slopes)))?,
            false => (Heightmap::draw_with(tape, grid, work)?, None),
        };
        found.count += drawn.count;
        found.lay_under(begin as u16, &drawn.picture, piece.as_ref());
    }
    Ok(found)
}

/// Where the core draws the layers of a block from `begin` on.
fn placed(plate: &Plate, z: &Samples, block: &Block, begin: u32, layers: u32) -> Option<Grid> {
    let flat = plate.place(block, i32::try_from(z.axis.begin(begin)).ok()?)?;
    Some(Grid { depth: layers, zstep: z.axis.step, ..flat })
}

impl Relief {
    /// Takes the heights of lower layers, which begin at `begin`, where none is yet.
    fn lay_under(&mut self, begin: u16, picture: &Heightmap, slopes: Option<&Slopes>) {
        for (index, height) in picture.as_slice().iter().enumerate() {
            if self.heights[index] == 0 && *height > 0 {
                self.heights[index] = begin + height;
                if let Some(slopes) = slopes {
                    self.slopes[3 * index..3 * index + 3].copy_from_slice(&slopes.as_slice()[3 * index..3 * index + 3]);
                }
            }
        }
    }

    /// Puts a block's rows in their place.
    fn put(&mut self, block: &Block, part: &Relief) {
        self.count += part.count;
        for row in 0..block.height as usize {
            let to = (block.row as usize + row) * self.width as usize + block.column as usize;
            let (from, len) = (row * block.width as usize, block.width as usize);
            self.heights[to..to + len].copy_from_slice(&part.heights[from..from + len]);
            if !self.slopes.is_empty() {
                self.slopes[3 * to..3 * (to + len)].copy_from_slice(&part.slopes[3 * from..3 * (from + len)]);
            }
        }
    }

    /// The same with the rows the other way round, so that the first is that of the greatest y.
    pub fn flipped(&self) -> Relief {
        let stride = self.width as usize;
        let heights = self.heights.chunks(stride).rev().flatten().copied().collect();
        let mut slopes: Vec<i32> = self.slopes.chunks(3 * stride).rev().flatten().copied().collect();
        slopes.chunks_mut(3).for_each(|slope| slope[1] = -slope[1]);
        Relief { heights, slopes, ..*self }
    }

    /// The greatest height.
    pub fn highest(&self) -> u16 {
        self.heights.iter().max().copied().unwrap_or(0)
    }

    /// The heights as a Netpbm grey file of 16 bits, the high byte first.
    pub fn to_netpbm(&self) -> Vec<u8> {
        let head = format!("P5\n{} {}\n65535\n", self.width, self.height);
        head.into_bytes().into_iter().chain(self.heights.iter().flat_map(|height| height.to_be_bytes())).collect()
    }

    /// Greys to look at, lit by the slopes of the formula: a picture, no mask.
    pub fn shaded(&self, plate: &Plate, z: &Samples) -> Vec<u8> {
        let step = |samples: &Samples| samples.pitch.floor_units().clamp(1, i32::MAX.into()) as i32;
        let grid = preview::Grid {
            width: self.width as usize,
            height: self.height as usize,
            depth: self.depth as usize,
            xstep: step(&plate.x),
            ystep: step(&plate.y),
            zstep: step(z),
        };
        // the grid's axes are longer than mm by the divisors of the tape
        let scale = [plate.x, plate.y, *z].map(|samples| i64::from(samples.axis.divisor.unwrap_or(65_536)));
        let in_mm = |(index, slope): (usize, &i32)| {
            let slope = i64::from(*slope).saturating_mul(scale[index % 3]) / 65_536;
            slope.clamp(-i64::from(i32::MAX), i32::MAX.into()) as i32
        };
        let slopes: Vec<i32> = self.slopes.iter().enumerate().map(in_mm).collect();
        let heights = preview::Heights { width: grid.width, height: grid.height, values: self.heights.clone() };
        preview::shade::lit(&heights, &slopes, &grid)
    }
}

#[cfg(test)]
mod tests {
    use super::*;
    use crate::pitch::scaled_tape;
    use crate::plate::{Origin, samples};
    use crate::units::Fraction;

    const FORMULA: &str = "min(max(root(sqr(x) + sqr(y)) - 5, abs(z) - 1), max(root(sqr(x) + sqr(y)) - 1, abs(z) - 6))";

    fn length(text: &str) -> Fraction {
        text.parse().expect("a length")
    }

    /// Heights and slopes of a plate of several blocks on each axis, beside windows that one call holds.
    #[test]
    fn blocks_are_one_drawing() {
        let plate = Plate::new((530, 40), [length("0.02"); 2], Origin::Centre, 1, false).expect("a plate");
        let z = samples("z", length("0.012"), Some(length("-6")), 1000, false).expect("layers");
        let tape = Tape::from_text(FORMULA).expect("a tape");
        let drawn = scaled_tape(&tape, [plate.x, plate.y, z].map(|s| s.axis.divisor)).expect("room");
        let found = relief(&drawn, &plate, &z, true).expect("heights");
        assert_eq!(found.heights, relief(&drawn, &plate, &z, false).expect("heights").heights);
        assert_eq!(found.heights.iter().max(), Some(&1000));
        // the ring's top is at z = 1, layer 583.3; the one window spans the seam of the columns
        let block = Block { column: 500, row: 0, width: 30, height: 40 };
        for (begin, layers) in [(488, 512), (76, 512)] {
            let grid = placed(&plate, &z, &block, begin, layers).expect("a grid");
            let (one, slopes) = Heightmap::draw_with_slopes(&drawn, grid).expect("drawn");
            let (mut compared, mut row) = (0, 0);
            for heights in one.picture.rows() {
                for (column, height) in heights.iter().enumerate() {
                    let at = row * 530 + 500 + column;
                    if *height > 0 && u32::from(*height) < layers {
                        assert_eq!(u32::from(found.heights[at]), begin + u32::from(*height));
                        assert_eq!(found.slopes[3 * at..3 * at + 3], slopes.slopes_at(column as u32, row as u32));
                        compared += 1;
                    }
                }
                row += 1;
            }
            assert!(compared > 0, "{begin}");
        }
    }

    #[test]
    fn rows_turn_round_with_their_slopes() {
        let relief =
            Relief { width: 1, height: 2, depth: 9, heights: vec![3, 4], slopes: vec![1, 2, 3, 4, 5, 6], count: 7 };
        let flipped = relief.flipped();
        assert_eq!((&flipped.heights[..], &flipped.slopes[..]), (&[4, 3][..], &[4, -5, 6, 1, -2, 3][..]));
        assert_eq!(relief.to_netpbm(), b"P5\n1 2\n65535\n\x00\x03\x00\x04");
    }
}
