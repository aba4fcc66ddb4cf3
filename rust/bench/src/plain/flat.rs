//! The flat drawing by tiles.

use super::arith::Span;
use super::kept::words;
use super::lanes::{Block, CHUNKS, Samples, run_chunks};
use super::shorten::shorten;
use super::spans::{Spans, run_spans};
use super::{Level, SLOTS, axis, sample};
use layers::Grid;

/// Draws into the picture, whatever it held, and returns the walk's count.
pub fn tile_flat(tape: &[u8], grid: Grid, picture: &mut [u8]) -> u64 {
    walked(tape, grid, picture, |_, _| ())
}

/// The lengths of the short tapes of all regions that are cut: of side 64, and of side 8.
pub fn short_lengths(tape: &[u8], grid: Grid) -> [Vec<usize>; 2] {
    let mut lengths = [Vec::new(), Vec::new()];
    let mut picture = vec![0; (grid.width as usize).div_ceil(8) * grid.height as usize];
    walked(tape, grid, &mut picture, |side, length| lengths[(side == 8) as usize].push(length));
    lengths
}

/// `cut` is told the side and the short tape's length of each region that is cut.
fn walked(tape: &[u8], grid: Grid, picture: &mut [u8], cut: impl FnMut(u32, usize)) -> u64 {
    picture.fill(0);
    let code = words(tape);
    let row = (grid.width as usize).div_ceil(8);
    let (ranges, values) = ([Spans::default(); SLOTS], [[[0; 8]; CHUNKS]; SLOTS]);
    let mut walk = Walk { grid, row, picture, cut, ranges, values, count: 0 };
    let all = Region { x: 0, xend: grid.width, y: 0, yend: grid.height };
    walk.visit_children(&code, all, 64, &mut [0; 2].map(|_| Level::new(&code)));
    walk.count
}

/// First index and past the last one on each axis.
#[derive(Clone, Copy)]
struct Region {
    x: u32,
    xend: u32,
    y: u32,
    yend: u32,
}

struct Walk<'a, F> {
    grid: Grid,
    /// The bytes of one row of the picture.
    row: usize,
    picture: &'a mut [u8],
    cut: F,
    ranges: [Spans; SLOTS],
    values: [Block; SLOTS],
    count: u64,
}

impl<F: FnMut(u32, usize)> Walk<'_, F> {
    /// The children of a row, at most eight, are run together before the first is visited. Lanes past the edge run on the
    /// last child, and are not visited.
    fn visit_children(&mut self, code: &[u64], parent: Region, side: u32, levels: &mut [Level]) {
        let last = (parent.xend - 1 - parent.x) / side;
        for y in (parent.y..parent.yend).step_by(side as usize) {
            let children = std::array::from_fn(|lane| {
                let x = parent.x + side * last.min(lane as u32);
                Region { x, xend: parent.xend.min(x + side), y, yend: parent.yend.min(y + side) }
            });
            let ranges = run_spans(code, &self.bounds(&children), &mut self.ranges, &mut levels[0].choices);
            for (lane, &child) in children[..=last as usize].iter().enumerate() {
                self.visit(code, child, side, ranges.lane(lane), lane, levels);
            }
        }
    }

    /// Visits a region that was run in this lane.
    fn visit(&mut self, code: &[u64], region: Region, side: u32, range: Span, lane: usize, levels: &mut [Level]) {
        self.count += code.len() as u64;
        if range.high < 0 {
            self.fill(region);
        } else if range.low < 0 {
            let (level, below) = levels.split_first_mut().expect("a level for every side");
            let start = shorten(code, &level.choices, |choice| choice[lane], &mut level.kept, &mut level.short);
            let short = &level.short[start..];
            (self.cut)(side, short.len());
            if below.is_empty() {
                self.visit_samples(short, region);
            } else {
                self.visit_children(short, region, 8, below);
            }
        }
    }

    fn bounds(&self, lanes: &[Region; 8]) -> [Spans; 3] {
        let grid = &self.grid;
        [
            Spans::new(|k| axis(grid.xorigin, grid.xstep, lanes[k].x, lanes[k].xend)),
            Spans::new(|k| axis(grid.yorigin, grid.ystep, lanes[k].y, lanes[k].yend)),
            Spans::new(|_| Span::new(grid.zorigin, grid.zorigin)),
        ]
    }

    /// A region of side 8 is one byte in each row of the picture, and each row a chunk. Lanes and chunks past the grid's
    /// edge run on the last sample.
    fn visit_samples(&mut self, code: &[u64], region: Region) {
        let grid = self.grid;
        let width = (region.xend - region.x) as usize;
        let (xlast, ylast) = (region.xend - 1, region.yend - 1);
        let xs = std::array::from_fn(|k| sample(grid.xorigin, grid.xstep, xlast.min(region.x + k as u32)));
        let ys = std::array::from_fn(|k| [sample(grid.yorigin, grid.ystep, ylast.min(region.y + k as u32)); 8]);
        let at = Samples { xs, ys, zs: [[grid.zorigin; 8]; CHUNKS] };
        let result = run_chunks(code, &at, CHUNKS, &mut self.values);
        for (y, row) in (region.y..region.yend).zip(&self.values[result]) {
            let byte = (0..width).fold(0, |byte, k| byte | ((row[k] < 0) as u8) << (7 - k));
            self.picture[y as usize * self.row + region.x as usize / 8] = byte;
        }
        self.count += (region.xend - region.x) as u64 * (region.yend - region.y) as u64 * code.len() as u64;
    }

    /// A region starts at a whole byte.
    fn fill(&mut self, region: Region) {
        let first = region.x as usize / 8;
        let whole = region.xend as usize / 8;
        let spare = region.xend % 8;
        for y in region.y..region.yend {
            let row = &mut self.picture[y as usize * self.row..][..self.row];
            row[first..whole].fill(0xFF);
            if spare > 0 {
                row[whole] |= !(0xFF >> spare);
            }
        }
    }
}
