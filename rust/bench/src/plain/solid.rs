//! The solid drawing by tiles.

use super::arith::Span;
use super::kept::words;
use super::lanes::{Block, CHUNKS, Lanes, Samples, run_chunks};
use super::run::{Slots, run_ranges};
use super::shorten::shorten;
use super::spans::{Spans, run_spans};
use super::{Level, SLOTS, axis, sample};
use layers::Grid;

/// Draws into the picture, whatever it held, and returns the walk's count.
pub fn tile_solid(tape: &[u8], grid: Grid, picture: &mut [u16]) -> u64 {
    picture.fill(0);
    let code = words(tape);
    let (ranges, values) = ([Spans::default(); SLOTS], [[[0; 8]; CHUNKS]; SLOTS]);
    let mut walk = Walk { grid, picture, range: Slots::new(), ranges, values, count: 0 };
    let all = Region { x: 0, xend: grid.width, y: 0, yend: grid.height, z: 0, zend: grid.depth };
    walk.visit_children(&code, all, 64, &mut [0; 3].map(|_| Level::new(&code)));
    walk.count
}

/// First index and past the last one on each axis.
#[derive(Clone, Copy)]
struct Region {
    x: u32,
    xend: u32,
    y: u32,
    yend: u32,
    z: u32,
    zend: u32,
}

/// The samples of one layer in the row y and the one behind it, four of each.
#[derive(Clone, Copy)]
struct Chunk {
    y: u32,
    z: u32,
}

struct Walk<'a> {
    grid: Grid,
    picture: &'a mut [u16],
    /// The slots of one box, and of eight.
    range: Slots,
    ranges: [Spans; SLOTS],
    values: [Block; SLOTS],
    count: u64,
}

impl Walk<'_> {
    /// Those children that are not hidden are run together, up to eight and of more than one layer, before the first of them
    /// is visited; tiles are run one by one. A child that is hidden stays so.
    fn visit_children(&mut self, code: &[u64], parent: Region, side: u32, levels: &mut [Level]) {
        let most = if side == 64 { 1 } else { 8 };
        let (mut open, mut many) = ([parent; 8], 0);
        for z in (parent.z..parent.zend).step_by(side as usize).rev() {
            for y in (parent.y..parent.yend).step_by(side as usize) {
                for x in (parent.x..parent.xend).step_by(side as usize) {
                    let (xend, yend) = (parent.xend.min(x + side), parent.yend.min(y + side));
                    let child = Region { x, xend, y, yend, z, zend: parent.zend.min(z + side) };
                    if !self.is_hidden(child) {
                        open[many] = child;
                        many += 1;
                    }
                    if many == most {
                        self.visit_open(code, &open, many, side, levels);
                        many = 0;
                    }
                }
            }
        }
        if many > 0 {
            self.visit_open(code, &open, many, side, levels);
        }
    }

    /// Runs the first `many` children, and visits those that are not hidden when their turn comes. The other lanes run on
    /// what stands there. One child alone takes less time without lanes.
    fn visit_open(&mut self, code: &[u64], children: &[Region; 8], many: usize, side: u32, levels: &mut [Level]) {
        let choices = &mut levels[0].choices;
        if many == 1 {
            let first = choices.iter_mut().map(|choice| &mut choice[0]);
            let range = run_ranges(code, self.bounds(children[0]), &mut self.range, first);
            return self.visit(code, children[0], side, range, 0, levels);
        }
        let ranges = run_spans(code, &self.bounds_of(children), &mut self.ranges, choices);
        for (lane, &child) in children[..many].iter().enumerate() {
            if !self.is_hidden(child) {
                self.visit(code, child, side, ranges.lane(lane), lane, levels);
            }
        }
    }

    /// Visits a region that was run in this lane.
    fn visit(&mut self, code: &[u64], region: Region, side: u32, range: Span, lane: usize, levels: &mut [Level]) {
        self.count += code.len() as u64;
        if range.high < 0 {
            self.fill(region);
        } else if range.low < 0 {
            let (level, below) = levels.split_first_mut().expect("a level for every side");
            let start = shorten(code, &level.choices, |choice| choice[lane], &mut level.kept, &mut level.short);
            let short = &level.short[start..];
            if below.is_empty() {
                self.visit_samples(short, region);
            } else {
                self.visit_children(short, region, side / 4, below);
            }
        }
    }

    fn bounds(&self, region: Region) -> [Span; 3] {
        let grid = &self.grid;
        [
            axis(grid.xorigin, grid.xstep, region.x, region.xend),
            axis(grid.yorigin, grid.ystep, region.y, region.yend),
            axis(grid.zorigin, grid.zstep, region.z, region.zend),
        ]
    }

    fn bounds_of(&self, lanes: &[Region; 8]) -> [Spans; 3] {
        let boxes = lanes.map(|region| self.bounds(region));
        std::array::from_fn(|axis| Spans::new(|lane| boxes[lane][axis]))
    }

    /// Runs those chunks that are not wholly hidden at the beginning, and then goes through them from the top: a sample
    /// that is hidden when its turn comes was run in vain, and is not counted. Lanes past the grid's edge run on the last
    /// sample.
    fn visit_samples(&mut self, code: &[u64], region: Region) {
        let grid = self.grid;
        let (xlast, ylast) = (region.xend - 1, region.yend - 1);
        let (chunks, many) = self.open_chunks(region);
        let xs = std::array::from_fn(|k| sample(grid.xorigin, grid.xstep, xlast.min(region.x + k as u32 % 4)));
        let [mut ys, mut zs] = [[[0; 8]; CHUNKS]; 2];
        for (c, chunk) in chunks[..many].iter().enumerate() {
            let [first, second] = [0, 1].map(|row| sample(grid.yorigin, grid.ystep, ylast.min(chunk.y + row)));
            ys[c] = [first, first, first, first, second, second, second, second];
            zs[c] = [sample(grid.zorigin, grid.zstep, chunk.z); 8];
        }
        let result = run_chunks(code, &Samples { xs, ys, zs }, many, &mut self.values);
        for (c, &chunk) in chunks[..many].iter().enumerate() {
            let open = self.settle(region, chunk, self.values[result][c]);
            self.count += open * code.len() as u64;
        }
    }

    /// The chunks of a region of side 4 that are not wholly hidden, those with the greatest z first.
    fn open_chunks(&self, region: Region) -> ([Chunk; CHUNKS], usize) {
        let (mut chunks, mut many) = ([Chunk { y: 0, z: 0 }; CHUNKS], 0);
        for z in (region.z..region.zend).rev() {
            for y in (region.y..region.yend).step_by(2) {
                let rows = Region { y, yend: region.yend.min(y + 2), z, zend: z + 1, ..region };
                if !self.is_hidden(rows) {
                    chunks[many] = Chunk { y, z };
                    many += 1;
                }
            }
        }
        (chunks, many)
    }

    /// Raises the pixels that a chunk has material at and that are below it. Returns how many were below it. A chunk that
    /// no edge cuts is settled in lanes.
    fn settle(&mut self, region: Region, chunk: Chunk, values: Lanes) -> u64 {
        let width = self.grid.width as usize;
        let top = (chunk.z + 1) as u16;
        if region.xend - region.x == 4 && chunk.y + 2 <= region.yend {
            let from = chunk.y as usize * width + region.x as usize;
            return self.settle_whole([from, from + width], top, &values);
        }
        let mut open = 0;
        for (y, values) in (chunk.y..region.yend).zip(values.chunks(4)) {
            let row = &mut self.picture[y as usize * width..][..width];
            for (height, &value) in row[region.x as usize..region.xend as usize].iter_mut().zip(values) {
                open += (*height < top) as u64;
                *height = if value < 0 { top.max(*height) } else { *height };
            }
        }
        open
    }

    /// Four pixels from each of two places on.
    fn settle_whole(&mut self, rows: [usize; 2], top: u16, values: &Lanes) -> u64 {
        let mut heights = [0; 8];
        for (four, from) in heights.chunks_exact_mut(4).zip(rows) {
            four.copy_from_slice(&self.picture[from..from + 4]);
        }
        let open = raise(&mut heights, top, values);
        for (four, from) in heights.chunks_exact(4).zip(rows) {
            self.picture[from..from + 4].copy_from_slice(four);
        }
        open
    }

    fn is_hidden(&self, region: Region) -> bool {
        let width = self.grid.width as usize;
        let top = region.zend as u16;
        (region.y..region.yend).all(|y| {
            let row = &self.picture[y as usize * width..][..width];
            row[region.x as usize..region.xend as usize].iter().all(|&height| height >= top)
        })
    }

    fn fill(&mut self, region: Region) {
        let width = self.grid.width as usize;
        let top = region.zend as u16;
        for y in region.y..region.yend {
            let row = &mut self.picture[y as usize * width..][..width];
            for height in &mut row[region.x as usize..region.xend as usize] {
                *height = top.max(*height);
            }
        }
    }
}

/// Raises the heights that have material and are below `top`. Returns how many were below it. It stands apart: among the
/// reads and stores of the picture the compiler would take the lanes one by one.
#[inline(never)]
fn raise(heights: &mut [u16; 8], top: u16, values: &Lanes) -> u64 {
    let before = *heights;
    for (height, &value) in heights.iter_mut().zip(values) {
        *height = if value < 0 { top.max(*height) } else { *height };
    }
    before.iter().map(|&height| (height < top) as u16).sum::<u16>() as u64
}
