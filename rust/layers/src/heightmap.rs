//! Heights of solids.

use crate::drawing::{assert_inside, sizes};
use crate::lend::filled;
use crate::raw::{self, Answer};
use crate::{Drawn, Grid, Refusal, Slopes, Tape, Work, netpbm};

/// A part seen from above: for each pixel 1 + the greatest z index with material, or 0 where there is none.
///
/// ```
/// use layers::{fixed, Clause, Grid, Heightmap, Tape};
///
/// // z − 2 has material at the z indices 0 and 1, of which the samples are 0.5 and 1.5
/// let tape = Tape::from_clauses(2, &[Clause::z(0), Clause::constant(1, fixed(2.0)), Clause::subtract(0, 0, 1)])?;
/// let drawn = Heightmap::draw(&tape, Grid::solid(1, 1, 4))?;
/// assert_eq!(drawn.picture.height_at(0, 0), 2);
/// assert_eq!(drawn.count, 18);
/// assert_eq!(drawn.picture.into_vec(), [2]);
/// # Ok::<(), layers::Refusal>(())
/// ```
#[derive(Clone, Debug, PartialEq, Eq, Hash)]
pub struct Heightmap {
    width: u32,
    height: u32,
    heights: Vec<u16>,
}

impl Heightmap {
    /// Draws by tiles: the same picture as [`draw_full`](Heightmap::draw_full), with less work. Refused are sizes and
    /// samples out of range, lines 10 and 11.
    pub fn draw(tape: &Tape, grid: Grid) -> Result<Drawn<Heightmap>, Refusal> {
        Heightmap::draw_with(tape, grid, &mut Work::new())
    }

    /// Draws by tiles, in memory that is there already.
    pub fn draw_with(tape: &Tape, grid: Grid, work: &mut Work) -> Result<Drawn<Heightmap>, Refusal> {
        Heightmap::drawn(grid, |picture| raw::tile_solid(tape.as_bytes(), grid, picture, work.lend()))
    }

    /// Draws by running the whole tape at every sample.
    pub fn draw_full(tape: &Tape, grid: Grid) -> Result<Drawn<Heightmap>, Refusal> {
        Heightmap::drawn(grid, |picture| raw::draw_solid(tape.as_bytes(), grid, picture))
    }

    /// Draws by tiles, and with the heights the slopes of the formula where the part is seen: what a viewer shades by.
    /// Heights and count are those of [`draw`](Heightmap::draw).
    ///
    /// ```
    /// use layers::{fixed, Clause, Grid, Heightmap, Tape, ONE};
    ///
    /// // the ramp z − x/2: a step to the right rises by a half
    /// let ramp = [Clause::x(0), Clause::constant(1, fixed(0.5)), Clause::multiply(0, 0, 1), Clause::z(1),
    ///     Clause::subtract(0, 1, 0)];
    /// let tape = Tape::from_clauses(2, &ramp)?;
    /// let (drawn, slopes) = Heightmap::draw_with_slopes(&tape, Grid::solid(4, 1, 4))?;
    /// assert_eq!(drawn.picture.as_slice(), [0, 1, 1, 2]);
    /// assert_eq!(slopes.slopes_at(0, 0), [0, 0, 0]);
    /// assert_eq!(slopes.slopes_at(1, 0), [-ONE / 2, 0, ONE]);
    /// # Ok::<(), layers::Refusal>(())
    /// ```
    pub fn draw_with_slopes(tape: &Tape, grid: Grid) -> Result<(Drawn<Heightmap>, Slopes), Refusal> {
        Heightmap::draw_slopes_with(tape, grid, &mut Work::new())
    }

    /// Draws heights and slopes as [`draw_with_slopes`](Heightmap::draw_with_slopes), in memory that is there already.
    pub fn draw_slopes_with(tape: &Tape, grid: Grid, work: &mut Work) -> Result<(Drawn<Heightmap>, Slopes), Refusal> {
        let (width, height) = sizes(grid);
        let mut slopes = vec![0; 3 * width * height];
        let drawn = Heightmap::drawn(grid, |picture| {
            raw::tile_slopes(tape.as_bytes(), grid, picture, &mut slopes, work.lend())
        })?;
        Ok((drawn, Slopes::new(grid.width, grid.height, slopes)))
    }

    /// Draws by tiles, the 64-tiles in an order of the caller's own: the same heights as [`draw`](Heightmap::draw), with
    /// a count that may differ, since a tile is passed over only if what hides it was drawn before.
    ///
    /// The tiles are numbered from 0, those with the greatest z first, in each layer of tiles row by row. An order that
    /// does not have each number just one time is [`Refusal::PictureOrOrder`]; [`Grid::tiles_from_middle`] makes one
    /// that begins in the middle of the picture.
    ///
    /// ```
    /// use layers::{Grid, Heightmap, Refusal, Tape};
    ///
    /// // a plate of height 100, in two tiles one above the other
    /// let (tape, grid) = (Tape::from_text("z - 100")?, Grid::solid(1, 1, 128));
    /// let down = Heightmap::draw_in_order(&tape, grid, &[0, 1])?;
    /// let up = Heightmap::draw_in_order(&tape, grid, &[1, 0])?;
    /// assert_eq!((down.picture.height_at(0, 0), down.count), (100, 21));
    /// assert_eq!((up.picture.height_at(0, 0), up.count), (100, 24));
    ///
    /// assert_eq!(Heightmap::draw_in_order(&tape, grid, &[1, 1]), Err(Refusal::PictureOrOrder));
    /// # Ok::<(), Box<dyn std::error::Error>>(())
    /// ```
    pub fn draw_in_order(tape: &Tape, grid: Grid, order: &[u16]) -> Result<Drawn<Heightmap>, Refusal> {
        Heightmap::draw_in_order_with(tape, grid, order, &mut Work::new())
    }

    /// Draws in an order as [`draw_in_order`](Heightmap::draw_in_order), in memory that is there already.
    pub fn draw_in_order_with(
        tape: &Tape,
        grid: Grid,
        order: &[u16],
        work: &mut Work,
    ) -> Result<Drawn<Heightmap>, Refusal> {
        Heightmap::drawn(grid, |picture| raw::tile_solid_in_order(tape.as_bytes(), grid, order, picture, work.lend()))
    }

    fn drawn(grid: Grid, call: impl FnOnce(&mut [u16]) -> Answer) -> Result<Drawn<Heightmap>, Refusal> {
        let (width, height) = sizes(grid);
        let (heights, count) = filled(width * height, call)?;
        Ok(Drawn { picture: Heightmap { width: grid.width, height: grid.height, heights }, count })
    }

    /// The number of columns.
    pub fn width(&self) -> u32 {
        self.width
    }

    /// The number of rows.
    pub fn height(&self) -> u32 {
        self.height
    }

    /// The rows, from y index 0 on: a height for each pixel.
    pub fn rows(&self) -> impl ExactSizeIterator<Item = &[u16]> {
        self.heights.chunks(self.width as usize)
    }

    /// All rows, one after the other.
    pub fn as_slice(&self) -> &[u16] {
        &self.heights
    }

    /// The rows' own memory, for another owner.
    pub fn into_vec(self) -> Vec<u16> {
        self.heights
    }

    /// The height of the part at the pixel.
    ///
    /// # Panics
    ///
    /// If the pixel lies outside the picture.
    pub fn height_at(&self, x: u32, y: u32) -> u16 {
        assert_inside(x, y, self.width, self.height);
        self.heights[y as usize * self.width as usize + x as usize]
    }

    /// The picture as a Netpbm grey file, with the heights in 16 bits.
    pub fn to_netpbm(&self) -> Vec<u8> {
        netpbm::heights(self.width, self.height, &self.heights)
    }
}

#[cfg(test)]
mod tests {
    use super::*;
    use crate::Clause;

    /// Material where z is at most x.
    fn stairs() -> Tape {
        let clauses =
            [Clause::z(0), Clause::x(1), Clause::subtract(0, 0, 1), Clause::constant(1, 1), Clause::subtract(0, 0, 1)];
        Tape::from_clauses(2, &clauses).unwrap()
    }

    #[test]
    fn heights_are_in_row_order() {
        let map = Heightmap::draw(&stairs(), Grid::solid(4, 2, 3)).unwrap().picture;
        assert_eq!((map.width(), map.height()), (4, 2));
        assert_eq!(map.rows().collect::<Vec<_>>(), [[1, 2, 3, 3]; 2]);
        assert_eq!([0, 1, 2, 3].map(|x| map.height_at(x, 1)), [1, 2, 3, 3]);
        let file = b"P5\n4 2\n65535\n\x00\x01\x00\x02\x00\x03\x00\x03\x00\x01\x00\x02\x00\x03\x00\x03";
        assert_eq!(map.to_netpbm(), file);
        assert_eq!(map.as_slice(), [1, 2, 3, 3, 1, 2, 3, 3]);
        assert_eq!(map.clone().into_vec(), map.as_slice());
    }

    #[test]
    fn tiles_draw_the_full_picture_with_less_work() {
        let mut work = Work::new();
        for width in [10, 70, 100] {
            let grid = Grid::solid(width, 20, 90);
            let full = Heightmap::draw_full(&stairs(), grid).unwrap();
            let tiles = Heightmap::draw_with(&stairs(), grid, &mut work).unwrap();
            assert_eq!(full.count, 5 * u64::from(width) * 20 * 90);
            assert_eq!(tiles.picture, full.picture);
            assert!(tiles.count < full.count);
        }
    }

    /// z − x − 1: as many slopes as axes are read.
    #[test]
    fn slopes_come_with_the_same_heights_and_count() {
        let mut work = Work::new();
        for width in [10, 70, 100] {
            let grid = Grid::solid(width, 20, 90).origin(crate::fixed(-5.0), 0, 0);
            let (drawn, slopes) = Heightmap::draw_with_slopes(&stairs(), grid).unwrap();
            assert_eq!(drawn, Heightmap::draw(&stairs(), grid).unwrap());
            assert_eq!(Heightmap::draw_slopes_with(&stairs(), grid, &mut work), Ok((drawn.clone(), slopes.clone())));
            let expected = drawn.picture.as_slice().iter().map(|&h| if h > 0 { [-65_536, 0, 65_536] } else { [0; 3] });
            assert_eq!(slopes.as_slice(), expected.collect::<Vec<_>>().concat());
            assert_eq!(slopes.slopes_at(0, 0), [0; 3]);
            assert_eq!(slopes.slopes_at(width - 1, 19), [-65_536, 0, 65_536]);
        }
    }

    #[test]
    fn every_order_draws_the_same_heights() {
        let mut work = Work::new();
        for grid in [Grid::solid(70, 20, 90), Grid::solid(130, 70, 129).origin(0, 0, crate::fixed(30.0))] {
            let plain = Heightmap::draw(&stairs(), grid).unwrap();
            let mut order: Vec<u16> = (0..grid.tile_count() as u16).collect();
            assert_eq!(Heightmap::draw_in_order(&stairs(), grid, &order).unwrap(), plain);
            order.reverse();
            let backward = Heightmap::draw_in_order_with(&stairs(), grid, &order, &mut work).unwrap();
            assert_eq!(backward.picture, plain.picture);
            assert!(backward.count > plain.count);
            // each column of tiles from the top, as in the walk itself
            assert_eq!(Heightmap::draw_in_order(&stairs(), grid, &grid.tiles_from_middle()).unwrap(), plain);
            for wrong in [&order[1..], &[&order[..], &[0]].concat(), &[&order[1..], &[order[1]]].concat(), &[]] {
                let refused = Heightmap::draw_in_order(&stairs(), grid, wrong);
                assert_eq!(refused, Err(Refusal::PictureOrOrder), "{wrong:?}");
            }
        }
    }

    #[test]
    fn sizes_pass_up_to_the_limit() {
        let map = Heightmap::draw(&stairs(), Grid::solid(1, 1, 512).origin(i32::MAX, 0, 0).step(1, 1, 1)).unwrap();
        assert_eq!(map.picture.height_at(0, 0), 512);
        for (width, depth) in [(1, 0), (1, 513), (513, 1), (u32::MAX, 1), (1, u32::MAX)] {
            let grid = Grid::solid(width, width, depth);
            assert_eq!(Heightmap::draw(&stairs(), grid), Err(Refusal::SizeOutOfRange), "{width} deep {depth}");
            assert_eq!(Heightmap::draw_full(&stairs(), grid), Err(Refusal::SizeOutOfRange), "{width} deep {depth}");
            let sloped = Heightmap::draw_with_slopes(&stairs(), grid);
            assert_eq!(sloped, Err(Refusal::SizeOutOfRange), "{width} deep {depth}");
            let ordered = Heightmap::draw_in_order(&stairs(), grid, &grid.tiles_from_middle());
            assert_eq!(ordered, Err(Refusal::SizeOutOfRange), "{width} deep {depth}");
        }
    }

    #[test]
    #[should_panic(expected = "pixel 0, 2 of a picture of 4 by 2")]
    fn no_pixel_outside() {
        Heightmap::draw(&stairs(), Grid::solid(4, 2, 3)).unwrap().picture.height_at(0, 2);
    }
}
