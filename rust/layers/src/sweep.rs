//! What a part sweeps along a path.

use crate::drawing::{assert_inside, sizes};
use crate::lend::filled;
use crate::{Grid, Refusal, Tape, Work, netpbm, raw};

/// The most positions of a path.
pub const MAX_POSITIONS: usize = raw::POSITIONS;

/// What a part sweeps on a flat grid, moved along a recorded path: for each pixel the first position that covers it. A
/// position is a pair of offsets of x and y, in units of 1/65,536; z is not moved. It covers a pixel if the formula is
/// below 0 at the pixel's sample less the offsets.
///
/// ```
/// use layers::{Grid, ONE, Refusal, Sweep, Tape};
///
/// // the part x < 2, and then one to the right
/// let part = Tape::from_text("x - 2")?;
/// let sweep = Sweep::draw(&part, Grid::flat(4, 1), &[[0, 0], [ONE, 0]])?;
/// assert_eq!([0, 1, 2, 3].map(|x| sweep.first_at(x, 0)), [Some(0), Some(0), Some(1), None]);
/// assert_eq!(sweep.as_slice(), [1, 1, 2, 0]);
///
/// assert_eq!(Sweep::draw(&part, Grid::flat(4, 1), &[]), Err(Refusal::PathOutOfRange));
/// # Ok::<(), Box<dyn std::error::Error>>(())
/// ```
#[derive(Clone, Debug, PartialEq, Eq, Hash)]
pub struct Sweep {
    width: u32,
    height: u32,
    numbers: Vec<u16>,
}

impl Sweep {
    /// Draws by tiles. Refused are sizes and samples out of range, lines 10 and 11, and a path that is empty, has more
    /// than [`MAX_POSITIONS`] positions or moves a sample outside the values, line 25.
    pub fn draw(tape: &Tape, grid: Grid, path: &[[i32; 2]]) -> Result<Sweep, Refusal> {
        Sweep::draw_with(tape, grid, path, &mut Work::new())
    }

    /// Draws by tiles, in memory that is there already.
    pub fn draw_with(tape: &Tape, grid: Grid, path: &[[i32; 2]], work: &mut Work) -> Result<Sweep, Refusal> {
        let (width, height) = sizes(grid);
        let call =
            |picture: &mut [u16]| raw::tile_swept(tape.as_bytes(), grid, path.as_flattened(), picture, work.lend());
        let (numbers, _) = filled(width * height, call)?;
        Ok(Sweep { width: grid.width, height: grid.height, numbers })
    }

    /// The number of columns.
    pub fn width(&self) -> u32 {
        self.width
    }

    /// The number of rows.
    pub fn height(&self) -> u32 {
        self.height
    }

    /// The first position that covers the pixel, counted from 0.
    ///
    /// # Panics
    ///
    /// If the pixel lies outside the picture.
    pub fn first_at(&self, x: u32, y: u32) -> Option<usize> {
        assert_inside(x, y, self.width, self.height);
        usize::from(self.numbers[y as usize * self.width as usize + x as usize]).checked_sub(1)
    }

    /// The rows, from y index 0 on: for each pixel 1 + the number of the first position that covers it, or 0.
    pub fn rows(&self) -> impl ExactSizeIterator<Item = &[u16]> {
        self.numbers.chunks(self.width as usize)
    }

    /// All rows, one after the other.
    pub fn as_slice(&self) -> &[u16] {
        &self.numbers
    }

    /// The rows' own memory, for another owner.
    pub fn into_vec(self) -> Vec<u16> {
        self.numbers
    }

    /// The picture as a Netpbm grey file, with the numbers in 16 bits.
    pub fn to_netpbm(&self) -> Vec<u8> {
        netpbm::heights(self.width, self.height, &self.numbers)
    }
}

#[cfg(test)]
mod tests {
    use super::*;
    use crate::{Bitmap, ONE, fixed};

    fn disc() -> Tape {
        Tape::from_text("root(sqr(x - 60) + sqr(y - 40)) - 30").unwrap()
    }

    #[test]
    fn numbers_are_in_row_order() {
        let part = Tape::from_text("max(x - 2, y - 1)").unwrap();
        let sweep = Sweep::draw(&part, Grid::flat(3, 2), &[[0, 0], [ONE, ONE]]).unwrap();
        assert_eq!((sweep.width(), sweep.height()), (3, 2));
        assert_eq!(sweep.rows().collect::<Vec<_>>(), [[1, 1, 2], [2, 2, 2]]);
        assert_eq!([sweep.first_at(1, 0), sweep.first_at(2, 1)], [Some(0), Some(1)]);
        let file = b"P5\n3 2\n65535\n\x00\x01\x00\x01\x00\x02\x00\x02\x00\x02\x00\x02";
        assert_eq!(sweep.to_netpbm(), file);
        assert_eq!(sweep.as_slice(), [1, 1, 2, 2, 2, 2]);
        assert_eq!(sweep.clone().into_vec(), sweep.as_slice());
    }

    /// A part that is moved is one drawn on a grid that is moved the other way.
    #[test]
    fn the_first_of_the_bitmaps_of_all_positions() {
        let (grid, mut work) = (Grid::flat(100, 70), Work::new());
        let path = [[20, -10], [0, 0], [-40, 1], [0, 0], [7, 60]].map(|offsets| offsets.map(|ones| ones * ONE));
        let sweep = Sweep::draw_with(&disc(), grid, &path, &mut work).unwrap();
        let bitmaps = path.map(|[x, y]| Bitmap::draw(&disc(), grid.origin(-x, -y, 0)).unwrap().picture);
        for (x, y) in (0..70).flat_map(|y| (0..100).map(move |x| (x, y))) {
            let first = bitmaps.iter().position(|bitmap| bitmap.pixel(x, y));
            assert_eq!(sweep.first_at(x, y), first, "{x}, {y}");
        }
    }

    #[test]
    fn paths_out_of_range_are_refused() {
        let draw = |grid: Grid, path: &[[i32; 2]]| Sweep::draw(&disc(), grid, path).map(|sweep| sweep.first_at(0, 0));
        let grid = Grid::flat(3, 2);
        assert_eq!(draw(grid, &[[0, 0]; MAX_POSITIONS]), Ok(None));
        for path in [&[][..], &[[0, 0]; MAX_POSITIONS + 1], &[[0, 0], [i32::MIN, 0]], &[[0, i32::MIN]]] {
            assert_eq!(draw(grid, path), Err(Refusal::PathOutOfRange), "{} positions", path.len());
        }
        assert_eq!(draw(grid.origin(fixed(-3.0), 0, 0), &[[i32::MIN, 0]]), Ok(None));
        assert_eq!(draw(Grid::flat(513, 2), &[]), Err(Refusal::SizeOutOfRange));
        assert_eq!(draw(grid.step(1, 0, 1), &[]), Err(Refusal::SampleOutOfRange));
    }

    #[test]
    #[should_panic(expected = "pixel 3, 0 of a picture of 3 by 2")]
    fn no_pixel_outside() {
        Sweep::draw(&disc(), Grid::flat(3, 2), &[[0, 0]]).unwrap().first_at(3, 0);
    }
}
