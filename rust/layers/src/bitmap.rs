//! Flat pictures.

use crate::drawing::{assert_inside, sizes};
use crate::lend::filled;
use crate::raw::{self, Answer};
use crate::{Drawn, Grid, Refusal, Tape, Work, netpbm};

/// One layer of a part: a bit for each sample of a flat grid, 1 for material. A sample is in the middle of its cell;
/// its z is the grid's own. The grid's depth and z step don't matter.
///
/// ```
/// use layers::{fixed, Bitmap, Clause, Grid, Tape};
///
/// let tape = Tape::from_clauses(2, &[Clause::x(0), Clause::y(1), Clause::multiply(0, 0, 1)])?;
/// let grid = Grid::flat(4, 2).origin(fixed(-2.0), fixed(-1.0), 0);
/// let bitmap = Bitmap::draw(&tape, grid)?.picture;
///
/// let row = |y| [0, 1, 2, 3].map(|x| bitmap.pixel(x, y));
/// assert_eq!(row(0), [false, false, true, true]);
/// assert_eq!(row(1), [true, true, false, false]);
/// assert_eq!(bitmap.as_bytes(), [0b0011_0000, 0b1100_0000]);
/// assert_eq!(bitmap, Bitmap::draw_full(&tape, grid)?.picture);
/// # Ok::<(), layers::Refusal>(())
/// ```
#[derive(Clone, Debug, PartialEq, Eq, Hash)]
pub struct Bitmap {
    width: u32,
    height: u32,
    bytes: Vec<u8>,
}

impl Bitmap {
    /// Draws by tiles: the same picture as [`draw_full`](Bitmap::draw_full), with less work. Refused are sizes and
    /// samples out of range, lines 10 and 11.
    pub fn draw(tape: &Tape, grid: Grid) -> Result<Drawn<Bitmap>, Refusal> {
        Bitmap::draw_with(tape, grid, &mut Work::new())
    }

    /// Draws by tiles, in memory that is there already.
    pub fn draw_with(tape: &Tape, grid: Grid, work: &mut Work) -> Result<Drawn<Bitmap>, Refusal> {
        Bitmap::drawn(grid, |picture| raw::tile_flat(tape.as_bytes(), grid, picture, work.lend()))
    }

    /// Draws by running the whole tape at every sample.
    pub fn draw_full(tape: &Tape, grid: Grid) -> Result<Drawn<Bitmap>, Refusal> {
        Bitmap::drawn(grid, |picture| raw::draw_flat(tape.as_bytes(), grid, picture))
    }

    fn drawn(grid: Grid, call: impl FnOnce(&mut [u8]) -> Answer) -> Result<Drawn<Bitmap>, Refusal> {
        let (width, height) = sizes(grid);
        let (bytes, count) = filled(row_bytes(width) * height, call)?;
        Ok(Drawn { picture: Bitmap { width: grid.width, height: grid.height, bytes }, count })
    }

    /// A picture without material, on a grid whose sizes were accepted.
    pub(crate) fn blank(grid: Grid) -> Bitmap {
        let (width, height) = sizes(grid);
        Bitmap { width: grid.width, height: grid.height, bytes: vec![0; row_bytes(width) * height] }
    }

    /// The rows' memory, for a call that draws in them again.
    pub(crate) fn lend(&mut self) -> &mut [u8] {
        &mut self.bytes
    }

    /// The number of columns.
    pub fn width(&self) -> u32 {
        self.width
    }

    /// The number of rows.
    pub fn height(&self) -> u32 {
        self.height
    }

    /// The rows, from y index 0 on: a bit for each pixel, the leftmost in the first byte's highest, spare bits 0.
    pub fn rows(&self) -> impl ExactSizeIterator<Item = &[u8]> {
        self.bytes.chunks(row_bytes(self.width as usize))
    }

    /// All rows, one after the other.
    pub fn as_bytes(&self) -> &[u8] {
        &self.bytes
    }

    /// The rows' own memory, for another owner.
    pub fn into_vec(self) -> Vec<u8> {
        self.bytes
    }

    /// Whether there is material at the pixel.
    ///
    /// # Panics
    ///
    /// If the pixel lies outside the picture.
    pub fn pixel(&self, x: u32, y: u32) -> bool {
        assert_inside(x, y, self.width, self.height);
        let byte = self.bytes[y as usize * row_bytes(self.width as usize) + x as usize / 8];
        byte & (0x80 >> (x % 8)) != 0
    }

    /// The picture as a Netpbm bitmap file.
    pub fn to_netpbm(&self) -> Vec<u8> {
        netpbm::bitmap(self.width, self.height, &self.bytes)
    }
}

fn row_bytes(width: usize) -> usize {
    width.div_ceil(8)
}

#[cfg(test)]
mod tests {
    use super::*;
    use crate::{Clause, fixed};

    fn band() -> Tape {
        let clauses =
            [Clause::x(0), Clause::absolute(0, 0), Clause::constant(1, fixed(4.5)), Clause::subtract(0, 0, 1)];
        Tape::from_clauses(2, &clauses).unwrap()
    }

    #[test]
    fn pixels_are_the_bits_of_their_row() {
        let bitmap = Bitmap::draw(&band(), Grid::flat(19, 3).origin(fixed(-9.5), 0, 0)).unwrap().picture;
        assert_eq!((bitmap.width(), bitmap.height()), (19, 3));
        assert_eq!(bitmap.rows().collect::<Vec<_>>(), [[0b0000_0111, 0b1111_1100, 0]; 3]);
        for y in 0..3 {
            let material: Vec<u32> = (0..19).filter(|&x| bitmap.pixel(x, y)).collect();
            assert_eq!(material, (5..14).collect::<Vec<u32>>());
        }
        let bytes = b"\x07\xFC\x00\x07\xFC\x00\x07\xFC\x00";
        assert_eq!(bitmap.as_bytes(), bytes);
        assert_eq!(bitmap.to_netpbm(), [b"P4\n19 3\n", &bytes[..]].concat());
        assert_eq!(bitmap.into_vec(), bytes);
    }

    #[test]
    fn tiles_draw_the_full_picture_with_less_work() {
        let mut work = Work::new();
        for z in 0..3 {
            let grid = Grid::flat(150, 70).origin(fixed(-75.0), 0, z);
            let full = Bitmap::draw_full(&band(), grid).unwrap();
            let tiles = Bitmap::draw_with(&band(), grid, &mut work).unwrap();
            assert_eq!(full.count, 4 * 150 * 70);
            assert_eq!(tiles.picture, full.picture);
            assert!(tiles.count < full.count);
        }
    }

    #[test]
    fn sizes_pass_up_to_the_limit() {
        assert_eq!(Bitmap::draw(&band(), Grid::flat(512, 512)).unwrap().picture.rows().len(), 512);
        for (width, height) in [(0, 1), (1, 0), (513, 1), (1, 513), (u32::MAX, u32::MAX)] {
            let grid = Grid::flat(width, height);
            assert_eq!(Bitmap::draw(&band(), grid), Err(Refusal::SizeOutOfRange), "{width} by {height}");
            assert_eq!(Bitmap::draw_full(&band(), grid), Err(Refusal::SizeOutOfRange), "{width} by {height}");
        }
    }

    #[test]
    fn samples_out_of_range_are_refused() {
        for grid in [
            Grid::flat(3, 2).step(0, 1, 1),
            Grid::flat(3, 2).origin(0, 0, i32::MIN),
            Grid::flat(3, 2).step(1, i32::MAX, 1).origin(0, 1, 0),
            Grid::flat(1, 1).step(2, 1, 1).origin(i32::MAX, 0, 0),
        ] {
            assert_eq!(Bitmap::draw(&band(), grid), Err(Refusal::SampleOutOfRange), "{grid:?}");
        }
    }

    /// A step of 1 has no half, and z is taken as given whatever its step.
    #[test]
    fn samples_at_the_ends_pass() {
        let grid = Grid::flat(1, 1).step(1, 1, i32::MAX).origin(i32::MAX, -i32::MAX, i32::MAX);
        assert!(!Bitmap::draw(&band(), grid).unwrap().picture.pixel(0, 0));
    }

    #[test]
    #[should_panic(expected = "pixel 3, 1 of a picture of 3 by 2")]
    fn no_pixel_outside() {
        Bitmap::draw(&band(), Grid::flat(3, 2)).unwrap().picture.pixel(3, 1);
    }
}
