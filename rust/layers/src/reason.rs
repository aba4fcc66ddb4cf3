//! Why a pixel of a bitmap is as it is.

use crate::drawing::{assert_inside, sizes};
use crate::{Bitmap, Grid, ONE, Refusal, Tape, Work, netpbm, raw};
use std::fmt;
use std::ops::Range;

/// Why a pixel of a bitmap has material or has none: the region where the drawing by tiles stopped for it, and the
/// formula's range there. Printed, it is a sentence for a person.
///
/// ```
/// use layers::{Bitmap, Grid, Tape};
///
/// let disc = Tape::from_text("root(sqr(x - 60) + sqr(y - 40)) - 30")?;
/// let reason = Bitmap::reason(&disc, Grid::flat(100, 70), 31, 40)?;
/// assert_eq!((reason.side, reason.low, reason.high, reason.clauses), (1, -98_017, -98_017, 12));
/// assert_eq!(
///     reason.to_string(),
///     "pixel 31, 40 has material: the formula is -1.4956207275390625 at its sample, which is below 0 (side 1, 12 clauses)"
/// );
///
/// // the middle of the disc is decided with its neighbours
/// let reason = Bitmap::reason(&disc, Grid::flat(100, 70), 60, 40)?;
/// assert_eq!((reason.side, reason.columns.clone(), reason.rows.clone()), (8, 56..64, 40..48));
/// assert_eq!(
///     reason.to_string(),
///     "pixel 60, 40 has material: in columns 56 to 63 and rows 40 to 47 the formula lies from -29.5 to \
///      -21.723541259765625, which is below 0 (side 8, 12 clauses)"
/// );
/// # Ok::<(), Box<dyn std::error::Error>>(())
/// ```
#[derive(Clone, Debug, PartialEq, Eq, Hash)]
pub struct Reason {
    /// The pixel's column.
    pub x: u32,
    /// The pixel's row.
    pub y: u32,
    /// The side of the region: 64, 8 or 1.
    pub side: u32,
    /// The region's columns, as far as the picture has them.
    pub columns: Range<u32>,
    /// The region's rows.
    pub rows: Range<u32>,
    /// The low end of the formula's range over the region, or at side 1 its value, in units of 1/65,536.
    pub low: i32,
    /// The high end, or at side 1 the value.
    pub high: i32,
    /// How many clauses were run: those that are left of the tape for this region.
    pub clauses: u32,
}

impl Reason {
    /// Whether the pixel has material: if the high end is below 0. If not, the low end is 0 or more.
    pub fn material(&self) -> bool {
        self.high < 0
    }
}

impl fmt::Display for Reason {
    fn fmt(&self, f: &mut fmt::Formatter) -> fmt::Result {
        let Reason { x, y, side, columns, rows, clauses, .. } = self;
        let [low, high] = [self.low, self.high].map(|units| f64::from(units) / f64::from(ONE));
        let (has, which) = if self.material() { ("has", "is below 0") } else { ("has no", "is not below 0") };
        write!(f, "pixel {x}, {y} {has} material: ")?;
        if *side == 1 {
            write!(f, "the formula is {high} at its sample, ")?;
        } else {
            let last = |of: &Range<u32>| of.end - 1;
            write!(f, "in columns {} to {} and rows {} to {} ", columns.start, last(columns), rows.start, last(rows))?;
            write!(f, "the formula lies from {low} to {high}, ")?;
        }
        write!(f, "which {which} (side {side}, {clauses} {})", if *clauses == 1 { "clause" } else { "clauses" })
    }
}

impl Bitmap {
    /// Why the pixel in column x and row y of the bitmap of this tape and grid has material or has none. A pixel outside
    /// the grid is [`Refusal::PixelOutside`].
    pub fn reason(tape: &Tape, grid: Grid, x: u32, y: u32) -> Result<Reason, Refusal> {
        Bitmap::reason_with(tape, grid, x, y, &mut Work::new())
    }

    /// The reason for a pixel, found in memory that is there already.
    pub fn reason_with(tape: &Tape, grid: Grid, x: u32, y: u32, work: &mut Work) -> Result<Reason, Refusal> {
        let said = raw::explain_pixel(tape.as_bytes(), grid, x, y, work.lend());
        said.answer.into_result()?;
        let raw::Reason { side, low, high, clauses, .. } = said;
        let around = |at: u32, size: u32| at / side * side..(at / side * side + side).min(size);
        let (columns, rows) = (around(x, grid.width), around(y, grid.height));
        Ok(Reason { x, y, side, columns, rows, low, high, clauses })
    }

    /// Where the drawing by tiles of this tape and grid stops, for every pixel: where the work goes.
    pub fn stops(tape: &Tape, grid: Grid) -> Result<Stops, Refusal> {
        let mut work = Work::new();
        let mut reason = |x: u32, y: u32| Bitmap::reason_with(tape, grid, x, y, &mut work);
        // also whether the grid is one: a refused one has no pixels to ask for
        reason(0, 0)?;
        let (width, height) = sizes(grid);
        let mut stops = Stops { width: grid.width, height: grid.height, sides: vec![1; width * height] };
        for (x, y) in corners(0..grid.width, 0..grid.height, 64) {
            let tile = reason(x, y)?;
            if tile.side == 64 {
                stops.set(&tile);
                continue;
            }
            // a region of side 8 that does not decide leaves each of its pixels to itself
            let (right, below) = ((x + 64).min(grid.width), (y + 64).min(grid.height));
            for (x, y) in corners(x..right, y..below, 8) {
                stops.set(&reason(x, y)?);
            }
        }
        Ok(stops)
    }
}

/// The first pixels of the regions of a side.
fn corners(columns: Range<u32>, rows: Range<u32>, side: usize) -> impl Iterator<Item = (u32, u32)> {
    rows.step_by(side).flat_map(move |y| columns.clone().step_by(side).map(move |x| (x, y)))
}

/// Where the drawing of a bitmap by tiles stops: for each pixel the side of the region that decided it. 64 costs least, 1
/// most. Made by [`Bitmap::stops`].
///
/// ```
/// use layers::{Bitmap, Grid, Tape};
///
/// // x - 2 over two 64-tiles: the left one holds the edge, in its first column of regions of side 8
/// let edge = Tape::from_text("x - 2")?;
/// let stops = Bitmap::stops(&edge, Grid::flat(70, 1))?;
/// assert_eq!([0, 7, 8, 63, 64, 69].map(|x| stops.side_at(x, 0)), [1, 1, 8, 8, 64, 64]);
///
/// // as a file it has three greys, dark where the work is
/// assert_eq!(stops.to_netpbm()[..13], *b"P5\n70 1\n65535");
/// assert_eq!(stops.to_netpbm()[14..16], [0x2B, 0x2B]);
/// # Ok::<(), Box<dyn std::error::Error>>(())
/// ```
#[derive(Clone, Debug, PartialEq, Eq, Hash)]
pub struct Stops {
    width: u32,
    height: u32,
    sides: Vec<u8>,
}

impl Stops {
    /// The number of columns.
    pub fn width(&self) -> u32 {
        self.width
    }

    /// The number of rows.
    pub fn height(&self) -> u32 {
        self.height
    }

    /// The sides, row after row: 64, 8 or 1 for each pixel.
    pub fn as_slice(&self) -> &[u8] {
        &self.sides
    }

    /// The side of the region that decided the pixel.
    ///
    /// # Panics
    ///
    /// If the pixel lies outside the picture.
    pub fn side_at(&self, x: u32, y: u32) -> u8 {
        assert_inside(x, y, self.width, self.height);
        self.sides[y as usize * self.width as usize + x as usize]
    }

    /// The picture as a Netpbm grey file of 16 bits: light where a region of side 64 was decided at once, middle grey for
    /// side 8, dark for each pixel that was run by itself.
    pub fn to_netpbm(&self) -> Vec<u8> {
        let greys: Vec<u16> = self.sides.iter().map(|&side| grey(side)).collect();
        netpbm::heights(self.width, self.height, &greys)
    }

    /// Sets the side of a region's pixels.
    fn set(&mut self, reason: &Reason) {
        for y in reason.rows.clone() {
            let row = &mut self.sides[y as usize * self.width as usize..][..self.width as usize];
            row[reason.columns.start as usize..reason.columns.end as usize].fill(reason.side as u8);
        }
    }
}

fn grey(side: u8) -> u16 {
    match side {
        64 => 0xD5D5,
        8 => 0x8080,
        _ => 0x2B2B,
    }
}

#[cfg(test)]
mod tests {
    use super::*;
    use crate::{Clause, fixed};

    fn disc() -> Tape {
        Tape::from_text("root(sqr(x - 60) + sqr(y - 40)) - 30").unwrap()
    }

    /// Every pixel's sign, region and side, on tiles that the edges cut off.
    #[test]
    fn reasons_stops_and_bitmap_agree() {
        let (mut work, mut met) = (Work::new(), [0; 3]);
        for grid in [Grid::flat(100, 70), Grid::flat(9, 3).origin(fixed(28.0), fixed(38.0), 0), Grid::flat(65, 1)] {
            let bitmap = Bitmap::draw(&disc(), grid).unwrap().picture;
            let stops = Bitmap::stops(&disc(), grid).unwrap();
            assert_eq!((stops.width(), stops.height()), (grid.width, grid.height));
            let file = stops.to_netpbm();
            let greys = file[file.len() - 2 * stops.as_slice().len()..].chunks(2);
            for (at, grey) in greys.enumerate() {
                let (x, y) = (at as u32 % grid.width, at as u32 / grid.width);
                let reason = Bitmap::reason_with(&disc(), grid, x, y, &mut work).unwrap();
                assert_eq!((reason.material(), reason.low >= 0), (bitmap.pixel(x, y), !bitmap.pixel(x, y)));
                assert!(reason.columns.contains(&x) && reason.rows.contains(&y));
                assert!(reason.columns.end <= grid.width && reason.rows.end <= grid.height);
                assert_eq!(u32::from(stops.side_at(x, y)), reason.side);
                let level = [64, 8, 1].iter().position(|&side| side == reason.side).unwrap();
                assert_eq!(grey, [[0xD5; 2], [0x80; 2], [0x2B; 2]][level]);
                met[level] += 1;
            }
        }
        assert!(met.iter().all(|&pixels| pixels > 20), "{met:?}");
    }

    #[test]
    fn sentences() {
        let words = |clauses: &[Clause], x: u32| {
            let tape = Tape::from_clauses(2, clauses).unwrap();
            Bitmap::reason(&tape, Grid::flat(9, 2), x, 1).unwrap().to_string()
        };
        let zero = "pixel 8, 1 has no material: in columns 0 to 8 and rows 0 to 1 the formula lies from 0 to 0, \
                    which is not below 0 (side 64, 1 clause)";
        assert_eq!(words(&[Clause::constant(0, 0)], 8), zero);
        let edge = [Clause::x(0), Clause::constant(1, fixed(8.5)), Clause::subtract(0, 0, 1)];
        let outside = "pixel 8, 1 has no material: in columns 8 to 8 and rows 0 to 1 the formula lies from 0 to 0, \
                       which is not below 0 (side 8, 3 clauses)";
        assert_eq!(words(&edge, 8), outside);
        let inside = "pixel 2, 1 has material: in columns 0 to 7 and rows 0 to 1 the formula lies from -8 to -1, \
                      which is below 0 (side 8, 3 clauses)";
        assert_eq!(words(&edge, 2), inside);
    }

    #[test]
    fn pixels_outside_are_refused() {
        for (x, y) in [(100, 0), (0, 70), (u32::MAX, u32::MAX)] {
            assert_eq!(Bitmap::reason(&disc(), Grid::flat(100, 70), x, y), Err(Refusal::PixelOutside), "{x}, {y}");
        }
        for (grid, refusal) in [
            (Grid::flat(0, 70), Refusal::SizeOutOfRange),
            (Grid::flat(u32::MAX, u32::MAX), Refusal::SizeOutOfRange),
            (Grid::flat(100, 70).step(0, 1, 1), Refusal::SampleOutOfRange),
        ] {
            assert_eq!(Bitmap::reason(&disc(), grid, 100, 0), Err(refusal));
            assert_eq!(Bitmap::stops(&disc(), grid), Err(refusal));
        }
    }

    #[test]
    #[should_panic(expected = "pixel 0, 1 of a picture of 3 by 1")]
    fn no_side_outside() {
        Bitmap::stops(&disc(), Grid::flat(3, 1)).unwrap().side_at(0, 1);
    }
}
