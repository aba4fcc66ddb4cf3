//! Slopes of solids.

use crate::drawing::assert_inside;

/// How the formula of a part grows along x, y and z at the visible sample of each pixel, drawn with the heights by
/// [`Heightmap::draw_with_slopes`](crate::Heightmap::draw_with_slopes). They point out of the part: a surface faces the
/// way in which its formula grows. Where nothing is seen they are 0.
///
/// Slopes are in units of 1/65,536 for each 1 on the axis. They are the exact result of the core's arithmetic, which
/// rounds at each clause, so that those of a ball are a unit vector but for some units.
///
/// ```
/// use layers::{fixed, Clause, Grid, Heightmap, Tape};
///
/// // a ball of radius 2, drawn from above in four by two pixels
/// let ball = Tape::from_clauses(2, &[
///     Clause::x(0),
///     Clause::square(0, 0),
///     Clause::y(1),
///     Clause::square(1, 1),
///     Clause::add(0, 0, 1),
///     Clause::z(1),
///     Clause::square(1, 1),
///     Clause::add(0, 0, 1),
///     Clause::root(0, 0),
///     Clause::constant(1, fixed(2.0)),
///     Clause::subtract(0, 0, 1),
/// ])?;
/// let grid = Grid::solid(4, 2, 4).origin(fixed(-2.0), fixed(-1.0), fixed(-2.0));
/// let (drawn, slopes) = Heightmap::draw_with_slopes(&ball, grid)?;
/// assert_eq!(drawn.picture.as_slice(), [3, 4, 4, 3, 3, 4, 4, 3]);
/// assert_eq!(slopes.slopes_at(0, 0), [-59_280, -19_760, 19_759]);
/// assert_eq!(slopes.as_slice()[..3], [-59_280, -19_760, 19_759]);
///
/// let [x, y, z] = slopes.normal_at(0, 0).unwrap();
/// assert!((x * x + y * y + z * z - 1.0).abs() < 1e-12 && x < 0.0 && z > 0.0);
/// # Ok::<(), layers::Refusal>(())
/// ```
#[derive(Clone, Debug, PartialEq, Eq, Hash)]
pub struct Slopes {
    width: u32,
    height: u32,
    slopes: Vec<i32>,
}

impl Slopes {
    pub(crate) fn new(width: u32, height: u32, slopes: Vec<i32>) -> Slopes {
        Slopes { width, height, slopes }
    }

    /// The number of columns.
    pub fn width(&self) -> u32 {
        self.width
    }

    /// The number of rows.
    pub fn height(&self) -> u32 {
        self.height
    }

    /// Three numbers for each pixel, x, y and z of one and then of the next, in row order.
    pub fn as_slice(&self) -> &[i32] {
        &self.slopes
    }

    /// The same, for another owner.
    pub fn into_vec(self) -> Vec<i32> {
        self.slopes
    }

    /// The slopes at the pixel, along x, y and z.
    ///
    /// # Panics
    ///
    /// If the pixel lies outside the picture.
    pub fn slopes_at(&self, x: u32, y: u32) -> [i32; 3] {
        assert_inside(x, y, self.width, self.height);
        let first = 3 * (y as usize * self.width as usize + x as usize);
        [0, 1, 2].map(|axis| self.slopes[first + axis])
    }

    /// Which way the surface faces at the pixel: the slopes made as long as 1. None where all of them are 0, as where
    /// there is no material, or at the middle of a ball.
    ///
    /// # Panics
    ///
    /// If the pixel lies outside the picture.
    pub fn normal_at(&self, x: u32, y: u32) -> Option<[f64; 3]> {
        let slopes = self.slopes_at(x, y).map(f64::from);
        let length = slopes.iter().map(|slope| slope * slope).sum::<f64>().sqrt();
        (length > 0.0).then(|| slopes.map(|slope| slope / length))
    }
}

#[cfg(test)]
mod tests {
    use super::*;

    fn some() -> Slopes {
        Slopes::new(2, 2, vec![0, 0, 0, 3, 0, -4, i32::MAX, 0, 0, 0, -i32::MAX, i32::MAX])
    }

    #[test]
    fn slopes_are_in_row_order() {
        let slopes = some();
        assert_eq!((slopes.width(), slopes.height()), (2, 2));
        assert_eq!(slopes.slopes_at(1, 0), [3, 0, -4]);
        assert_eq!(slopes.slopes_at(0, 1), [i32::MAX, 0, 0]);
        assert_eq!(slopes.clone().into_vec(), slopes.as_slice());
    }

    #[test]
    fn normals_are_as_long_as_one() {
        let slopes = some();
        assert_eq!(slopes.normal_at(0, 0), None);
        assert_eq!(slopes.normal_at(1, 0), Some([0.6, 0.0, -0.8]));
        assert_eq!(slopes.normal_at(0, 1), Some([1.0, 0.0, 0.0]));
        let half = 0.5f64.sqrt();
        assert!((slopes.normal_at(1, 1).unwrap()[2] - half).abs() < 1e-12);
    }

    #[test]
    #[should_panic(expected = "pixel 2, 0 of a picture of 2 by 2")]
    fn no_pixel_outside() {
        some().slopes_at(2, 0);
    }
}
