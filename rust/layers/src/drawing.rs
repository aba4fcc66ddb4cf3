//! What the drawings of both kinds of picture share.

use crate::raw::WORK;
use crate::{Grid, MAX_SIZE};
use std::fmt;

/// A picture and what its drawing cost.
#[derive(Clone, Debug, PartialEq, Eq, Hash)]
pub struct Drawn<T> {
    /// The picture.
    pub picture: T,
    /// The clauses that were run, over ranges or on values: the measure of work that the core proves.
    pub count: u64,
}

/// The memory that a drawing by tiles works in, made once for many pictures. While a picture is drawn it holds what the
/// regions chose and their short tapes, as two bits a clause beside the tape as given; after it, nothing.
///
/// ```
/// use layers::{fixed, Bitmap, Clause, Grid, Tape, Work, ONE};
///
/// // a cone: the distance from the z axis, less what is left of the height 8
/// let cone = Tape::from_clauses(3, &[
///     Clause::x(0),
///     Clause::square(0, 0),
///     Clause::y(1),
///     Clause::square(1, 1),
///     Clause::add(0, 0, 1),
///     Clause::root(0, 0),
///     Clause::constant(1, fixed(8.0)),
///     Clause::z(2),
///     Clause::subtract(1, 1, 2),
///     Clause::subtract(0, 0, 1),
/// ])?;
/// let mut work = Work::new();
/// let mut material = Vec::new();
/// for layer in 0..8 {
///     let grid = Grid::flat(16, 16).origin(fixed(-8.0), fixed(-8.0), layer * ONE);
///     let bitmap = Bitmap::draw_with(&cone, grid, &mut work)?.picture;
///     material.push((0..16).filter(|&x| bitmap.pixel(x, 8)).count());
/// }
/// assert_eq!(material, [16, 14, 12, 10, 8, 6, 4, 2]);
/// # Ok::<(), layers::Refusal>(())
/// ```
#[derive(Clone)]
pub struct Work {
    bytes: Box<[u8]>,
}

impl Work {
    /// Memory for any drawing.
    pub fn new() -> Work {
        Work { bytes: vec![0; WORK].into() }
    }

    pub(crate) fn lend(&mut self) -> &mut [u8] {
        &mut self.bytes
    }
}

impl Default for Work {
    fn default() -> Work {
        Work::new()
    }
}

impl fmt::Debug for Work {
    fn fmt(&self, f: &mut fmt::Formatter) -> fmt::Result {
        f.debug_struct("Work").finish_non_exhaustive()
    }
}

/// Width and height of the picture to make. A size above the limit is refused whatever the length of the picture, so no
/// more memory is made than the largest picture has.
pub fn sizes(grid: Grid) -> (usize, usize) {
    (grid.width.min(MAX_SIZE) as usize, grid.height.min(MAX_SIZE) as usize)
}

/// Stops a caller that asks for a pixel outside the picture.
#[track_caller]
pub fn assert_inside(x: u32, y: u32, width: u32, height: u32) {
    assert!(x < width && y < height, "pixel {x}, {y} of a picture of {width} by {height}");
}
