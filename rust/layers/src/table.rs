//! The verdicts on a flat picture's tiles, shared by those who draw it.

use crate::raw::{self, Rectangle, TABLE};
use crate::{Bitmap, Grid, Refusal, Tape, Work};
use std::fmt;

impl Rectangle {
    /// One tile.
    pub const fn tile(column: u32, row: u32) -> Rectangle {
        Rectangle { column, row, columns: 1, rows: 1 }
    }

    /// All tiles of a flat grid.
    pub const fn whole(grid: Grid) -> Rectangle {
        Rectangle { column: 0, row: 0, columns: grid.width.div_ceil(64), rows: grid.height.div_ceil(64) }
    }

    /// Its tiles, row by row, each as a rectangle of its own.
    pub fn tiles(self) -> impl Iterator<Item = Rectangle> {
        let (columns, rows) = (span(self.column, self.columns), span(self.row, self.rows));
        rows.flat_map(move |row| columns.clone().map(move |column| Rectangle::tile(column, row)))
    }
}

/// So many numbers from a first one on; those that 32 bits don't hold are left out, as no grid has such tiles.
fn span(first: u32, many: u32) -> std::ops::Range<u32> {
    first..first.saturating_add(many)
}

/// What a table tells of a tile.
#[derive(Clone, Copy, Debug, PartialEq, Eq, Hash)]
pub enum Verdict {
    /// Nobody has drawn the tile yet.
    Unknown,
    /// Material everywhere in it.
    Full,
    /// No material in it.
    Empty,
    /// Neither is certain: the table keeps the tape that was shortened for the tile.
    Cut,
}

/// A part and a flat grid, with what is known of the grid's 64-tiles. Those who draw rectangles of the one picture by
/// turns, each in a picture of its own, share a table: whoever meets a tile first finds out whether it is full or empty
/// or which short tape it has, and the others need not. The pictures don't show who was first; the counts do.
///
/// ```
/// use layers::{Bitmap, Grid, Rectangle, Refusal, Tape, Verdict, VerdictTable};
///
/// let disc = Tape::from_text("root(sqr(x - 60) + sqr(y - 40)) - 30")?;
/// let grid = Grid::flat(100, 70);
/// let mut table = VerdictTable::new(&disc, grid)?;
/// let [mut layer, mut preview] = [table.blank(), table.blank()];
///
/// // the preview draws the first tile, then the layer writer all four
/// assert_eq!(table.draw(Rectangle::tile(0, 0), &mut preview)?, 10_764);
/// assert_eq!(table.verdict(0, 0), Some(Verdict::Cut));
/// let drawn = Bitmap::draw(&disc, grid)?;
/// assert_eq!(table.draw(Rectangle::whole(grid), &mut layer)?, drawn.count - 12); // 12 clauses, as one tile was known
/// assert_eq!(layer, drawn.picture);
/// assert!(preview.pixel(60, 40) && !preview.pixel(80, 40)); // its other tiles are as they were
///
/// assert_eq!(table.draw(Rectangle::tile(2, 0), &mut layer), Err(Refusal::SizeOutOfRange));
/// # Ok::<(), Box<dyn std::error::Error>>(())
/// ```
#[derive(Clone)]
pub struct VerdictTable {
    tape: Tape,
    grid: Grid,
    bytes: Box<[u8]>,
    work: Work,
}

impl VerdictTable {
    /// A table in which every tile is unknown. Refused are sizes and samples out of range, lines 10 and 11.
    pub fn new(tape: &Tape, grid: Grid) -> Result<VerdictTable, Refusal> {
        let mut bytes = vec![0; TABLE].into_boxed_slice();
        raw::table_begin(tape.as_bytes(), grid, &mut bytes).into_result()?;
        Ok(VerdictTable { tape: tape.clone(), grid, bytes, work: Work::new() })
    }

    /// Draws these tiles in a picture of the table's grid, whose other tiles stay as they are, and returns the clauses
    /// that were run. A rectangle that is empty or leaves the grid is [`Refusal::SizeOutOfRange`], a picture of other
    /// sizes [`Refusal::PictureOrOrder`].
    pub fn draw(&mut self, rectangle: Rectangle, picture: &mut Bitmap) -> Result<u64, Refusal> {
        let VerdictTable { tape, grid, bytes, work } = self;
        // pictures of other sizes can have as many bytes; no picture has none
        let same_sizes = (picture.width(), picture.height()) == (grid.width, grid.height);
        let lent = if same_sizes { picture.lend() } else { &mut [] };
        raw::table_draw(tape.as_bytes(), *grid, rectangle, bytes, lent, work.lend()).into_result()
    }

    /// A picture of the table's grid without material, to draw in.
    pub fn blank(&self) -> Bitmap {
        Bitmap::blank(self.grid)
    }

    /// What is known of the tile in this column and row of tiles; `None` where the grid has no such tile.
    pub fn verdict(&self, column: u32, row: u32) -> Option<Verdict> {
        let Rectangle { columns, rows, .. } = Rectangle::whole(self.grid);
        let number = (column < columns && row < rows).then(|| row * columns + column)?;
        match self.bytes[HEAD + ENTRY * number as usize] {
            0 => Some(Verdict::Unknown),
            1 => Some(Verdict::Full),
            2 => Some(Verdict::Empty),
            _ => Some(Verdict::Cut),
        }
    }

    /// The part.
    pub fn tape(&self) -> &Tape {
        &self.tape
    }

    /// The grid of the picture.
    pub fn grid(&self) -> Grid {
        self.grid
    }

    /// The table as the core has it.
    pub fn as_bytes(&self) -> &[u8] {
        &self.bytes
    }
}

/// The bytes before the first entry: the tape with zeros behind it, and the grid's record.
const HEAD: usize = 65_568;

/// The bytes of an entry: the verdict, and two bits for each clause that a tape can have.
const ENTRY: usize = (TABLE - HEAD) / 64;

impl fmt::Debug for VerdictTable {
    fn fmt(&self, f: &mut fmt::Formatter) -> fmt::Result {
        let tiles = Rectangle::whole(self.grid).tiles().filter_map(|tile| self.verdict(tile.column, tile.row));
        let (grid, verdicts) = (&self.grid, tiles.collect::<Vec<_>>());
        f.debug_struct("VerdictTable").field("grid", grid).field("verdicts", &verdicts).finish_non_exhaustive()
    }
}

#[cfg(test)]
mod tests {
    use super::*;

    fn disc() -> Tape {
        Tape::from_text("root(sqr(x - 60) + sqr(y - 40)) - 30").unwrap()
    }

    const GRID: Grid = Grid::flat(200, 150);

    /// Two users by turns, one tile by tile, the other row by row from the last: both pictures are the bitmap's, and the
    /// region of side 64 is counted one time for each tile, by whoever met it first.
    #[test]
    fn turns() {
        let tape = Tape::from_text("min(x - 70, root(sqr(x - 60) + sqr(y - 40)) - 30)").unwrap();
        let all = Bitmap::draw(&tape, GRID).unwrap();
        let mut table = VerdictTable::new(&tape, GRID).unwrap();
        let [mut ours, mut theirs] = [table.blank(), table.blank()];
        let mut count = 0;
        for tile in Rectangle::whole(GRID).tiles() {
            count += table.draw(tile, &mut ours).unwrap();
            if tile.column == 1 {
                let row = Rectangle { column: 0, row: 2 - tile.row, columns: 4, rows: 1 };
                count += table.draw(row, &mut theirs).unwrap();
            }
        }
        assert_eq!([&ours, &theirs], [&all.picture; 2]);
        assert_eq!(count, 2 * all.count - 12 * tape.clause_count() as u64);
        assert_eq!(table.draw(Rectangle::whole(GRID), &mut ours), Ok(all.count - 12 * tape.clause_count() as u64));
        let verdicts = Rectangle::whole(GRID).tiles().map(|tile| table.verdict(tile.column, tile.row).unwrap());
        let expected = [Verdict::Full, Verdict::Cut, Verdict::Empty, Verdict::Empty];
        assert_eq!(verdicts.collect::<Vec<_>>(), expected.repeat(3));
    }

    /// A table is as long as it must be, and the wrapper's own figures are those of the call.
    #[test]
    fn the_table_is_the_calls() {
        let mut table = VerdictTable::new(&disc(), GRID).unwrap();
        let mut lent = vec![9; TABLE];
        assert_eq!(raw::table_begin(disc().as_bytes(), GRID, &mut lent).into_result(), Ok(0));
        assert_eq!(table.as_bytes(), lent);
        assert_eq!((table.tape(), table.grid(), HEAD + 64 * ENTRY), (&disc(), GRID, TABLE));
        let last = Rectangle::tile(3, 2);
        table.draw(last, &mut table.blank()).unwrap();
        assert_eq!(table.verdict(3, 2), Some(Verdict::Empty));
        assert_eq!([(4, 0), (0, 3), (u32::MAX, u32::MAX)].map(|(column, row)| table.verdict(column, row)), [None; 3]);
        let verdicts = Rectangle::whole(GRID).tiles().map(|tile| table.verdict(tile.column, tile.row));
        assert_eq!(verdicts.filter(|&verdict| verdict == Some(Verdict::Unknown)).count(), 11);
        assert!(format!("{table:?}").contains("Unknown, Unknown, Empty]"), "{table:?}");
    }

    #[test]
    fn misuse_is_refused() {
        let refused = |grid: Grid| VerdictTable::new(&disc(), grid).err();
        assert_eq!(refused(Grid::flat(513, 1)), Some(Refusal::SizeOutOfRange));
        assert_eq!(refused(Grid::flat(u32::MAX, 0)), Some(Refusal::SizeOutOfRange));
        assert_eq!(refused(Grid::flat(3, 2).step(0, 1, 1)), Some(Refusal::SampleOutOfRange));
        assert_eq!(refused(Grid::flat(3, 2).step(1, 1, 0)), None);
        let mut table = VerdictTable::new(&disc(), GRID).unwrap();
        let before = table.as_bytes().to_vec();
        let rectangle = |column, row, columns, rows| Rectangle { column, row, columns, rows };
        let most = u32::MAX;
        for outside in [
            rectangle(0, 0, 0, 1),
            rectangle(0, 0, 1, 0),
            rectangle(4, 0, 1, 1),
            rectangle(0, 3, 1, 1),
            rectangle(1, 0, 4, 1),
            rectangle(1, 1, most, most),
            rectangle(most, most, 2, 2),
            Rectangle::whole(Grid::flat(most, most)),
        ] {
            assert_eq!(table.draw(outside, &mut table.blank()), Err(Refusal::SizeOutOfRange), "{outside:?}");
        }
        // a picture of 199 columns has as many bytes; those of the others have more and fewer
        for other in [Grid::flat(199, 150), Grid::flat(150, 200), Grid::flat(1, 1)] {
            let mut picture = VerdictTable::new(&disc(), other).unwrap().blank();
            assert_eq!(table.draw(Rectangle::tile(0, 0), &mut picture), Err(Refusal::PictureOrOrder));
            assert_eq!(table.draw(Rectangle::tile(0, 3), &mut picture), Err(Refusal::SizeOutOfRange));
        }
        assert_eq!(table.as_bytes(), before);
    }

    #[test]
    fn tiles_of_a_rectangle() {
        let tiles = Rectangle { column: 2, row: 5, columns: 2, rows: 2 }.tiles().map(|tile| (tile.column, tile.row));
        assert_eq!(tiles.collect::<Vec<_>>(), [(2, 5), (3, 5), (2, 6), (3, 6)]);
        assert_eq!(Rectangle { column: 0, row: 0, columns: 3, rows: 0 }.tiles().count(), 0);
        assert_eq!(Rectangle { column: u32::MAX, row: u32::MAX, columns: 9, rows: 9 }.tiles().count(), 0);
        let [one, most] = [Grid::flat(1, 1), Grid::flat(512, 512)].map(|grid| Rectangle::whole(grid).tiles().count());
        assert_eq!((one, most), (1, 64));
    }
}
