//! Parts that come and go on a plate.

use crate::raw::{self, PLACE, PLATE};
use crate::{Bitmap, Clause, Grid, Refusal, Tape, Work};
use std::fmt;

/// The places of a plate, numbered from 0.
pub const PLACES: u32 = (PLATE / PLACE) as u32;

/// A plate with [`PLACES`] places for parts, and its flat picture on one grid, which has material where any of the parts
/// has it. A part that comes or goes has only those 64-tiles drawn afresh that it may have material in.
///
/// ```
/// use layers::{Grid, Plate, Refusal, Tape};
///
/// let mut plate = Plate::new(Grid::flat(8, 1))?;
/// plate.add(0, &Tape::from_text("x - 2")?)?;
/// plate.add(5, &Tape::from_text("6 - x")?)?;
/// assert_eq!(plate.picture().as_bytes(), [0b1100_0011]);
///
/// let left = plate.remove(0)?;
/// assert_eq!(plate.picture().as_bytes(), [0b0000_0011]);
/// assert_eq!(plate.add(5, &left), Err(Refusal::WrongPlace));
/// assert_eq!(plate.remove(0), Err(Refusal::WrongPlace));
/// # Ok::<(), Box<dyn std::error::Error>>(())
/// ```
#[derive(Clone)]
pub struct Plate {
    grid: Grid,
    memory: Box<[u8]>,
    picture: Bitmap,
    work: Work,
}

impl Plate {
    /// An empty plate. Refused are sizes and samples out of range, lines 10 and 11.
    pub fn new(grid: Grid) -> Result<Plate, Refusal> {
        let nothing = Tape::from_clauses(1, &[Clause::constant(0, 0)])?;
        let picture = Bitmap::draw(&nothing, grid)?.picture;
        Ok(Plate { grid, memory: vec![0; PLATE].into(), picture, work: Work::new() })
    }

    /// Adds a part at a free place. A place that is taken, or that the plate does not have, is
    /// [`Refusal::WrongPlace`].
    pub fn add(&mut self, place: u32, part: &Tape) -> Result<(), Refusal> {
        let Plate { grid, memory, picture, work } = self;
        raw::plate_add(memory, place, part.as_bytes(), *grid, picture.lend(), work.lend()).into_result()?;
        Ok(())
    }

    /// Removes the part at a place, and returns it. A place that is empty, or that the plate does not have, is
    /// [`Refusal::WrongPlace`].
    pub fn remove(&mut self, place: u32) -> Result<Tape, Refusal> {
        let part = self.part(place);
        let Plate { grid, memory, picture, work } = self;
        raw::plate_remove(memory, place, *grid, picture.lend(), work.lend()).into_result()?;
        Ok(part.expect("a part was removed"))
    }

    /// The part at a place.
    pub fn part(&self, place: u32) -> Option<Tape> {
        let bytes = self.memory.chunks(PLACE).nth(place as usize)?;
        // a tape begins with its mark, and an empty place is all zero
        (bytes[0] != 0).then(|| Tape::written(bytes.to_vec()))
    }

    /// The parts on the plate, each with its place.
    pub fn parts(&self) -> impl Iterator<Item = (u32, Tape)> {
        (0..PLACES).filter_map(|place| Some((place, self.part(place)?)))
    }

    /// The first place that is free.
    pub fn free_place(&self) -> Option<u32> {
        (0..PLACES).find(|&place| self.memory[place as usize * PLACE] == 0)
    }

    /// The grid of its picture.
    pub fn grid(&self) -> Grid {
        self.grid
    }

    /// The picture of all parts.
    pub fn picture(&self) -> &Bitmap {
        &self.picture
    }
}

impl fmt::Debug for Plate {
    fn fmt(&self, f: &mut fmt::Formatter) -> fmt::Result {
        let taken: Vec<u32> = self.parts().map(|(place, _)| place).collect();
        f.debug_struct("Plate").field("grid", &self.grid).field("taken", &taken).finish_non_exhaustive()
    }
}

#[cfg(test)]
mod tests {
    use super::*;
    use crate::{MAX_CLAUSES, MAX_SLOTS};

    fn part(text: &str) -> Tape {
        Tape::from_text(text).unwrap()
    }

    /// After every call the picture is that of the union of the parts present.
    #[test]
    fn the_picture_is_that_of_all_parts() {
        let grid = Grid::flat(130, 70).origin(0, 0, 5);
        let parts = ["root(sqr(x - 60) + sqr(y - 40)) - 30", "y - 3", "66 - x", "z", "0 - 1"].map(part);
        let mut plate = Plate::new(grid).unwrap();
        let mut calls: Vec<(bool, usize)> = (0..5).map(|place| (true, place)).collect();
        calls.extend([(false, 4), (false, 0), (true, 4), (false, 2), (false, 4), (true, 0), (false, 3), (false, 1)]);
        for (adds, which) in calls {
            let place = 7 - which as u32;
            match adds {
                true => plate.add(place, &parts[which]).unwrap(),
                false => assert_eq!(plate.remove(place).unwrap(), parts[which]),
            }
            let present: Vec<Tape> = plate.parts().map(|(_, part)| part).collect();
            let union = Tape::union_all(&present).unwrap();
            assert_eq!(*plate.picture(), Bitmap::draw(&union, grid).unwrap().picture);
        }
        assert_eq!(plate.parts().collect::<Vec<_>>(), [(7, parts[0].clone())]);
        assert_eq!(plate.grid(), grid);
    }

    #[test]
    fn places() {
        let mut plate = Plate::new(Grid::flat(3, 2)).unwrap();
        let longest = Tape::from_clauses(MAX_SLOTS, &[Clause::x(127); MAX_CLAUSES]).unwrap();
        for place in 0..PLACES {
            assert_eq!((plate.free_place(), plate.part(place)), (Some(place), None));
            assert_eq!(plate.remove(place), Err(Refusal::WrongPlace));
            plate.add(place, &longest).unwrap();
            assert_eq!(plate.add(place, &part("x")), Err(Refusal::WrongPlace));
            assert_eq!(plate.part(place).as_ref(), Some(&longest));
        }
        assert_eq!(plate.free_place(), None);
        for place in [8, u32::MAX] {
            assert_eq!((plate.add(place, &longest), plate.part(place)), (Err(Refusal::WrongPlace), None));
            assert_eq!(plate.remove(place), Err(Refusal::WrongPlace));
        }
        assert_eq!(plate.remove(3).unwrap(), longest);
        assert_eq!((plate.free_place(), plate.part(3)), (Some(3), None));
        assert!(format!("{plate:?}").contains("taken: [0, 1, 2, 4, 5, 6, 7]"), "{plate:?}");
    }

    #[test]
    fn grids_out_of_range_are_refused() {
        let refused = |grid: Grid| Plate::new(grid).err();
        assert_eq!(refused(Grid::flat(513, 1)), Some(Refusal::SizeOutOfRange));
        assert_eq!(refused(Grid::flat(3, 2).step(0, 1, 1)), Some(Refusal::SampleOutOfRange));
        assert_eq!(refused(Grid::flat(3, 2).step(1, 1, 0)), None);
    }
}
