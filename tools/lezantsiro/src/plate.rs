//! The plate: how many pixels, where they are in mm, and the blocks that the core is asked for.

use crate::messages::Stop;
use crate::pitch::Axis;
use crate::units::{Fraction, GREATEST};
use layers::{Grid, MAX_SIZE, Refusal};

/// The samples along an axis: where they are, exactly, and how the core is told.
#[derive(Clone, Copy, Debug, PartialEq, Eq)]
pub struct Samples {
    /// Where the first cell begins, in mm.
    pub origin: Fraction,
    /// The side of a cell, in mm.
    pub pitch: Fraction,
    pub axis: Axis,
    /// Whether the axis has these samples exactly, or those of the nearest step.
    pub exact: bool,
}

impl Samples {
    /// The sample's place in mm, in units, rounded down: where the probe is asked.
    pub fn units(&self, index: u32) -> i128 {
        match self.exact {
            true => (self.origin + self.pitch * Fraction::new(2 * i128::from(index) + 1, 2)).floor_units(),
            false => self.axis.sample(index),
        }
    }

    /// From the first sample to the last, in units.
    pub fn range(&self) -> [i128; 2] {
        [self.units(0), self.units(self.axis.count - 1)]
    }

    /// Where the cells begin and end, in mm.
    pub fn ends(&self) -> [Fraction; 2] {
        [self.origin, self.origin + self.pitch * Fraction::whole(self.axis.count.into())]
    }

    /// How far an edge of the plate is off, in mm, at most: 0 where samples are exact.
    pub fn off(&self) -> Fraction {
        if self.exact {
            return Fraction::whole(0);
        }
        let begin = Fraction::of_units(self.axis.origin.into());
        let end = begin + Fraction::of_units(i128::from(self.axis.count) * i128::from(self.axis.step));
        let [low, high] = self.ends();
        (begin - low).abs().max((end - high).abs())
    }
}

/// Where the plate lies.
#[derive(Clone, Copy, Debug, PartialEq, Eq)]
pub enum Origin {
    /// Its middle is at 0, 0.
    Centre,
    /// Its corner of least x and y is there.
    Corner([Fraction; 2]),
}

/// The samples of an axis of so many cells, exactly or, if asked for, with the nearest step.
pub fn samples(
    name: &str,
    pitch: Fraction,
    origin: Option<Fraction>,
    count: u32,
    nearest: bool,
) -> Result<Samples, Stop> {
    let centred = origin.is_none();
    let origin = origin.unwrap_or(pitch * Fraction::new(-i128::from(count), 2));
    let ends = [origin, origin + pitch * Fraction::new(2 * i128::from(count) - 1, 2)];
    if ends.iter().any(|end| end.floor_units().abs() > GREATEST) {
        let [low, high] = ends.map(Fraction::decimal);
        return Err(Stop::refused(Refusal::SampleOutOfRange, &format!("{name} goes from {low} to {high} mm")));
    }
    let made = |axis: Option<Axis>, exact: bool| axis.map(|axis| Samples { origin, pitch, axis, exact });
    let found = match nearest {
        true => made(Axis::nearest(pitch, origin, count, centred), false),
        false => made(Axis::exact(pitch, origin, count), true),
    };
    found.ok_or_else(|| {
        let what = format!("{count} samples of {pitch} mm from {name} = {origin} mm on have no exact grid");
        let hint = "--pitch-nearest draws with the nearest step and says how far the far edge is off";
        Stop::refused(Refusal::SampleOutOfRange, &format!("{what} ({hint})"))
    })
}

/// A plate of pixels, each of `aa` by `aa` samples.
#[derive(Clone, Copy, Debug, PartialEq, Eq)]
pub struct Plate {
    pub width: u32,
    pub height: u32,
    pub pitch: [Fraction; 2],
    pub aa: u32,
    pub x: Samples,
    pub y: Samples,
}

impl Plate {
    pub fn new(
        (width, height): (u32, u32),
        pitch: [Fraction; 2],
        origin: Origin,
        aa: u32,
        nearest: bool,
    ) -> Result<Plate, Stop> {
        let corner = |axis: usize| match origin {
            Origin::Centre => None,
            Origin::Corner(corner) => Some(corner[axis]),
        };
        let fine = |axis: usize| pitch[axis] / Fraction::whole(aa.into());
        let x = samples("x", fine(0), corner(0), width * aa, nearest)?;
        let y = samples("y", fine(1), corner(1), height * aa, nearest)?;
        Ok(Plate { width, height, pitch, aa, x, y })
    }

    /// The rows of blocks, from the least y on.
    pub fn bands(&self) -> Vec<Vec<Block>> {
        let rows = pieces(self.y.axis.count);
        rows.into_iter().map(|(row, height)| self.band(row, height)).collect()
    }

    fn band(&self, row: u32, height: u32) -> Vec<Block> {
        pieces(self.x.axis.count).into_iter().map(|(column, width)| Block { column, row, width, height }).collect()
    }

    /// Where the core draws a block of a layer at this z, in units: the plate's own samples. `None` only if the plate
    /// itself does not fit the core's values.
    pub fn place(&self, block: &Block, z: i32) -> Option<Grid> {
        let x = i32::try_from(self.x.axis.begin(block.column)).ok()?;
        let y = i32::try_from(self.y.axis.begin(block.row)).ok()?;
        let grid = Grid::flat(block.width, block.height).origin(x, y, z);
        Some(grid.step(self.x.axis.step, self.y.axis.step, 1))
    }

    /// Pixels a metre along x and y, as picture files have them.
    pub fn density(&self) -> Option<(u32, u32)> {
        let per_metre = |pitch: Fraction| u32::try_from((Fraction::whole(1000) / pitch).round()).ok();
        Some((per_metre(self.pitch[0])?, per_metre(self.pitch[1])?))
    }

    /// How many 64-tiles the drawing of a layer has.
    pub fn tiles(&self) -> u128 {
        let tiles = |count: u32| pieces(count).iter().map(|piece| u128::from(piece.1.div_ceil(64))).sum::<u128>();
        tiles(self.x.axis.count) * tiles(self.y.axis.count)
    }
}

/// A part of the plate that one call of the core draws, in samples.
#[derive(Clone, Copy, Debug, PartialEq, Eq)]
pub struct Block {
    pub column: u32,
    pub row: u32,
    pub width: u32,
    pub height: u32,
}

/// Where each piece of an axis begins and how many samples it has: as many as the core takes, the last as many as are
/// left.
pub fn pieces(count: u32) -> Vec<(u32, u32)> {
    (0..count).step_by(MAX_SIZE as usize).map(|begin| (begin, MAX_SIZE.min(count - begin))).collect()
}

/// The layers of a stack, or the one of a single layer.
#[derive(Clone, Copy, Debug, PartialEq, Eq)]
pub enum Levels {
    /// A layer at this z.
    One(Fraction),
    /// So many layers of this height, from this z on, each drawn at its middle.
    Stack { from: Fraction, height: Fraction, count: u32 },
}

/// The names of layers have five digits.
const MOST_LAYERS: i128 = 100_000;

impl Levels {
    /// The layers whose middle lies below `to`.
    pub fn stack(from: Fraction, to: Fraction, height: Fraction) -> Result<Levels, Stop> {
        let count = ((to - from) / height - Fraction::new(1, 2)).ceil();
        if !(1..=MOST_LAYERS).contains(&count) {
            let (from, to, height) = (from.decimal(), to.decimal(), height.decimal());
            let words = format!("{count} layers of {height} mm from {from} to {to} mm: a stack has 1 to {MOST_LAYERS}");
            return Err(Stop::Usage(words));
        }
        let levels = Levels::Stack { from, height, count: count as u32 };
        levels.fitting()
    }

    /// The levels if the core takes every z.
    pub fn fitting(self) -> Result<Levels, Stop> {
        for layer in [0, self.count() - 1] {
            if self.units(layer).abs() > GREATEST {
                let z = format!("z = {} mm", self.z(layer).decimal());
                return Err(Stop::refused(Refusal::SampleOutOfRange, &z));
            }
        }
        Ok(self)
    }

    pub fn count(&self) -> u32 {
        match self {
            Levels::One(_) => 1,
            Levels::Stack { count, .. } => *count,
        }
    }

    /// The z of a layer, in mm.
    pub fn z(&self, layer: u32) -> Fraction {
        match self {
            Levels::One(z) => *z,
            Levels::Stack { from, height, .. } => *from + *height * Fraction::new(2 * i128::from(layer) + 1, 2),
        }
    }

    /// The z of a layer in units, rounded down.
    pub fn units(&self, layer: u32) -> i128 {
        self.z(layer).floor_units()
    }

    /// The z of every layer in units, the lowest first.
    pub fn all_units(&self) -> Vec<i128> {
        (0..self.count()).map(|layer| self.units(layer)).collect()
    }
}

#[cfg(test)]
mod tests {
    use super::*;

    fn length(text: &str) -> Fraction {
        text.parse().expect("a length")
    }

    fn plate(size: (u32, u32), pitch: &str, origin: Origin, aa: u32) -> Plate {
        Plate::new(size, [length(pitch); 2], origin, aa, false).expect("a plate")
    }

    #[test]
    fn blocks_cover_the_plate_once() {
        let plate = plate((1300, 513), "0.05", Origin::Centre, 1);
        let bands = plate.bands();
        let sizes = |band: &Vec<Block>| band.iter().map(|b| (b.column, b.row, b.width, b.height)).collect::<Vec<_>>();
        assert_eq!(bands.len(), 2);
        assert_eq!(sizes(&bands[0]), [(0, 0, 512, 512), (512, 0, 512, 512), (1024, 0, 276, 512)]);
        assert_eq!(sizes(&bands[1]), [(0, 512, 512, 1), (512, 512, 512, 1), (1024, 512, 276, 1)]);
        assert_eq!(plate.tiles(), 21 * 9);
    }

    #[test]
    fn a_plate_is_where_its_origin_says() {
        let ends = |plate: Plate| [plate.x.ends(), plate.y.ends()].map(|ends| ends.map(Fraction::decimal));
        let size = (3840, 2400);
        assert_eq!(ends(plate(size, "0.05", Origin::Centre, 1)), [["-96", "96"], ["-60", "60"]]);
        let corner = Origin::Corner([length("0.5"), length("-3")]);
        assert_eq!(ends(plate(size, "0.05", corner, 4)), [["0.5", "192.5"], ["-3", "117"]]);
        assert_eq!(plate(size, "0.05", Origin::Centre, 1).density(), Some((20_000, 20_000)));
    }

    #[test]
    fn the_first_sample_is_half_a_cell_in() {
        let plate = plate((3840, 2400), "0.05", Origin::Centre, 2);
        // -96 + 0.0125
        assert_eq!(plate.x.units(0), length("-95.9875").floor_units());
        assert_eq!(plate.x.units(7679), length("95.9875").floor_units());
    }

    #[test]
    fn the_nearest_step_says_how_far_it_is_off() {
        let near = |origin| Plate::new((3840, 2400), [length("0.05"); 2], origin, 1, true).expect("a plate").x.off();
        // 3277 units for 3276.8: 0.2 units a pixel
        assert_eq!(near(Origin::Corner([length("0"); 2])), Fraction::new(768, 65_536));
        assert_eq!(near(Origin::Centre), Fraction::new(384, 65_536));
    }

    #[test]
    fn plates_without_an_exact_grid_are_refused_with_what_to_do() {
        let stop = Plate::new((100, 100), [length("0.065537"); 2], Origin::Centre, 1, false).expect_err("none");
        assert!(stop.to_string().starts_with("refused 11 at 0: ") && stop.to_string().contains("--pitch-nearest"));
        let stop = Plate::new((60_000, 100), [length("1"); 2], Origin::Centre, 1, false);
        assert!(stop.is_ok());
        let stop = Plate::new((60_000, 100), [length("2"); 2], Origin::Centre, 1, false).expect_err("none");
        assert!(stop.to_string().contains("x goes from -60000 to 59999 mm"), "{stop}");
    }

    #[test]
    fn layers_are_drawn_at_their_middle() {
        let levels = Levels::stack(length("0"), length("20"), length("0.05")).expect("levels");
        assert_eq!((levels.count(), levels.units(0), levels.units(399)), (400, 1_638, 1_309_081));
        for layer in 0..400 {
            assert_eq!(levels.units(layer), 65_536 * (2 * i128::from(layer) + 1) / 40);
        }
        assert_eq!(Levels::stack(length("-1"), length("1.03"), length("0.1")).expect("levels").count(), 20);
        assert_eq!(Levels::stack(length("-1"), length("1.06"), length("0.1")).expect("levels").count(), 21);
        assert_eq!(Levels::One(length("-0.05")).units(0), -3_277);
        for (from, to) in [("1", "1"), ("2", "1"), ("0", "90000")] {
            assert!(Levels::stack(length(from), length(to), length("0.05")).is_err());
        }
        assert!(matches!(Levels::One(length("40000")).fitting(), Err(Stop::Refused { number: 11, .. })));
    }
}
