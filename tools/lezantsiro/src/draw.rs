//! A layer: each block of it drawn by the proved core and put in its place. Nothing here decides a pixel.

use crate::messages::Stop;
use crate::plate::{Block, Plate};
use files::mask::{Mask, Pixels, level, row_bytes};
use layers::{Bitmap, Drawn, Grid, Refusal, Tape, Work};
use rayon::prelude::*;

/// A layer's pixels, by rows from the least y on, and the clauses that its drawing ran.
#[derive(Clone, Debug, PartialEq, Eq)]
pub struct Layer {
    pub mask: Mask,
    pub count: u64,
}

/// What the cores share: the blocks of a layer, or nothing, where each has a layer of its own.
#[derive(Clone, Copy, Debug, PartialEq, Eq)]
pub enum Share {
    Blocks,
    Nothing,
}

/// The layer of the plate at this z, in units.
pub fn layer(tape: &Tape, plate: &Plate, z: i32, share: Share) -> Result<Layer, Stop> {
    layer_by(tape, plate, z, share, |block| plate.place(block, z))
}

/// The layer with its blocks where `place` says.
fn layer_by(
    tape: &Tape,
    plate: &Plate,
    z: i32,
    share: Share,
    place: impl Fn(&Block) -> Option<Grid> + Sync,
) -> Result<Layer, Stop> {
    let bands = plate.bands();
    let rows = |band: &Vec<Block>| band_rows(tape, plate, band, share, &place);
    let drawn: Result<Vec<(Vec<u8>, u64)>, Refusal> = match share {
        Share::Blocks => bands.par_iter().map(rows).collect(),
        Share::Nothing => bands.iter().map(rows).collect(),
    };
    let drawn = drawn.map_err(|refusal| Stop::refused(refusal, &format!("the layer at z = {z} units")))?;
    let count = drawn.iter().map(|band| band.1).sum();
    let bytes = drawn.iter().map(|band| &band.0[..]).collect::<Vec<_>>().concat();
    let pixels = if plate.aa == 1 { Pixels::Bits(bytes) } else { Pixels::Grey(bytes) };
    Ok(Layer { mask: masked(plate.width, plate.height, pixels), count })
}

/// The pixels of a row of blocks: bits, or greys where a pixel has several samples.
fn band_rows(
    tape: &Tape,
    plate: &Plate,
    band: &[Block],
    share: Share,
    place: &(impl Fn(&Block) -> Option<Grid> + Sync),
) -> Result<(Vec<u8>, u64), Refusal> {
    let draw = |work: &mut Work, block: &Block| -> Result<Drawn<Bitmap>, Refusal> {
        let grid = place(block).ok_or(Refusal::SampleOutOfRange)?;
        Bitmap::draw_with(tape, grid, work)
    };
    let drawn: Result<Vec<Drawn<Bitmap>>, Refusal> = match share {
        Share::Blocks => band.par_iter().map_init(Work::new, draw).collect(),
        Share::Nothing => {
            let mut work = Work::new();
            band.iter().map(|block| draw(&mut work, block)).collect()
        }
    };
    let drawn = drawn?;
    let stride = row_bytes(plate.x.axis.count);
    let mut bits = vec![0; stride * band.first().map_or(0, |block| block.height as usize)];
    for (block, drawn) in band.iter().zip(&drawn) {
        put(&mut bits, stride, block, &drawn.picture);
    }
    let count = drawn.iter().map(|drawn| drawn.count).sum();
    let rows = if plate.aa == 1 { bits } else { greys(&bits, stride, plate.width as usize, plate.aa) };
    Ok((rows, count))
}

/// Puts a block's rows into its band's. A block begins at a multiple of 512, so at a whole byte.
fn put(bits: &mut [u8], stride: usize, block: &Block, picture: &Bitmap) {
    let begin = block.column as usize / 8;
    for (row, bytes) in bits.chunks_mut(stride).zip(picture.rows()) {
        row[begin..begin + bytes.len()].copy_from_slice(bytes);
    }
}

/// The greys of rows of samples: how many of a pixel's samples have material.
fn greys(bits: &[u8], stride: usize, width: usize, aa: u32) -> Vec<u8> {
    let mut greys = Vec::with_capacity(bits.len() / stride * width / aa as usize);
    let side = aa as usize;
    let (each, window) = (8 / side, (1_u8 << side) - 1);
    for rows in bits.chunks(stride * side) {
        for pixel in 0..width {
            let shift = (each - 1 - pixel % each) * side;
            let of_row = |row: &[u8]| (row[pixel / each] >> shift & window).count_ones();
            greys.push(level(rows.chunks(stride).map(of_row).sum(), aa * aa));
        }
    }
    greys
}

/// A mask of pixels that were made for these sizes.
fn masked(width: u32, height: u32, pixels: Pixels) -> Mask {
    Mask::new(width, height, pixels).expect("as many pixels as the sizes say")
}

/// The mask with its rows the other way round: the first is that of the greatest y, or again of the least.
pub fn flipped(mask: &Mask) -> Mask {
    let rows = |bytes: &[u8], stride: usize| bytes.chunks(stride).rev().collect::<Vec<_>>().concat();
    let pixels = match mask.pixels() {
        Pixels::Bits(bits) => Pixels::Bits(rows(bits, row_bytes(mask.width()))),
        Pixels::Grey(greys) => Pixels::Grey(rows(greys, mask.width() as usize)),
    };
    masked(mask.width(), mask.height(), pixels)
}

/// Whether a pixel of the first or last row or column has material.
pub fn touches_edge(mask: &Mask) -> bool {
    let (right, top) = (mask.width() - 1, mask.height() - 1);
    let along_x = (0..=right).any(|x| mask.level(x, 0) > 0 || mask.level(x, top) > 0);
    along_x || (0..=top).any(|y| mask.level(0, y) > 0 || mask.level(right, y) > 0)
}

#[cfg(test)]
mod tests {
    use super::*;
    use crate::pitch::scaled_tape;
    use crate::plate::Origin;
    use crate::random::Random;
    use crate::units::Fraction;
    use layers::Probe;

    const FORMULA: &str = "max(root(sqr(x - 1) + sqr(y)) - 12, 3 - root(sqr(x) + sqr(y + z)))";

    fn plate(size: (u32, u32), pitch: &str, aa: u32) -> Plate {
        let pitch: Fraction = pitch.parse().expect("a pitch");
        Plate::new(size, [pitch; 2], Origin::Centre, aa, false).expect("a plate")
    }

    fn tape_for(formula: &str, plate: &Plate) -> (Tape, Tape) {
        let tape = Tape::from_text(formula).expect("a tape");
        let drawn = scaled_tape(&tape, [plate.x.axis.divisor, plate.y.axis.divisor, None]).expect("room");
        (tape, drawn)
    }

    /// The plate of one call of the core, cut at other places: its origin is a block's own.
    fn whole(tape: &Tape, plate: &Plate, z: i32, block: Block) -> Vec<u8> {
        let grid = plate.place(&block, z).expect("within the core's values");
        Bitmap::draw(tape, grid).expect("drawn").picture.into_vec()
    }

    /// The bits of a window of a layer, whose columns begin at a whole byte.
    fn window(layer: &Layer, block: &Block) -> Vec<u8> {
        let Pixels::Bits(bits) = layer.mask.pixels() else { panic!("bits") };
        let (stride, begin) = (row_bytes(layer.mask.width()), block.column as usize / 8);
        let rows = bits.chunks(stride).skip(block.row as usize).take(block.height as usize);
        rows.flat_map(|row| row[begin..begin + row_bytes(block.width)].to_vec()).collect()
    }

    /// Windows of sizes that one call holds, across the seams of the blocks: each drawn at once and compared.
    fn agrees_with_one_drawing(layer: &Layer, tape: &Tape, plate: &Plate, z: i32) -> bool {
        let windows = [(256, 256, 512, 444), (768, 300, 512, 400), (1024, 512, 64, 188), (0, 0, 512, 512)];
        windows.into_iter().all(|(column, row, width, height)| {
            let block = Block { column, row, width, height };
            window(layer, &block) == whole(tape, plate, z, block)
        })
    }

    #[test]
    fn blocks_are_one_drawing_across_their_seams() {
        for pitch in ["0.0285", "0.03125", "0.05"] {
            let plate = plate((1300, 700), pitch, 1);
            let (_, tape) = tape_for(FORMULA, &plate);
            for (z, share) in [(0, Share::Blocks), (70_000, Share::Nothing)] {
                let layer = layer(&tape, &plate, z, share).expect("a layer");
                assert!(layer.mask.filled() > 1000 && layer.count > 0);
                assert!(agrees_with_one_drawing(&layer, &tape, &plate, z), "{pitch} {z}");
            }
        }
    }

    #[test]
    fn a_plate_that_one_call_holds_is_that_call() {
        for size in [(512, 512), (1, 1), (9, 511), (511, 7)] {
            let plate = plate(size, "0.05", 1);
            let (_, tape) = tape_for(FORMULA, &plate);
            let block = Block { column: 0, row: 0, width: size.0, height: size.1 };
            let layer = layer(&tape, &plate, 5, Share::Blocks).expect("a layer");
            assert_eq!(*layer.mask.pixels(), Pixels::Bits(whole(&tape, &plate, 5, block)));
        }
    }

    /// Two faults in the placing of blocks: one block too far by a sample, and the columns' place taken for the rows'.
    #[test]
    fn planted_faults_in_the_placing_are_caught() {
        let plate = plate((1300, 700), "0.0285", 1);
        let (_, tape) = tape_for(FORMULA, &plate);
        let right = |block: &Block| plate.place(block, 0);
        let late = |block: &Block| {
            let moved = if block.column == 512 { block.column + 1 } else { block.column };
            Some(Grid { xorigin: plate.x.axis.begin(moved) as i32, ..plate.place(block, 0)? })
        };
        let turned = |block: &Block| {
            let origin = |axis: crate::pitch::Axis, index: u32| axis.begin(index) as i32;
            let (x, y) = (origin(plate.x.axis, block.row), origin(plate.y.axis, block.column));
            Some(Grid { xorigin: x, yorigin: y, ..plate.place(block, 0)? })
        };
        let holds = |layer: Layer| agrees_with_one_drawing(&layer, &tape, &plate, 0);
        assert!(holds(layer_by(&tape, &plate, 0, Share::Nothing, right).expect("a layer")));
        assert!(!holds(layer_by(&tape, &plate, 0, Share::Nothing, late).expect("a layer")));
        assert!(!holds(layer_by(&tape, &plate, 0, Share::Nothing, turned).expect("a layer")));
    }

    /// Pixels against the probe at the exact point, for every number of samples a pixel.
    #[test]
    fn random_pixels_are_the_probes() {
        let seed = 0x37;
        println!("seed {seed}");
        let mut random = Random::new(seed);
        for (pitch, aa) in [("0.05", 1), ("0.035", 1), ("0.05", 2), ("0.0285", 4)] {
            let plate = plate((900, 640), pitch, aa);
            let (tape, drawn) = tape_for(FORMULA, &plate);
            let mask = layer(&drawn, &plate, 40_000, Share::Blocks).expect("a layer").mask;
            for _ in 0..20_000 {
                let (x, y) = (random.below(900) as u32, random.below(640) as u32);
                let expected = (0..aa * aa).filter(|sample| {
                    let point = [plate.x.units(x * aa + sample % aa), plate.y.units(y * aa + sample / aa), 40_000];
                    let [x, y, z] = point.map(|units| units as f64 / 65_536.0);
                    matches!(tape.probe(x, y, z), Ok(Probe::Inside(_)))
                });
                assert_eq!(mask.level(x, y), level(expected.count() as u32, aa * aa), "{pitch} {aa}: {x}, {y}");
            }
        }
    }

    /// No block is refused unless the whole grid is: plates that end at the ends of the core's values.
    #[test]
    fn blocks_at_the_ends_of_the_range_are_drawn() {
        let tape = Tape::from_text("x + y").expect("a tape");
        let ends = [Fraction::of_units(-i128::from(i32::MAX)), Fraction::of_units(i128::from(i32::MAX) - 2 * 1300 + 1)];
        for corner in ends {
            let pitch = Fraction::of_units(2);
            let plate = Plate::new((1300, 700), [pitch; 2], Origin::Corner([corner; 2]), 1, false).expect("a plate");
            let layer = layer(&tape, &plate, 0, Share::Blocks).expect("a layer");
            let all = 1300 * 700;
            assert_eq!(layer.mask.filled(), if corner.is_positive() { 0 } else { all });
            assert_eq!(touches_edge(&layer.mask), !corner.is_positive());
        }
        let beyond = Fraction::of_units(i128::from(i32::MAX) - 2 * 1300 + 2);
        assert!(Plate::new((1300, 700), [Fraction::of_units(2); 2], Origin::Corner([beyond; 2]), 1, false).is_err());
    }

    #[test]
    fn y_up_turns_the_rows_round() {
        let plate = plate((16, 3), "1", 1);
        let tape = Tape::from_text("y").expect("a tape");
        let layer = layer(&tape, &plate, 0, Share::Nothing).expect("a layer");
        let rows = |mask: &Mask| (0..3).map(|y| mask.level(15, y)).collect::<Vec<_>>();
        assert_eq!(rows(&layer.mask), [255, 0, 0]);
        assert_eq!(rows(&flipped(&layer.mask)), [0, 0, 255]);
    }
}
