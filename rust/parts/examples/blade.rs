//! A wiper blade over the plate of bracket and housing: which spots it wipes and when. Its path is 1,000 pairs of offsets,
//! as a machine would log them. Writes a PNG file, `blade.png` if no other name is given:
//!
//!     cargo run --release -p parts --example blade -- blade.png
//!
//! From blue to red by the first position that covers a spot, dark where the plate has material, black where it has some
//! that the blade never wipes.

use layers::{Bitmap, Grid, Refusal, Sweep, Tape, fixed};
use preview::png::colour_png;
use std::error::Error;

/// A blade 6 wide and 64 long about the origin, a little aslant.
const BLADE: &str = "max(abs(x + y/8) - 3, abs(y) - 32)";

const POSITIONS: usize = 1_000;

/// There and back over the plate, which goes from −70 to 70: above, with a wave in it, and below.
fn path() -> Vec<[i32; 2]> {
    let way = |k: usize| k as f64 / (POSITIONS - 1) as f64;
    let at = |t: f64| {
        let x = if t < 0.5 { -76.0 + 304.0 * t } else { 228.0 - 304.0 * t };
        let y = if t < 0.5 { -36.0 + 10.0 * (25.0 * t).sin() } else { 30.0 };
        [fixed(x), fixed(y)]
    };
    (0..POSITIONS).map(|k| at(way(k))).collect()
}

/// From blue at the first position over green to red at the last.
fn hue(position: usize) -> [f64; 3] {
    let turn = 4.0 - 4.0 * position as f64 / (POSITIONS - 1) as f64;
    let part = |from: f64| (2.0 - (turn - from).abs()).clamp(0.0, 1.0);
    [part(0.0), part(2.0), part(4.0)]
}

fn colour(first: Option<usize>, material: bool) -> [u8; 3] {
    let light = first.map_or([1.0; 3], hue);
    let shade = match (first, material) {
        (None, true) => 0.0,
        (Some(_), true) => 110.0,
        _ => 255.0,
    };
    light.map(|part| (part * shade) as u8)
}

fn picture(grid: Grid, sweep: &Sweep, plate: &Bitmap) -> Vec<u8> {
    let pixels = (0..grid.height).flat_map(|y| (0..grid.width).map(move |x| (x, y)));
    pixels.flat_map(|(x, y)| colour(sweep.first_at(x, y), plate.pixel(x, y))).collect()
}

/// The grid, what is swept on it, and the plate.
fn drawn() -> Result<(Grid, Sweep, Bitmap), Refusal> {
    let plate = parts::examples::plate();
    let blade = Tape::from_text(BLADE).map_err(|e| e.refusal())?;
    let sweep = Sweep::draw(&blade, plate.flat, &path())?;
    Ok((plate.flat, sweep, Bitmap::draw(&plate.tape, plate.flat)?.picture))
}

fn main() -> Result<(), Box<dyn Error>> {
    let name = std::env::args().nth(1).unwrap_or_else(|| "blade.png".into());
    let (grid, sweep, plate) = drawn()?;
    std::fs::write(&name, colour_png(grid.width, grid.height, &picture(grid, &sweep, &plate)))?;
    let swept = sweep.as_slice().iter().filter(|&&first| first > 0).count();
    println!("{name}: {swept} of {} spots are wiped", sweep.as_slice().len());
    Ok(())
}

#[cfg(test)]
mod tests {
    use super::*;

    #[test]
    fn some_of_the_plate_is_wiped() {
        let (grid, sweep, plate) = drawn().unwrap();
        let picture = picture(grid, &sweep, &plate);
        let has = |colour: [u8; 3]| picture.chunks(3).any(|pixel| pixel == colour);
        // untouched material and empty plate, the first position, and one of the last
        assert!(has([0; 3]) && has([255; 3]) && has([0, 0, 255]));
        assert!(picture.chunks(3).any(|pixel| pixel[0] == 255 && pixel[1] < 64 && pixel[2] == 0));
    }
}
