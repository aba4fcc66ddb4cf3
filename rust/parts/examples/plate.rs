//! Three parts come and go on a plate: a ring, a bar and a block, which lie on one another. After each call only the tiles
//! that the part touches are drawn afresh. Prints the plate each time, one character for eight spots by sixteen:
//!
//!     cargo run --release -p parts --example plate

use layers::{Bitmap, Grid, Plate, Tape, fixed};
use std::error::Error;

const RING: &str = "max(root(sqr(x) + sqr(y)) - 24, 16 - root(sqr(x) + sqr(y)))";
const BAR: &str = "max(abs(y) - 4, abs(x) - 40)";
const BLOCK: &str = "max(abs(x - 30) - 12, abs(y - 20) - 10)";

/// From −50 to 50 along x and from −30 to 30 along y, in 400 by 240 spots.
fn grid() -> Grid {
    Grid::flat(400, 240).origin(fixed(-50.0), fixed(-30.0), 0).step(fixed(0.25), fixed(0.25), 1)
}

fn shown(picture: &Bitmap) -> String {
    let spot = |x: u32, y: u32| if picture.pixel(x, y) { '#' } else { '.' };
    let line = |y: u32| (4..400).step_by(8).map(move |x| spot(x, y)).chain(['\n']);
    (8..240).step_by(16).flat_map(line).collect()
}

fn main() -> Result<(), Box<dyn Error>> {
    let mut plate = Plate::new(grid())?;
    let show = |what: &str, plate: &Plate| println!("{what}:\n{}", shown(plate.picture()));
    plate.add(0, &Tape::from_text(RING)?)?;
    show("a ring", &plate);
    plate.add(1, &Tape::from_text(BAR)?)?;
    show("a bar over it", &plate);
    let ring = plate.remove(0)?;
    plate.add(2, &Tape::from_text(BLOCK)?)?;
    show("the ring gone, a block beside the bar", &plate);
    plate.remove(1)?;
    plate.add(7, &ring)?;
    show("the bar gone, the ring back", &plate);
    Ok(())
}

#[cfg(test)]
mod tests {
    use super::*;

    /// After each call the picture is that of the parts present, as one.
    #[test]
    fn parts_come_and_go() {
        let parts = [RING, BAR, BLOCK].map(|text| Tape::from_text(text).unwrap());
        let mut plate = Plate::new(grid()).unwrap();
        for (adds, which) in [(true, 0), (true, 1), (false, 0), (true, 2), (false, 1), (true, 0), (false, 2)] {
            match adds {
                true => plate.add(which as u32, &parts[which]).unwrap(),
                false => assert_eq!(plate.remove(which as u32).unwrap(), parts[which]),
            }
            let present: Vec<Tape> = plate.parts().map(|(_, part)| part).collect();
            let all = Tape::union_all(&present).unwrap();
            assert_eq!(*plate.picture(), Bitmap::draw(&all, grid()).unwrap().picture);
        }
        assert_eq!(shown(plate.picture()).matches('#').count(), 123);
    }
}
