//! Parts that come and go on a plate: its memory, and one flat picture on one grid.

use crate::call::{Answer, answer, enough_work, exact_len, fits};
use crate::draw::{self, Grid};
use crate::fault::planted;
use crate::tape::{Refused, Tape, refuse};
use crate::walk::{Region, tiles};

faults! {
    /// Faults that can be planted, one at a time.
    Fault {
        /// Tiles stay untouched only where the part's range is above 0.
        UntouchedAboveZero,
        /// Removing zeros the tape and leaves what is behind it in its place.
        BehindTheTapeStays,
        /// The picture is drawn afresh without the place that changes.
        ChangedLeftOut,
        /// Line 22 is tested before the places.
        PlaceBeforePlaces,
        /// Of the places at fault the highest is told.
        HighestFirst,
    }
}

pub const PLACES: usize = 8;

/// The bytes of a place.
pub const PLACE: usize = 65_536;

/// The parts on the plate, by their places.
pub type Parts = [Option<Tape>; PLACES];

/// Lines 14, the places', 22, 1 to 9, then 10 to 13.
pub fn plate_add(
    memory: &mut [u8],
    place: u32,
    tape: &[u8],
    grid: &Grid,
    picture: &mut [u8],
    work: &mut [u8],
) -> Answer {
    answer((|| {
        let mut parts = parts(memory, place, false)?;
        let part = Tape::from_bytes(tape)?;
        fits(grid, picture)?;
        enough_work(work)?;
        if !planted(Fault::ChangedLeftOut) {
            parts[place as usize] = Some(part.clone());
        }
        redraw(&part, &parts, grid, picture);
        bytes_of(memory, place as usize)[..tape.len()].copy_from_slice(tape);
        bytes_of(memory, place as usize)[tape.len()..].fill(0);
        work.fill(0);
        Ok(0)
    })())
}

/// Lines 14, the places', 22, then 10 to 13.
pub fn plate_remove(memory: &mut [u8], place: u32, grid: &Grid, picture: &mut [u8], work: &mut [u8]) -> Answer {
    answer((|| {
        let mut parts = parts(memory, place, true)?;
        fits(grid, picture)?;
        enough_work(work)?;
        let part = parts[place as usize].take().expect("line 22 holds for an empty place");
        redraw(&part, &parts, grid, picture);
        let zeroed = if planted(Fault::BehindTheTapeStays) { part.to_bytes().len() } else { PLACE };
        bytes_of(memory, place as usize)[..zeroed].fill(0);
        work.fill(0);
        Ok(0)
    })())
}

fn bytes_of(memory: &mut [u8], place: usize) -> &mut [u8] {
    &mut memory[PLACE * place..PLACE * (place + 1)]
}

/// What the memory holds: line 14, then the lowest place at fault, then line 22 for a place that must have a part or
/// must have none.
fn parts(memory: &[u8], place: u32, taken: bool) -> Result<Parts, Refused> {
    exact_len(memory, PLACES * PLACE, 14)?;
    let read: Vec<Result<Option<Tape>, Refused>> = memory.chunks(PLACE).map(part_in).collect();
    let as_asked = read.get(place as usize).is_some_and(|part| matches!(part, Ok(part) if part.is_some() == taken));
    if planted(Fault::PlaceBeforePlaces) && !as_asked {
        return refuse(22);
    }
    if planted(Fault::HighestFirst)
        && let Some(Err(refused)) = read.iter().rfind(|part| part.is_err())
    {
        return Err(*refused);
    }
    let parts: Vec<Option<Tape>> = read.into_iter().collect::<Result<_, _>>()?;
    if as_asked { Ok(parts.try_into().expect("eight places")) } else { refuse(22) }
}

/// All zero when empty, or beginning with an accepted tape, as long as its head says.
fn part_in(place: &[u8]) -> Result<Option<Tape>, Refused> {
    if place.iter().all(|&byte| byte == 0) {
        return Ok(None);
    }
    let clauses = u16::from_le_bytes([place[4], place[5]]) as usize;
    // a head that counts more clauses than fit here is refused for that
    let len = (8 + 10 * clauses).min(PLACE);
    Tape::from_bytes(&place[..len]).map(Some)
}

/// Draws the parts afresh, but leaves the bytes of each 64-tile where the range of the part that comes or goes is 0 or
/// more.
fn redraw(part: &Tape, parts: &Parts, grid: &Grid, picture: &mut [u8]) {
    let fresh = afresh(parts, grid);
    for tile in tiles(grid, false).iter().filter(|tile| touched(part, grid, tile)) {
        for byte in tile.bytes(grid) {
            picture[byte] = fresh[byte];
        }
    }
}

fn touched(part: &Tape, grid: &Grid, tile: &Region) -> bool {
    let low = tile.range(part, grid, false).0.low;
    low < 0 || planted(Fault::UntouchedAboveZero) && low == 0
}

/// The picture of all parts: material where any has it.
pub fn afresh(parts: &Parts, grid: &Grid) -> Vec<u8> {
    let mut heights = vec![0; grid.picture_len(true)];
    for part in parts.iter().flatten() {
        for (height, of_part) in heights.iter_mut().zip(draw::heights(part, grid, false)) {
            *height = of_part.max(*height);
        }
    }
    draw::bits(grid, &heights)
}

#[cfg(test)]
mod tests {
    use super::*;
    use crate::examples::{ONE, axis_less, constants, disc, done, less_axis, plain, refused, refused_tapes, tape};
    use crate::fault;

    const WORK: usize = 32_768;

    /// A plate's memory, its picture and a work buffer full of noise.
    #[derive(Clone, PartialEq)]
    struct Plate {
        memory: Vec<u8>,
        picture: Vec<u8>,
        work: Vec<u8>,
    }

    impl Plate {
        /// An empty plate and a cleared picture.
        fn new(grid: &Grid) -> Self {
            Plate { memory: vec![0; PLACES * PLACE], picture: vec![0; grid.picture_len(false)], work: vec![9; WORK] }
        }

        /// With a tape at a place.
        fn holding(mut self, place: usize, tape: &[u8]) -> Self {
            bytes_of(&mut self.memory, place)[..tape.len()].copy_from_slice(tape);
            self
        }

        /// Makes a call. Refused, every byte stays; done, the work buffer is cleared, and filled with noise again.
        fn call(&mut self, call: impl FnOnce(&mut [u8], &mut [u8], &mut [u8]) -> Answer) -> Answer {
            let before = self.clone();
            let said = call(&mut self.memory, &mut self.picture, &mut self.work);
            if said.number == 0 {
                assert!(self.work.iter().all(|&byte| byte == 0));
                self.work.fill(9);
            } else {
                assert!(*self == before);
            }
            said
        }

        fn add(&mut self, place: u32, tape: &[u8], grid: &Grid) -> Answer {
            self.call(|memory, picture, work| plate_add(memory, place, tape, grid, picture, work))
        }

        fn remove(&mut self, place: u32, grid: &Grid) -> Answer {
            self.call(|memory, picture, work| plate_remove(memory, place, grid, picture, work))
        }

        fn place(&self, place: usize) -> &[u8] {
            &self.memory[PLACE * place..PLACE * (place + 1)]
        }
    }

    /// Figures of the request.
    #[test]
    fn two_half_planes() {
        let grid = plain(70, 2, 0);
        let (left, right) = (axis_less(1, 2).to_bytes(), less_axis(66, 1).to_bytes());
        let mut plate = Plate::new(&grid);
        assert_eq!(plate.add(3, &left, &grid), done(0));
        let row = [0xC0, 0, 0, 0, 0, 0, 0, 0, 0];
        assert_eq!(plate.picture, [row, row].concat());
        assert_eq!(plate.place(3)[..left.len()], left);
        assert!(plate.place(3)[left.len()..].iter().all(|&byte| byte == 0));
        assert_eq!(plate.add(0, &right, &grid), done(0));
        let row = [0xC0, 0, 0, 0, 0, 0, 0, 0, 0x3C];
        assert_eq!(plate.picture, [row, row].concat());
        plate.picture.fill(0xAA);
        assert_eq!(plate.remove(3, &grid), done(0));
        let row = [0, 0, 0, 0, 0, 0, 0, 0, 0xAA];
        assert_eq!(plate.picture, [row, row].concat());
        assert!(plate.memory == Plate::new(&grid).holding(0, &right).memory);
    }

    #[test]
    fn places_at_fault() {
        let grid = plain(70, 2, 0);
        let good = axis_less(1, 2).to_bytes();
        let mut stray = Plate::new(&grid);
        stray.memory[3 * PLACE - 1] = 1;
        assert_eq!([stray.add(0, &good, &grid), stray.remove(0, &grid)], [refused(2, 0); 2]);
        let mut slot = good.clone();
        slot[8 + 20 + 4] = 7;
        let mut one = Plate::new(&grid).holding(4, &slot);
        assert_eq!([one.add(0, &good, &grid), one.remove(4, &grid)], [refused(6, 2); 2]);
        // the lowest, whichever place is asked for
        let mut two = one.holding(6, &[7]).holding(2, &good);
        assert_eq!([two.add(6, &good, &grid), two.add(9, &[], &grid), two.remove(2, &grid)], [refused(6, 2); 3]);
        let mut lower = two.holding(1, &[0x54, 0x50, 1, 0]);
        assert_eq!([lower.add(0, &good, &grid), lower.remove(2, &grid)], [refused(3, 0); 2]);
    }

    /// Line 4 never comes from a place: a count that is too great is line 3, any other ends the tape before the place
    /// does.
    #[test]
    fn the_tape_of_a_place() {
        let grid = plain(3, 2, 0);
        let answer = |tape: &[u8]| Plate::new(&grid).holding(7, tape).add(0, &axis_less(1, 2).to_bytes(), &grid);
        for clauses in [6_145u16, 6_553, 6_554, u16::MAX] {
            let [low, high] = clauses.to_le_bytes();
            assert_eq!(answer(&[0x54, 0x50, 2, 128, low, high, 0, 0]), refused(3, 0));
        }
        // an accepted one but for its length: what follows is free, and what is missing are zeros
        let mut long = axis_less(1, 2).to_bytes();
        long.extend([1; 99]);
        assert_eq!(answer(&long), done(0));
        assert_eq!(answer(&axis_less(1, 2).to_bytes()[..28]), refused(5, 2));
        for (tape, said) in refused_tapes() {
            // too short, its last byte is no zero of the place; too long, the rest is free
            let said = match said.number {
                1 => refused(5, 0),
                4 => done(0),
                _ => said,
            };
            assert_eq!(answer(&tape), said);
        }
        // zeros before the last byte, and a mark alone
        assert_eq!([answer(&[0; 8]), answer(&[0, 1]), answer(&[0x54])], [done(0), refused(2, 0), refused(2, 0)]);
        assert_eq!(answer(&constants(128, 6_144, -1).to_bytes()), done(0));
    }

    /// Removing zeros the whole place, also what was free; the others stay, with what is free in them.
    #[test]
    fn what_is_behind_a_tape() {
        let grid = plain(3, 2, 0);
        let tape = axis_less(1, 2).to_bytes();
        let mut free = tape.clone();
        free.resize(PLACE, 5);
        let mut plate = Plate::new(&grid).holding(5, &free).holding(6, &free);
        assert_eq!(plate.remove(5, &grid), done(0));
        assert!(plate.memory == Plate::new(&grid).holding(6, &free).memory);
        assert_eq!(plate.picture, [0xC0, 0xC0]);
        assert_eq!(plate.add(5, &tape, &grid), done(0));
        assert!(plate.memory == Plate::new(&grid).holding(6, &free).holding(5, &tape).memory);
    }

    /// Where the part's range is 0 or more: low end 0, and spare bits.
    #[test]
    fn tiles_that_are_not_touched() {
        // x − 64.5, which is 0 at the first sample of the second tile
        let part = tape(2, &[[1, 0, 0, 0, 0], [0, 1, 0, 0, 64 * ONE + 32_768], [10, 0, 0, 1, 0]]).to_bytes();
        let grid = plain(70, 1, 0);
        let mut plate = Plate::new(&grid);
        plate.picture.fill(0xAB);
        assert_eq!(plate.add(0, &part, &grid), done(0));
        assert_eq!(plate.picture, [[0xFF; 8].as_slice(), &[0xAB]].concat());
        // a unit more: the second tile is touched, and its spare bits are 0
        let part = tape(2, &[[1, 0, 0, 0, 0], [0, 1, 0, 0, 64 * ONE + 32_769], [10, 0, 0, 1, 0]]).to_bytes();
        let mut plate = Plate::new(&grid);
        plate.picture.fill(0xAB);
        assert_eq!(plate.add(0, &part, &grid), done(0));
        assert_eq!(plate.picture, [[0xFF; 8].as_slice(), &[0x80]].concat());
        // a range with both signs but no material: touched
        let squares = tape(2, &[[1, 0, 0, 0, 0], [4, 1, 0, 0, 0], [11, 0, 0, 1, 0]]).to_bytes();
        let grid = Grid { origins: [-8 * ONE, 0, 0], ..plain(16, 1, 0) };
        let mut plate = Plate::new(&grid);
        plate.picture.fill(0xAB);
        assert_eq!(plate.add(0, &squares, &grid), done(0));
        assert_eq!(plate.picture, [0, 0]);
        // none touched, but done: stored, and the work buffer cleared
        let mut plate = Plate::new(&grid);
        plate.picture.fill(0xAB);
        assert_eq!(plate.add(7, &constants(1, 1, 0).to_bytes(), &grid), done(0));
        assert_eq!(plate.picture, [0xAB; 2]);
        assert!(plate.memory == Plate::new(&grid).holding(7, &constants(1, 1, 0).to_bytes()).memory);
    }

    /// A part that is removed uncovers those below it.
    #[test]
    fn parts_on_one_another() {
        let grid = plain(130, 70, 0);
        let all = [disc(), axis_less(2, 3), less_axis(66, 1), disc(), constants(1, 1, -1)];
        let mut plate = Plate::new(&grid);
        let mut parts = Parts::default();
        for (place, part) in all.iter().enumerate() {
            assert_eq!(plate.add(place as u32, &part.to_bytes(), &grid), done(0));
            parts[place] = Some(part.clone());
            assert_eq!(plate.picture, afresh(&parts, &grid));
        }
        for place in [4, 0, 2, 3, 1] {
            assert_eq!(plate.remove(place, &grid), done(0));
            parts[place as usize] = None;
            assert_eq!(plate.picture, afresh(&parts, &grid));
        }
        assert!(plate == Plate::new(&grid));
    }

    /// Along a run of calls, refused ones among them, on that grid and on others.
    #[test]
    fn a_run() {
        let grid = plain(75, 66, 0);
        let others = [plain(75, 66, 9), plain(0, 66, 0), plain(60, 66, 0), Grid { steps: [0; 3], ..grid }];
        let tapes = [disc(), axis_less(1, 2), less_axis(66, 1), less_axis(64, 2), constants(1, 1, 0)];
        let mut plate = Plate::new(&grid);
        let mut parts = Parts::default();
        let (mut state, mut numbers) = (12_345u64, [0; 32]);
        let mut below = |n: u64| {
            state = state.wrapping_mul(6_364_136_223_846_793_005).wrapping_add(1_442_695_040_888_963_407);
            (state >> 33) % n
        };
        for _ in 0..300 {
            let (place, part) = (below(9) as u32, &tapes[below(5) as usize]);
            let on = if below(4) == 0 { others[below(4) as usize] } else { grid };
            let mut bytes = part.to_bytes();
            if below(8) == 0 {
                bytes[below(18) as usize] ^= 4;
            }
            let adds = below(2) == 0;
            let said = if adds { plate.add(place, &bytes, &on) } else { plate.remove(place, &on) };
            if said.number == 0 {
                parts[place as usize] = if adds { Tape::from_bytes(&bytes).ok() } else { None };
            }
            numbers[said.number as usize] += 1;
            assert_eq!(plate.picture, afresh(&parts, &grid));
            assert_eq!(plate.memory.chunks(PLACE).map(part_in).collect::<Result<Vec<_>, _>>(), Ok(parts.to_vec()));
        }
        assert!([0, 5, 9, 10, 11, 12, 22].iter().all(|&number| numbers[number] > 0), "{numbers:?}");
    }

    /// Each line alone and with those behind it.
    #[test]
    fn the_order_of_lines() {
        let (good, grid) = (axis_less(1, 2).to_bytes(), plain(70, 2, 0));
        let still = Grid { steps: [0; 3], ..grid };
        let wide = Grid { sizes: [513, u32::MAX, 0], ..still };
        let filled = Plate::new(&grid).holding(1, &good);
        let faulty = filled.clone().holding(6, &[1]);
        let with = |plate: &Plate, picture: usize, work: usize| Plate {
            memory: plate.memory.clone(),
            picture: vec![9; picture],
            work: vec![9; work],
        };
        let lengths = [(18, WORK), (18, 0), (17, WORK), (19, WORK - 1)];
        let grids = [grid, still, wide];
        for (picture, work) in lengths {
            for on in &grids {
                for len in [0, PLACES * PLACE - 1, PLACES * PLACE + 1] {
                    let mut short = with(&faulty, picture, work);
                    short.memory.resize(len, 0);
                    assert_eq!([short.add(9, &[], on), short.remove(9, on)], [refused(14, 0); 2]);
                }
                let mut bad = with(&faulty, picture, work);
                for place in [0, 1, 8] {
                    assert_eq!([bad.add(place, &good, on), bad.remove(place, on)], [refused(2, 0); 2]);
                }
                let mut plate = with(&filled, picture, work);
                for tape in [&good[..], &good[1..], &[]] {
                    assert_eq!([1, 8, u32::MAX].map(|place| plate.add(place, tape, on)), [refused(22, 0); 3]);
                }
                assert_eq!([0, 8, u32::MAX].map(|place| plate.remove(place, on)), [refused(22, 0); 3]);
                for (bad, said) in refused_tapes() {
                    assert_eq!(plate.add(0, &bad, on), said);
                }
            }
            let mut plate = with(&filled, picture, work);
            assert_eq!([plate.add(0, &good, &wide), plate.remove(1, &wide)], [refused(10, 0); 2]);
            assert_eq!([plate.add(0, &good, &still), plate.remove(1, &still)], [refused(11, 0); 2]);
        }
        for (picture, work, number) in [(17, WORK, 12), (19, WORK - 1, 12), (0, 0, 12), (18, WORK - 1, 13), (18, 0, 13)]
        {
            let mut plate = with(&filled, picture, work);
            assert_eq!([plate.add(0, &good, &grid), plate.remove(1, &grid)], [refused(number, 0); 2]);
        }
        let mut plate = with(&filled, 18, WORK + 1);
        assert_eq!([plate.add(0, &good, &grid), plate.remove(1, &grid), plate.add(7, &good, &grid)], [done(0); 3]);
    }

    /// Depth and third step are not read.
    #[test]
    fn a_flat_grid() {
        let (grid, good) = (plain(70, 2, 0), disc().to_bytes());
        let unread = Grid { sizes: [70, 2, u32::MAX], steps: [ONE, ONE, i32::MIN], ..grid };
        let mut plates = [grid, unread].map(|grid| {
            let mut plate = Plate::new(&grid);
            assert_eq!(plate.add(2, &good, &grid), done(0));
            plate
        });
        assert!(plates[0] == plates[1]);
        assert_eq!(plates[0].remove(2, &unread), done(0));
        assert!(plates[0] == Plate::new(&grid));
    }

    /// The largest plate and parts.
    #[test]
    fn extremes() {
        let grid = Grid { origins: [-i32::MAX; 3], steps: [8_396_800; 3], ..plain(512, 512, 0) };
        let mut plate = Plate::new(&grid);
        for place in 0..8 {
            assert_eq!(plate.add(place, &tape(1, &[[1, 0, 0, 0, 0]]).to_bytes(), &grid), done(0));
        }
        // x is below 0 in the first 256 columns
        let row = [[0xFF; 32], [0; 32]].concat();
        assert_eq!(plate.picture, row.repeat(512));
        let great = constants(128, 6_144, -1).to_bytes();
        let small = plain(1, 1, 0);
        let mut plate = Plate::new(&small);
        assert_eq!(plate.add(7, &great, &small), done(0));
        assert_eq!((plate.place(7)[..61_448] == great, &plate.picture), (true, &vec![0x80]));
        assert_eq!(plate.remove(7, &small), done(0));
        assert!(plate == Plate::new(&small));
    }

    #[test]
    fn faults_show() {
        let grid = plain(70, 1, 0);
        let from = tape(2, &[[1, 0, 0, 0, 0], [0, 1, 0, 0, 64 * ONE + 32_768], [10, 0, 0, 1, 0]]).to_bytes();
        let mut free = constants(1, 1, 0).to_bytes();
        free.push(7);
        let cases = || {
            let mut plate = Plate::new(&grid).holding(2, &free);
            plate.picture.fill(0xAB);
            let mut said = vec![plate.add(1, &from, &grid)];
            let touched = plate.picture.clone();
            said.push(plate.remove(2, &grid));
            let mut bad = plate.clone().holding(5, &[1]).holding(4, &[0x54, 0x50, 1]);
            said.extend([bad.add(0, &from, &grid), bad.add(8, &from, &grid)]);
            (said, touched, plate.memory)
        };
        let right = cases();
        assert!(Fault::ALL.iter().all(|&f| fault::with(f, cases) != right));
    }
}
