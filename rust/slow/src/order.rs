//! The solid drawing by tiles in an order of the caller's own.

use crate::call::{Answer, answer, checked, enough_work};
use crate::draw::Grid;
use crate::fault::planted;
use crate::tape::{Refused, refuse};
use crate::walk::{Region, tiles, walk_over};

faults! {
    /// Faults that can be planted, one at a time.
    Fault {
        /// A tile may be listed again in the place of another.
        RepeatsAllowed,
        /// The last tile need not be listed.
        LastNotRequired,
        /// Tiles are numbered from the lowest layer on: the right picture, the wrong count.
        LayersFromTheLowest,
        /// Tiles of a layer are numbered column by column: the right picture, the wrong count.
        ColumnsFirst,
    }
}

/// Lines 1 to 12 as drawing by tiles, then 12 for the list, then 13.
pub fn tile_solid_in_order(tape: &[u8], grid: &Grid, order: &[u16], picture: &mut [u16], work: &mut [u8]) -> Answer {
    answer((|| {
        let tape = checked(tape, grid, picture)?;
        let tiles = listed(&numbered(grid), order)?;
        enough_work(work)?;
        let (heights, count) = walk_over(&tape, grid, true, &tiles);
        picture.copy_from_slice(&heights);
        work.fill(0);
        Ok(count)
    })())
}

/// The 64-tiles by their numbers: as the walk meets them.
fn numbered(grid: &Grid) -> Vec<Region> {
    let mut tiles = tiles(grid, true);
    // both sorts keep the order of equal ones
    if planted(Fault::LayersFromTheLowest) {
        tiles.sort_by_key(|tile| tile.first[2]);
    }
    if planted(Fault::ColumnsFirst) {
        tiles.sort_by_key(|tile| (u32::MAX - tile.first[2], tile.first[0]));
    }
    tiles
}

/// The tiles in the order of the list; 12 if it does not have each exactly one time and nothing else.
fn listed(tiles: &[Region], order: &[u16]) -> Result<Vec<Region>, Refused> {
    let times = |number: usize| order.iter().filter(|&&k| k as usize == number).count();
    let once = (0..tiles.len()).all(|number| {
        times(number) == 1
            || planted(Fault::RepeatsAllowed)
            || planted(Fault::LastNotRequired) && number + 1 == tiles.len() && times(number) == 0
    });
    let length = order.len() == tiles.len() || planted(Fault::LastNotRequired) && order.len() + 1 == tiles.len();
    if !once || !length {
        return refuse(12);
    }
    order.iter().map(|&k| tiles.get(k as usize).copied().map_or(refuse(12), Ok)).collect()
}

#[cfg(test)]
mod tests {
    use super::*;
    use crate::call::tile;
    use crate::draw::heights;
    use crate::examples::{ONE, axis_less, constants, done, plain, refused, refused_tapes, tape};
    use crate::fault;
    use crate::tape::Tape;

    /// The answer, the picture and the work buffer, from buffers of these lengths.
    fn lent(tape: &[u8], grid: &Grid, order: &[u16], pixels: usize, work: usize) -> (Answer, Vec<u16>, Vec<u8>) {
        let (mut picture, mut work) = (vec![9; pixels], vec![9; work]);
        (tile_solid_in_order(tape, grid, order, &mut picture, &mut work), picture, work)
    }

    /// The answer and the heights, from buffers that fit.
    fn drawn(tape: &Tape, grid: &Grid, order: &[u16]) -> (Answer, Vec<u16>) {
        let (said, picture, work) = lent(&tape.to_bytes(), grid, order, grid.picture_len(true), 32_768);
        let expected = if said.number == 0 { 0 } else { 9 };
        assert!(work.iter().all(|&byte| byte == expected));
        (said, picture)
    }

    /// Figures of the request.
    #[test]
    fn planes() {
        let (tape, grid) = (axis_less(3, 100), plain(1, 1, 128));
        assert_eq!(drawn(&tape, &grid, &[0, 1]), (done(21), vec![100]));
        assert_eq!(drawn(&tape, &grid, &[1, 0]), (done(24), vec![100]));
        let (tape, grid) = (axis_less(3, 70), plain(2, 1, 130));
        assert_eq!(drawn(&tape, &grid, &[0, 1, 2]), (done(45), vec![70; 2]));
        assert_eq!(drawn(&tape, &grid, &[2, 1, 0]), (done(48), vec![70; 2]));
        for wrong in [&[0, 0][..], &[0], &[0, 2], &[], &[0, 1, 2], &[0, 1, 1], &[1, 1], &[0, 65_535], &[0, 1, 0, 1]] {
            assert_eq!(drawn(&axis_less(3, 100), &plain(1, 1, 128), wrong), (refused(12, 0), vec![9]));
        }
    }

    /// All orders of the numbers below n.
    fn orders(n: u16) -> Vec<Vec<u16>> {
        let mut all = vec![vec![]];
        for k in 0..n {
            let longer = all.iter().flat_map(|order: &Vec<u16>| {
                (0..=order.len()).map(move |at| [&order[..at], &[k], &order[at..]].concat())
            });
            all = longer.collect();
        }
        all
    }

    /// A ball of radius 30 about x 35, z 45 and some y: 16 clauses.
    fn ball(y: i32) -> Tape {
        let square = |axis: i32, slot: i32, middle: i32| {
            [[axis, slot, 0, 0, 0], [0, 3, 0, 0, middle * ONE], [10, slot, slot, 3, 0], [7, slot, slot, 0, 0]]
        };
        let mut list = [square(1, 0, 35), square(2, 1, y), square(3, 2, 45)].concat();
        list.extend([[9, 0, 0, 1, 0], [9, 0, 0, 2, 0], [0, 3, 0, 0, 900 * ONE], [10, 0, 0, 3, 0]]);
        tape(4, &list)
    }

    /// In every order of four tiles and in some of eight.
    #[test]
    fn every_order_gives_the_same_heights() {
        let some = vec![vec![0, 1, 2, 3, 4, 5, 6, 7], vec![7, 6, 5, 4, 3, 2, 1, 0], vec![3, 0, 7, 5, 1, 2, 6, 4]];
        for (height, orders) in [(3, orders(4)), (66, some)] {
            let (ball, grid) = (ball(height / 2), plain(70, height as u32, 80));
            let expected = heights(&ball, &grid, true);
            let mut counts = Vec::new();
            for order in &orders {
                let (said, picture) = drawn(&ball, &grid, order);
                assert_eq!((said.number, &picture), (0, &expected), "{order:?}");
                counts.push(said.count);
            }
            assert!(counts.iter().any(|&count| count != counts[0]));
            // the walk's own order
            let own: Vec<u16> = (0..orders[0].len() as u16).collect();
            let (mut picture, mut work) = (vec![9u16; grid.picture_len(true)], vec![9; 32_768]);
            let said = tile(&ball.to_bytes(), &grid, &mut picture, &mut work);
            assert_eq!(drawn(&ball, &grid, &own), (said, picture));
        }
    }

    /// Greatest z first, then rows, then columns.
    #[test]
    fn tiles_are_numbered_as_the_walk_meets_them() {
        let grid = plain(130, 70, 70);
        let firsts: Vec<[u32; 3]> = numbered(&grid).iter().map(|tile| tile.first).collect();
        let layer = [[0, 0], [64, 0], [128, 0], [0, 64], [64, 64], [128, 64]];
        let expected: Vec<[u32; 3]> = [64, 0].iter().flat_map(|&z| layer.map(|[x, y]| [x, y, z])).collect();
        assert_eq!(firsts, expected);
        assert_eq!(numbered(&grid)[5].end, [130, 70, 70]);
        assert_eq!(numbered(&grid)[6].end, [64, 64, 64]);
    }

    /// 512 tiles of a full part: each is run once, but those below a full one are hidden.
    #[test]
    fn the_largest_grid() {
        let (full, grid) = (constants(1, 1, -1), plain(512, 512, 512));
        let down: Vec<u16> = (0..512).collect();
        let up: Vec<u16> = (0..512).rev().collect();
        assert_eq!(drawn(&full, &grid, &down), (done(64), vec![512; 512 * 512]));
        assert_eq!(drawn(&full, &grid, &up), (done(512), vec![512; 512 * 512]));
        let mut wrong = up.clone();
        wrong[511] = 512;
        assert_eq!(drawn(&full, &grid, &wrong).0, refused(12, 0));
        assert_eq!(drawn(&full, &grid, &down[1..]).0, refused(12, 0));
    }

    /// Each line alone and with those behind it.
    #[test]
    fn the_order_of_lines() {
        let (good, grid) = (axis_less(3, 100).to_bytes(), plain(1, 1, 128));
        let wide = Grid { sizes: [1, 1, 513], ..grid };
        let steep = Grid { steps: [1, 1, 0], ..grid };
        let both = Grid { sizes: [1, u32::MAX, 128], ..steep };
        let answer = |tape: &[u8], grid: &Grid, order: &[u16], pixels: usize, work: usize| {
            let (said, picture, bytes) = lent(tape, grid, order, pixels, work);
            assert!(said.number == 0 || (picture, bytes) == (vec![9; pixels], vec![9; work]));
            said
        };
        for (order, pixels, work) in [(&[1, 0][..], 1, 32_768), (&[1, 1], 2, 32_767)] {
            for (bad, said) in refused_tapes() {
                assert_eq!(answer(&bad, &grid, order, pixels, work), said);
                assert_eq!(answer(&bad, &both, order, pixels, work), said);
            }
            assert_eq!(answer(&good, &wide, order, pixels, work), refused(10, 0));
            assert_eq!(answer(&good, &both, order, pixels, work), refused(10, 0));
            assert_eq!(answer(&good, &steep, order, pixels, work), refused(11, 0));
        }
        assert_eq!(answer(&good, &grid, &[1, 0], 2, 32_767), refused(12, 0));
        assert_eq!(answer(&good, &grid, &[1, 0], 0, 32_768), refused(12, 0));
        assert_eq!(answer(&good, &grid, &[1, 1], 1, 32_767), refused(12, 0));
        assert_eq!(answer(&good, &grid, &[1, 0], 1, 32_767), refused(13, 0));
        assert_eq!(answer(&good, &grid, &[1, 0], 1, 32_769), done(24));
    }

    #[test]
    fn faults_show() {
        let cases = || {
            let column = |order: &[u16]| drawn(&axis_less(3, 100), &plain(1, 1, 128), order);
            // material where x is above 64 and z below 100: of those two columns the lower tile comes first in one
            let list = [[1, 0, 0, 0, 0], [0, 1, 0, 0, 64 * ONE], [10, 0, 1, 0, 0], [3, 1, 0, 0, 0]];
            let rest = [[0, 2, 0, 0, 100 * ONE], [10, 1, 1, 2, 0], [13, 0, 0, 1, 0]];
            let beside = tape(3, &[&list[..], &rest].concat());
            let solid = drawn(&beside, &plain(65, 66, 128), &[0, 5, 1, 2, 3, 4, 6, 7]);
            ([column(&[0, 1]), column(&[0, 0]), column(&[0])], solid)
        };
        let right = cases();
        assert!(Fault::ALL.iter().all(|&f| fault::with(f, cases) != right));
    }
}
