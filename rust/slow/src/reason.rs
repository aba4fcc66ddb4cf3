//! The reason for a pixel of a flat picture: the region where the walk stopped.

use crate::arith::Range;
use crate::call::{Answer, answer, enough_work};
use crate::draw::Grid;
use crate::fault::planted;
use crate::tape::{Refused, Tape, refuse};
use crate::walk::{FLAT, Verdict, whole};

faults! {
    /// Faults that can be planted, one at a time.
    Fault {
        /// The clauses counted are those of the tape that the region's parent had.
        ParentsClauses,
        /// A range whose high end is 0 counts as full.
        ZeroIsFull,
        EndsSwapped,
        /// The region's row is found from the column.
        RowFromColumn,
    }
}

/// Number, place and count; the side of the region, both ends of its range, or the value twice, and the clauses of its
/// tape. All 0 where the call is refused.
#[derive(Clone, Copy, Debug, PartialEq, Eq)]
pub struct Reason {
    pub answer: Answer,
    pub side: u32,
    pub low: i32,
    pub high: i32,
    pub clauses: u32,
}

/// Lines 1 to 11, then 23, then 13.
pub fn explain_pixel(tape: &[u8], grid: &Grid, x: u32, y: u32, work: &mut [u8]) -> Reason {
    let stop = (|| {
        let tape = Tape::from_bytes(tape)?;
        grid.check(false)?;
        inside(grid, x, y)?;
        enough_work(work)?;
        work.fill(0);
        Ok(stop(&tape, grid, x, y))
    })();
    match stop {
        Err(refused) => Reason { answer: answer(Err(refused)), side: 0, low: 0, high: 0, clauses: 0 },
        Ok(Stop { side, range, clauses }) => {
            let (low, high) = (range.low as i32, range.high as i32);
            let (low, high) = if planted(Fault::EndsSwapped) { (high, low) } else { (low, high) };
            Reason { answer: answer(Ok(0)), side, low, high, clauses: clauses as u32 }
        }
    }
}

/// Line 23.
fn inside(grid: &Grid, x: u32, y: u32) -> Result<(), Refused> {
    if x < grid.sizes[0] && y < grid.sizes[1] { Ok(()) } else { refuse(23) }
}

/// Where the walk stopped.
struct Stop {
    side: u32,
    range: Range,
    clauses: usize,
}

/// Follows the regions that hold the pixel, from the 64-tile down.
fn stop(tape: &Tape, grid: &Grid, x: u32, y: u32) -> Stop {
    let y = if planted(Fault::RowFromColumn) { x.min(grid.sizes[1] - 1) } else { y };
    let [sides @ .., sample] = FLAT;
    let (mut tape, mut parents) = (tape.clone(), tape.clauses.len());
    let mut region = whole(grid, false);
    for side in sides {
        region = *region.cut(side).iter().find(|inner| inner.holds(x, y)).expect("a region holds the pixel");
        let (range, choices) = region.range(&tape, grid, false);
        let full = planted(Fault::ZeroIsFull) && range.high == 0;
        if Verdict::of(range) != Verdict::Mixed || full {
            return Stop { side, range, clauses: counted(&tape, parents) };
        }
        parents = tape.clauses.len();
        tape = tape.shortened(&choices);
    }
    let value = tape.value_at(grid.sample_at(false, [x, y, 0]));
    Stop { side: sample, range: Range::new(value, value), clauses: counted(&tape, parents) }
}

fn counted(tape: &Tape, parents: usize) -> usize {
    if planted(Fault::ParentsClauses) { parents } else { tape.clauses.len() }
}

#[cfg(test)]
mod tests {
    use super::*;
    use crate::arith::M;
    use crate::draw::heights;
    use crate::examples::{ONE, axis_less, constants, disc, done, plain, refused, refused_tapes, tape};
    use crate::fault;
    use crate::walk::{Region, tiles, walk};

    /// The reason, with a work buffer of so many bytes: cleared, or as it came where the call is refused.
    fn with_work(tape: &[u8], grid: &Grid, x: u32, y: u32, len: usize) -> Reason {
        let mut work = vec![9; len];
        let reason = explain_pixel(tape, grid, x, y, &mut work);
        assert_eq!(work, vec![if reason.answer.number == 0 { 0 } else { 9 }; len]);
        reason
    }

    /// Side, ends and clauses.
    fn reason(tape: &Tape, grid: &Grid, x: u32, y: u32) -> (u32, i32, i32, u32) {
        let Reason { answer, side, low, high, clauses } = with_work(&tape.to_bytes(), grid, x, y, 32_768);
        assert_eq!(answer, done(0));
        (side, low, high, clauses)
    }

    fn refused_with(answer: Answer) -> Reason {
        Reason { answer, side: 0, low: 0, high: 0, clauses: 0 }
    }

    /// Figures of the request.
    #[test]
    fn a_disc() {
        let grid = plain(100, 70, 0);
        assert_eq!(disc().clauses.len(), 12);
        assert_eq!(reason(&disc(), &grid, 60, 40), (8, -1_933_312, -1_423_674, 12));
        assert_eq!(reason(&disc(), &grid, 31, 40), (1, -98_017, -98_017, 12));
        for (x, y) in [(100, 0), (0, 70), (100, 70), (u32::MAX, 0), (0, u32::MAX)] {
            assert_eq!(with_work(&disc().to_bytes(), &grid, x, y, 32_768), refused_with(refused(23, 0)));
        }
    }

    /// The smaller of x − 2 and y − 1, in 7 clauses.
    fn two_half_planes() -> Tape {
        let [x, y] = [axis_less(1, 2), axis_less(2, 1)];
        crate::merge::merged(&x, &y).expect("a small tape")
    }

    /// A region's own tape is counted, which is its parent's short one.
    #[test]
    fn a_short_tape() {
        // the second tile of a row: x − 2 is above y − 1, and so are all its children
        let grid = plain(130, 2, 0);
        let part = two_half_planes();
        assert_eq!(reason(&part, &grid, 1, 1), (1, -32_768, -32_768, 7));
        assert_eq!(reason(&part, &grid, 100, 0), (1, -32_768, -32_768, 4));
        assert_eq!(reason(&part, &grid, 129, 1), (1, 32_768, 32_768, 4));
        // on one row alone the whole tile is full
        assert_eq!(reason(&part, &plain(130, 1, 0), 129, 0), (64, -32_768, -32_768, 7));
        assert_eq!(reason(&part, &plain(2, 2, 0), 1, 1), (64, -3 * ONE / 2, -32_768, 7));
    }

    /// Sides are nominal, also where a region is cut off.
    #[test]
    fn sides_of_regions_that_are_cut_off() {
        let all = |value: i32| reason(&constants(1, 1, value), &plain(65, 65, 0), 64, 64);
        assert_eq!([all(-1), all(0), all(1)], [(64, -1, -1, 1), (64, 0, 0, 1), (64, 1, 1, 1)]);
        // x − 66: the tile 64..69 is mixed, its 8-region too
        assert_eq!(reason(&axis_less(1, 66), &plain(70, 1, 0), 69, 0), (1, 229_376, 229_376, 3));
        assert_eq!(reason(&axis_less(1, 66), &plain(73, 1, 0), 72, 0), (8, 425_984, 425_984, 3));
    }

    #[test]
    fn the_ends_of_the_values() {
        let grid = Grid { sizes: [512, 512, 0], origins: [-M as i32; 3], steps: [8_396_800; 3] };
        let x = tape(1, &[[1, 0, 0, 0, 0]]);
        assert_eq!(reason(&x, &grid, 0, 511), (64, -2_143_285_247, -1_614_286_847, 1));
        assert_eq!(reason(&x, &grid, 511, 0), (64, 1_618_481_153, 2_147_479_553, 1));
        assert_eq!(reason(&constants(128, 6_144, -i32::MAX), &grid, 511, 511), (64, -i32::MAX, -i32::MAX, 6_144));
        // 0 is no material, and a range up to 0 is cut
        let zero = Grid { sizes: [2, 1, 0], origins: [-1, 0, 0], steps: [1; 3] };
        assert_eq!(reason(&x, &zero, 0, 0), (1, -1, -1, 1));
        assert_eq!(reason(&x, &zero, 1, 0), (1, 0, 0, 1));
    }

    /// The regions that the walk runs and stops at, each with its tape: found by the walk's own way down.
    fn stops(tape: &Tape, grid: &Grid, region: &Region, level: usize, found: &mut Vec<(Region, Reason)>) -> u64 {
        let (range, choices) = region.range(tape, grid, false);
        let (side, clauses) = (FLAT[level], tape.clauses.len() as u32);
        if side > 1 && Verdict::of(range) == Verdict::Mixed {
            let short = tape.shortened(&choices);
            let inner = region.cut(FLAT[level + 1]);
            return clauses as u64 + inner.iter().map(|r| stops(&short, grid, r, level + 1, found)).sum::<u64>();
        }
        let (low, high) = (range.low as i32, range.high as i32);
        found.push((*region, Reason { answer: done(0), side, low, high, clauses }));
        clauses as u64
    }

    /// Each pixel lies in just one such region, whose reason it has and whose sign decides it; the sum is the walk's.
    #[test]
    fn every_pixel() {
        for (part, grid) in
            [(disc(), plain(100, 70, 0)), (two_half_planes(), plain(67, 9, 0)), (axis_less(1, 66), plain(130, 65, 3))]
        {
            let (mut found, mut count) = (Vec::new(), 0);
            for tile in tiles(&grid, false) {
                count += stops(&part, &grid, &tile, 0, &mut found);
            }
            let (walked, sum) = walk(&part, &grid, false);
            assert_eq!((&walked, sum), (&heights(&part, &grid, false), count));
            for (pixel, &material) in walked.iter().enumerate() {
                let (x, y) = (pixel as u32 % grid.sizes[0], pixel as u32 / grid.sizes[0]);
                let holding: Vec<_> = found.iter().filter(|(region, _)| region.holds(x, y)).collect();
                let reason = with_work(&part.to_bytes(), &grid, x, y, 32_768);
                assert_eq!(holding.iter().map(|(_, reason)| *reason).collect::<Vec<_>>(), [reason]);
                assert!(if material == 1 { reason.high < 0 } else { reason.low >= 0 });
            }
        }
    }

    /// Each line alone and with those behind it.
    #[test]
    fn the_order_of_lines() {
        let (good, grid) = (disc().to_bytes(), plain(100, 70, 0));
        let wide = Grid { sizes: [513, 70, 0], ..grid };
        let still = Grid { steps: [ONE, 0, 0], ..grid };
        let both = Grid { sizes: [0, u32::MAX, 0], ..still };
        for (x, work) in [(99, 32_768), (100, 32_767), (u32::MAX, 0)] {
            for (bad, said) in refused_tapes() {
                assert_eq!(with_work(&bad, &grid, x, 0, work), refused_with(said));
                assert_eq!(with_work(&bad, &both, x, 0, work), refused_with(said));
            }
            assert_eq!(with_work(&good, &wide, x, 0, work), refused_with(refused(10, 0)));
            assert_eq!(with_work(&good, &both, x, 0, work), refused_with(refused(10, 0)));
            assert_eq!(with_work(&good, &still, x, 0, work), refused_with(refused(11, 0)));
        }
        assert_eq!(with_work(&good, &grid, 100, 0, 32_767), refused_with(refused(23, 0)));
        assert_eq!(with_work(&good, &grid, 99, 69, 32_767), refused_with(refused(13, 0)));
        assert_eq!(with_work(&good, &grid, 99, 69, 32_769).answer, done(0));
        // a flat grid reads no depth and no third step
        let unread = Grid { sizes: [100, 70, 9_999], steps: [ONE, ONE, -5], ..grid };
        assert_eq!(with_work(&good, &unread, 60, 40, 32_768), with_work(&good, &grid, 60, 40, 32_768));
    }

    #[test]
    fn faults_show() {
        let cases = || {
            let zero = Grid { sizes: [2, 1, 0], origins: [-1, 0, 0], steps: [1; 3] };
            let x = tape(1, &[[1, 0, 0, 0, 0]]);
            let both = two_half_planes();
            let beside = Grid { sizes: [130, 2, 0], ..plain(1, 1, 1) };
            (
                reason(&disc(), &plain(100, 70, 0), 60, 40),
                reason(&disc(), &plain(100, 70, 0), 60, 69),
                reason(&x, &zero, 0, 0),
                [8, 72].map(|column| reason(&both, &beside, column, 0)),
            )
        };
        let right = cases();
        assert!(Fault::ALL.iter().all(|&f| fault::with(f, cases) != right));
    }
}
