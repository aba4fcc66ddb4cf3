//! Clearance along a recorded path: the full evaluation at all positions.

use crate::arith::M;
use crate::call::{Answer, answer, enough_work, exact_len};
use crate::draw::Grid;
use crate::fault::planted;
use crate::tape::{Refused, Tape, refuse};

faults! {
    /// Faults that can be planted, one at a time.
    Fault {
        OffsetAdded,
        /// The search begins at the second position.
        SearchFromTheSecond,
        /// The last position that covers a pixel is taken.
        LastPosition,
        /// A path is tested by the first sample of each axis alone.
        FirstSampleTested,
        /// The picture's length is tested before the path.
        PictureBeforePath,
    }
}

/// The positions that a path may have.
const POSITIONS: usize = 4_096;

/// Lines 1 to 11, then 25, then 12 for one number a pixel, then 13.
pub fn tile_swept(tape: &[u8], grid: &Grid, path: &[i32], picture: &mut [u16], work: &mut [u8]) -> Answer {
    answer((|| {
        let tape = Tape::from_bytes(tape)?;
        grid.check(false)?;
        let pixels = grid.picture_len(true);
        if planted(Fault::PictureBeforePath) {
            exact_len(picture, pixels, 12)?;
        }
        let path = positions(grid, path)?;
        exact_len(picture, pixels, 12)?;
        enough_work(work)?;
        picture.copy_from_slice(&swept(&tape, grid, &path));
        work.fill(0);
        Ok(0)
    })())
}

/// The offsets of x and y at each position, or line 25.
fn positions(grid: &Grid, path: &[i32]) -> Result<Vec<[i128; 2]>, Refused> {
    let whole = path.len().is_multiple_of(2);
    let pairs: Vec<[i128; 2]> = path.chunks_exact(2).map(|pair| [pair[0] as i128, pair[1] as i128]).collect();
    if !whole || !(1..=POSITIONS).contains(&pairs.len()) || pairs.iter().any(|&offsets| leaves(grid, offsets)) {
        return refuse(25);
    }
    Ok(pairs)
}

/// Whether some sample less its offset is outside −M to M.
fn leaves(grid: &Grid, offsets: [i128; 2]) -> bool {
    [0, 1].iter().any(|&axis| {
        let tested = if planted(Fault::FirstSampleTested) { 1 } else { grid.sizes[axis] };
        (0..tested).any(|i| !(-M..=M).contains(&(grid.sample(axis, i) - offsets[axis])))
    })
}

/// 1 + the number of the first position that covers each pixel, or 0, in row order.
pub fn swept(tape: &Tape, grid: &Grid, path: &[[i128; 2]]) -> Vec<u16> {
    let pixels = (0..grid.sizes[1]).flat_map(|y| (0..grid.sizes[0]).map(move |x| [x, y, 0]));
    pixels.map(|pixel| first_cover(tape, grid.sample_at(false, pixel), path).map_or(0, |k| k as u16 + 1)).collect()
}

/// The number of the first position at which the tape, taken at x and y less the offsets, has material.
fn first_cover(tape: &Tape, [x, y, z]: [i128; 3], path: &[[i128; 2]]) -> Option<usize> {
    let covers = |k: &usize| {
        let [dx, dy] = path[*k];
        tape.material(if planted(Fault::OffsetAdded) { [x + dx, y + dy, z] } else { [x - dx, y - dy, z] })
    };
    let mut numbers = planted(Fault::SearchFromTheSecond) as usize..path.len();
    if planted(Fault::LastPosition) { numbers.rev().find(covers) } else { numbers.find(covers) }
}

#[cfg(test)]
mod tests {
    use super::*;
    use crate::draw;
    use crate::examples::{ONE, axis_less, constants, disc, done, plain, refused, refused_tapes, tape};
    use crate::fault;

    /// The answer, and the picture from buffers of these lengths; the work buffer is cleared or as it came.
    fn lent(tape: &[u8], grid: &Grid, path: &[i32], pixels: usize, work: usize) -> (Answer, Vec<u16>) {
        let (mut picture, mut bytes) = (vec![9; pixels], vec![9; work]);
        let said = tile_swept(tape, grid, path, &mut picture, &mut bytes);
        assert_eq!(bytes, vec![if said.number == 0 { 0 } else { 9 }; work]);
        assert!(said.number == 0 || picture == vec![9; pixels]);
        (said, picture)
    }

    fn number(tape: &Tape, grid: &Grid, path: &[i32]) -> u8 {
        lent(&tape.to_bytes(), grid, path, grid.picture_len(true), 32_768).0.number
    }

    fn drawn(tape: &Tape, grid: &Grid, path: &[i32]) -> Vec<u16> {
        let (said, picture) = lent(&tape.to_bytes(), grid, path, grid.picture_len(true), 32_768);
        assert_eq!(said, done(0));
        picture
    }

    /// Figures of the request.
    #[test]
    fn a_half_plane() {
        let (part, grid) = (axis_less(1, 2), plain(3, 2, 0));
        assert_eq!(drawn(&part, &grid, &[0, 0, ONE, 0]), [1, 1, 2, 1, 1, 2]);
        assert_eq!(drawn(&part, &grid, &[-6_553_600, 0, 0, 0, ONE, 5]), [2, 2, 3, 2, 2, 3]);
        assert_eq!(drawn(&part, &grid, &[-6_553_600, 0]), [0; 6]);
        for path in [&[][..], &[1], &[i32::MIN, 0], &[0, i32::MIN], &[0, 0, 0]] {
            assert_eq!(number(&part, &grid, path), 25);
        }
    }

    /// z is not moved, and the one z is taken as given.
    #[test]
    fn only_x_and_y_are_moved() {
        let grid = Grid { origins: [0, 0, 7], ..plain(2, 2, 0) };
        let at =
            |height: i32| drawn(&tape(2, &[[3, 0, 0, 0, 0], [0, 1, 0, 0, height], [10, 0, 0, 1, 0]]), &grid, &[9, 9]);
        assert_eq!([at(7), at(8)], [vec![0; 4], vec![1; 4]]);
        assert_eq!(drawn(&axis_less(2, 1), &plain(2, 2, 0), &[-9 * ONE, 0, -9 * ONE, ONE]), [1, 1, 2, 2]);
    }

    /// One position without offsets: the drawing itself. A path forth and back: the first time.
    #[test]
    fn a_disc() {
        let grid = plain(100, 70, 0);
        assert_eq!(drawn(&disc(), &grid, &[0, 0]), draw::heights(&disc(), &grid, false));
        let there = [[0, 0], [20 * ONE, -10 * ONE], [-40 * ONE, ONE]];
        let back: Vec<[i32; 2]> = there.iter().chain(there.iter().rev()).copied().collect();
        let once = drawn(&disc(), &grid, &there.concat());
        assert_eq!(drawn(&disc(), &grid, &back.concat()), once);
        let count = |k: u16| once.iter().filter(|&&number| number == k).count();
        let discs = there.map(|[dx, dy]| drawn(&disc(), &grid, &[dx, dy]));
        for (pixel, &number) in once.iter().enumerate() {
            let first = discs.iter().position(|disc| disc[pixel] == 1);
            assert_eq!(number as usize, first.map_or(0, |k| k + 1));
        }
        assert!([0, 1, 2, 3].iter().all(|&k| count(k) > 100));
    }

    #[test]
    fn the_longest_path() {
        let (part, grid) = (constants(1, 1, 0), plain(2, 1, 0));
        assert_eq!([4_096, 4_097].map(|pairs| number(&part, &grid, &vec![0; 2 * pairs])), [0, 25]);
        assert_eq!([8_191, 8_193].map(|numbers| number(&part, &grid, &vec![0; numbers])), [25, 25]);
        // the last of them covers the first pixel alone
        let mut path = [-ONE, 0].repeat(4_096);
        path[8_190] = 0;
        let x = tape(2, &[[1, 0, 0, 0, 0], [0, 1, 0, 0, ONE], [10, 0, 0, 1, 0]]);
        assert_eq!(drawn(&x, &grid, &path), [4_096, 0]);
        // the last of them leaves the values
        path[8_191] = i32::MIN;
        assert_eq!(number(&x, &grid, &path), 25);
    }

    /// In wide numbers: −2³¹ is allowed where all samples are below 0, and no sample is moved past an end.
    #[test]
    fn offsets_at_the_ends() {
        let x = tape(1, &[[1, 0, 0, 0, 0]]);
        let at = |origin: i32, size: u32| Grid { sizes: [size, 1, 0], origins: [origin, 0, 0], steps: [1; 3] };
        let moved = |grid: Grid, by: i32| number(&x, &grid, &[by, 0]);
        assert_eq!([moved(at(-1, 1), i32::MIN), moved(at(0, 1), i32::MIN), moved(at(-1, 2), i32::MIN)], [0, 25, 25]);
        assert_eq!([moved(at(-512, 512), i32::MIN), moved(at(-511, 512), i32::MIN)], [0, 25]);
        assert_eq!([moved(at(0, 512), i32::MAX), moved(at(-1, 512), i32::MAX)], [0, 25]);
        let (most, least) = (M as i32, -M as i32);
        assert_eq!([moved(at(most, 1), 0), moved(at(most, 1), -1), moved(at(most, 1), most)], [0, 25, 0]);
        assert_eq!([moved(at(least, 1), 0), moved(at(least, 1), 1), moved(at(least, 1), i32::MIN)], [0, 25, 0]);
        // the offset of y against the samples of y
        let upward = Grid { sizes: [1, 2, 0], origins: [0, -2, 0], steps: [1; 3] };
        assert_eq!([number(&x, &upward, &[0, i32::MIN]), number(&x, &upward, &[0, i32::MAX])], [0, 25]);
        assert_eq!(number(&x, &upward, &[i32::MIN, 0]), 25);
        // −1 comes to M and −M to 1, where x has no material; 0 and 1 come to −M and 1 − M
        assert_eq!(drawn(&x, &at(-1, 1), &[i32::MIN, 0]), [0]);
        assert_eq!(drawn(&x, &at(least, 1), &[i32::MIN, 0]), [0]);
        assert_eq!(drawn(&x, &at(0, 2), &[i32::MAX, 0]), [1, 1]);
        // a great grid: every sample of both axes with the greatest offset that they allow
        let grid = Grid { sizes: [512, 512, 0], origins: [least; 3], steps: [8_396_800; 3] };
        let spare = (M - 2_147_479_553) as i32;
        assert_eq!([-spare, -spare - 1].map(|by| number(&constants(1, 1, -1), &grid, &[by, by])), [0, 25]);
    }

    /// Each line alone and with those behind it.
    #[test]
    fn the_order_of_lines() {
        let (good, grid) = (disc().to_bytes(), plain(3, 2, 0));
        let wide = Grid { sizes: [3, 513, 0], ..grid };
        let still = Grid { steps: [ONE, -1, 0], ..grid };
        let both = Grid { sizes: [0, u32::MAX, 0], ..still };
        let said =
            |tape: &[u8], grid: &Grid, path: &[i32], pixels: usize, work: usize| lent(tape, grid, path, pixels, work).0;
        for (path, pixels, work) in [(&[0, 0][..], 6, 32_768), (&[0], 5, 32_767), (&[i32::MIN, 0], 0, 0)] {
            for (bad, answer) in refused_tapes() {
                assert_eq!(said(&bad, &grid, path, pixels, work), answer);
                assert_eq!(said(&bad, &both, path, pixels, work), answer);
            }
            assert_eq!(said(&good, &wide, path, pixels, work), refused(10, 0));
            assert_eq!(said(&good, &both, path, pixels, work), refused(10, 0));
            assert_eq!(said(&good, &still, path, pixels, work), refused(11, 0));
        }
        for path in [&[][..], &[0], &[i32::MIN, 0], &[0; 8_194]] {
            for (pixels, work) in [(6, 32_768), (5, 32_768), (6, 32_767), (7, 0)] {
                assert_eq!(said(&good, &grid, path, pixels, work), refused(25, 0));
            }
        }
        for (pixels, work) in [(5, 32_768), (7, 32_767), (0, 32_768), (2, 0)] {
            assert_eq!(said(&good, &grid, &[0, 0], pixels, work), refused(12, 0));
        }
        assert_eq!(said(&good, &grid, &[0, 0], 6, 32_767), refused(13, 0));
        assert_eq!(said(&good, &grid, &[0, 0], 6, 32_769), done(0));
        // a flat grid reads no depth and no third step
        let unread = Grid { sizes: [3, 2, 0xFFFF_FFFF], steps: [ONE, ONE, i32::MIN], ..grid };
        assert_eq!(drawn(&axis_less(1, 2), &unread, &[ONE, 0]), [1; 6]);
    }

    #[test]
    fn faults_show() {
        let cases = || {
            let (part, grid) = (axis_less(1, 2).to_bytes(), plain(3, 2, 0));
            let at_zero = Grid { sizes: [2, 1, 0], origins: [-1, 0, 0], steps: [1; 3] };
            (
                lent(&part, &grid, &[0, 0, ONE, 0], 6, 32_768),
                lent(&part, &at_zero, &[i32::MIN, 0], 2, 32_768),
                lent(&part, &grid, &[0], 5, 32_768),
            )
        };
        let right = cases();
        assert!(Fault::ALL.iter().all(|&f| fault::with(f, cases) != right));
    }
}
