//! The solid drawing with slopes against the slow one: figures of the request, random drawings, refusals, faults.

use crate::refusals::{SLOTS, WIDE_SLOTS, good_drawing, grid_wrongs, tape_of, tape_wrongs, try_all, wrong};
use crate::stack::mixed;
use checks::compare::answer;
use checks::drawing::Drawing;
use checks::lists::List;
use checks::random::{Random, cases};
use checks::slopes::{Lent, Sloping};
use layers::raw;
use slow::call::{self, Answer};
use slow::draw::Grid;
use slow::slopes::{self, Fault};
use slow::tape::Tape;

fn core(tape: &[u8], grid: raw::Grid, (picture, slopes, work): &mut Lent) -> raw::Answer {
    raw::tile_slopes(tape, grid, picture, slopes, work)
}

fn slow(tape: &[u8], grid: &Grid, (picture, slopes, work): &mut Lent) -> Answer {
    slopes::tile_slopes(tape, grid, picture, slopes, work)
}

fn compared(case: &Sloping, noise: &mut Random) -> Answer {
    case.compare(noise, core, slow).unwrap_or_else(|e| panic!("{e}"))
}

/// The root of squares less a radius in whole ones; the squares may be written with multiply.
fn ball(radius: i32, multiply: bool) -> Vec<u8> {
    let square = |slot: i32| if multiply { [11, slot, slot, slot, 0] } else { [7, slot, slot, 0, 0] };
    let clauses = vec![
        [1, 0, 0, 0, 0],
        square(0),
        [2, 1, 0, 0, 0],
        square(1),
        [9, 0, 0, 1, 0],
        [3, 1, 0, 0, 0],
        square(1),
        [9, 0, 0, 1, 0],
        [8, 0, 0, 0, 0],
        [0, 1, 0, 0, radius * 65_536],
        [10, 0, 0, 1, 0],
    ];
    List { slots: 2, clauses }.tape()
}

/// The core's slopes on a grid, where the slow call says the same.
fn drawn(tape: Vec<u8>, grid: Grid) -> (Answer, Lent) {
    let case = Sloping::new(Drawing::new(tape, grid));
    let said = compared(&case, &mut Random::new(1));
    let mut lent = (vec![7; case.drawing.solid], vec![7; case.slopes], vec![7; raw::WORK]);
    core(&case.drawing.tape, case.drawing.core_grid(), &mut lent);
    (said, lent)
}

/// The slopes at one point, in halves, where the tape has material: a grid whose one sample it is.
fn at_halves(tape: Vec<u8>, halves: [i32; 3]) -> Vec<i32> {
    let grid = Grid { sizes: [1; 3], origins: halves.map(|h| h * 32_768), steps: [1; 3] };
    let (said, (picture, slopes, _)) = drawn(tape, grid);
    assert_eq!((said.number, picture), (0, vec![1]));
    slopes
}

#[test]
fn a_ball_at_points() {
    for multiply in [false, true] {
        let ball = || ball(5, multiply);
        assert_eq!(raw::probe(&ball(), raw::Point { x: 1.5, y: 2.5, z: 3.5 }).value, -29_150.0 / 65_536.0);
        assert_eq!(at_halves(ball(), [3, 5, 7]), [21_580, 35_967, 50_354]);
        assert_eq!(at_halves(ball(), [-2, 4, -6]), [-17_516, 35_030, -52_546]);
        assert_eq!(at_halves(ball(), [0, 0, 0]), [0, 0, 0]);
    }
}

/// x/z, and less the greatest value and one unit, so that every point has material.
#[test]
fn a_quotient_at_points() {
    let clauses = vec![
        [1, 0, 0, 0, 0],
        [3, 1, 0, 0, 0],
        [14, 0, 0, 1, 0],
        [0, 1, 0, 0, i32::MAX],
        [10, 0, 0, 1, 0],
        [0, 1, 0, 0, 1],
        [10, 0, 0, 1, 0],
    ];
    let quotient = List { slots: 2, clauses }.tape();
    assert_eq!(at_halves(quotient.clone(), [6, 0, 4]), [32_768, 0, -49_152]);
    assert_eq!(at_halves(quotient.clone(), [6, 0, 0]), [0, 0, 0]);
    assert_eq!(at_halves(quotient, [0, 0, 0]), [0, 0, 0]);
}

#[test]
fn a_ball_on_a_grid() {
    let grid = Grid { sizes: [4, 2, 4], origins: [-131_072, -65_536, -131_072], steps: [65_536; 3] };
    for multiply in [false, true] {
        let (said, (picture, slopes, work)) = drawn(ball(2, multiply), grid);
        assert_eq!(said, Answer { number: 0, place: 0, count: 165 });
        assert_eq!(picture, [3, 4, 4, 3, 3, 4, 4, 3]);
        assert_eq!(slopes[..3], [-59_280, -19_760, 19_759]);
        assert_eq!(work, [0; raw::WORK]);
    }
}

/// The largest sizes on each axis, in blocks that the edges cut off.
#[test]
fn the_largest_grids() {
    for sizes in [[512, 512, 1], [512, 1, 512], [1, 512, 512], [67, 70, 512]] {
        // a ball of radius 5 over half of the picture
        let steps = sizes.map(|size| 655_360 * 2 / size as i32);
        let (said, (picture, ..)) = drawn(ball(5, false), Grid { sizes, origins: [-655_360; 3], steps });
        assert_eq!(said.number, 0);
        assert!(sizes[2] == 1 || picture.iter().any(|&height| height > 300));
    }
}

/// Heights that lie far apart within four pixels, and that leave layers between them without a visible sample.
#[test]
fn steep_blocks() {
    for (text, gaps) in [
        ("z - 25*x - 9*y", false),
        ("min(max(z - 24*x, z - 300), max(z - 500 + 24*y, 30 - z))", false),
        ("min(z - 3, max(z - 400 - x, abs(x - 10) + abs(y - 9) - 1.5))", true),
        ("min(min(z - 2, max(z - 33 - y, 7 - x)), max(z - 330 + root(sqr(x) + sqr(y)), x - 9.8))", true),
    ] {
        let tape = layers::Tape::from_text(text).expect("a formula");
        let grid = Grid { sizes: [21, 18, 512], origins: [0; 3], steps: [65_536; 3] };
        let (said, (picture, ..)) = drawn(tape.as_bytes().to_vec(), grid);
        assert_eq!(said.number, 0);
        let mut block: Vec<u16> = (8..12).flat_map(|y| &picture[y * 21 + 8..][..4]).copied().collect();
        block.sort_unstable();
        assert!(block[15] - block[0] > 32, "{text}: {block:?}");
        assert!(!gaps || block.windows(2).any(|pair| pair[1] - pair[0] > 32), "{text}: {block:?}");
    }
}

/// Samples at both ends of the range of values, and slopes clamped there. Every sample has material.
#[test]
fn the_ends_of_the_range() {
    let mut clamped = [0; 2];
    for opcode in [4, 5, 6, 7, 8, 9, 10, 11, 12, 13, 14] {
        for [a, b] in [[1, 2], [2, 1], [3, 3], [1, 3], [3, 2]] {
            // of the axes a and b, often twice over, and less its own size and one unit
            let right = if opcode < 9 { 0 } else { 1 };
            let clauses = vec![
                [a, 0, 0, 0, 0],
                [b, 1, 0, 0, 0],
                [opcode, 0, 0, right, 0],
                [9, 0, 0, 0, 0],
                [7, 1, 0, 0, 0],
                [11, 1, 0, 1, 0],
                [6, 2, 1, 0, 0],
                [10, 1, 1, 2, 0],
                [0, 2, 0, 0, 1],
                [10, 1, 1, 2, 0],
            ];
            for (sizes, origin, step) in
                [([2, 2, 2], -i32::MAX, i32::MAX), ([3, 3, 3], -i32::MAX, 1_717_986_917), ([5, 4, 3], -2, 1)]
            {
                let grid = Grid { sizes, origins: [origin; 3], steps: [step; 3] };
                let (said, (picture, slopes, _)) = drawn(List { slots: 3, clauses: clauses.clone() }.tape(), grid);
                assert_eq!(said.number, 0);
                assert!(picture.iter().all(|&height| height == sizes[2] as u16));
                clamped[0] += slopes.contains(&-i32::MAX) as u32;
                clamped[1] += slopes.contains(&i32::MAX) as u32;
            }
        }
    }
    assert!(clamped[0] > 10 && clamped[1] > 10, "{clamped:?}");
}

/// The longest tape, in the most slots.
#[test]
fn the_longest_tape() {
    let grid = Grid { sizes: [21, 18, 7], origins: [-10_300, -9_300, -3_300], steps: [1000; 3] };
    for (slots, count) in [(128, 6144), (64, 1024), (65, 70)] {
        let (said, (_, slopes, _)) = drawn(mixed(slots, count).tape(), grid);
        assert_eq!(said.number, 0);
        assert!(slopes.iter().any(|&slope| slope != 0));
    }
}

/// Heights, count and work buffer are those of the drawing without slopes, by the core and by the slow drawing.
#[test]
fn random_drawings() {
    let cases = cases(3_000);
    let mut r = Random::seeded(&format!("random_drawings: {cases} cases"), 0x5EED_0060);
    let mut noise = Random::new(0x5EED_0061);
    let mut seen = 0;
    for _ in 0..cases {
        let case = Sloping::random(&mut r);
        let said = compared(&case, &mut noise);
        let Drawing { tape, grid, solid, work, .. } = &case.drawing;
        let mut lent = (vec![7; *solid], vec![7; case.slopes], vec![7; *work]);
        core(tape, case.drawing.core_grid(), &mut lent);
        let mut without = (vec![7u16; *solid], vec![7; *work]);
        assert_eq!(call::tile(tape, grid, &mut without.0, &mut without.1), said);
        assert_eq!((&lent.0, &lent.2), (&without.0, &without.1));
        let mut without = (vec![7u16; *solid], vec![7; *work]);
        assert_eq!(answer(raw::tile_solid(tape, case.drawing.core_grid(), &mut without.0, &mut without.1)), said);
        assert_eq!((&lent.0, &lent.2), (&without.0, &without.1));
        seen += lent.1.iter().any(|&slope| slope != 0) as u64;
    }
    assert!(cases < 1_000 || seen > cases / 3, "{seen} of {cases} drawings have slopes");
}

/// Slopes from the tape that a region has equal those from the full tape, at any of its samples: the slow ones, of
/// tapes shortened for a region and again for one inside it.
#[test]
fn short_tapes_have_the_same_slopes() {
    let mut r = Random::seeded("short_tapes_have_the_same_slopes", 0x5EED_0067);
    let mut shorter = 0;
    for _ in 0..cases(3_000) {
        let Drawing { tape, grid, .. } = Sloping::random(&mut r).drawing;
        let tape = Tape::from_bytes(&tape).expect("an accepted tape");
        let (mut short, mut first, mut last) = (tape.clone(), [0; 3], grid.sizes.map(|n| n - 1));
        for _ in 0..3 {
            for axis in 0..3 {
                let ends = [0; 2].map(|_| r.within(first[axis] as i64, last[axis] as i64) as u32);
                (first[axis], last[axis]) = (ends[0].min(ends[1]), ends[0].max(ends[1]));
            }
            short = short.shortened(&short.range_over(grid.axes(true, first, last)).1);
            for _ in 0..4 {
                let index = [0, 1, 2].map(|axis| r.within(first[axis] as i64, last[axis] as i64) as u32);
                let sample = grid.sample_at(true, index);
                assert_eq!(slopes::at(&short, sample), slopes::at(&tape, sample), "{tape:?} at {sample:?}");
            }
        }
        shorter += (short.clauses.len() < tape.clauses.len()) as u64;
    }
    assert!(shorter > cases(3_000) / 4, "{shorter} tapes became shorter");
}

#[test]
fn damaged_drawings() {
    let cases = cases(2_000);
    let mut r = Random::seeded(&format!("damaged_drawings: {cases} cases"), 0x5EED_0062);
    let mut noise = Random::new(0x5EED_0063);
    for _ in 0..cases {
        compared(&Sloping::damaged(&mut r), &mut noise);
    }
}

/// Lines 1 to 11, 12 for the picture or the slopes, 13; each alone and any two at once.
#[test]
fn refusals() {
    let mut noise = Random::seeded("refusals", 0x5EED_0064);
    for slots in [SLOTS, WIDE_SLOTS] {
        let mut wrongs = tape_wrongs(slots, |s: &mut Sloping| &mut s.drawing.tape);
        wrongs.push(wrong(10, |s: &mut Sloping| s.drawing.grid.sizes[2] = 0));
        wrongs.extend(grid_wrongs(|s: &mut Sloping| &mut s.drawing.grid));
        wrongs.push(wrong(11, |s: &mut Sloping| s.drawing.grid.steps[2] = 0));
        for (picture, slopes) in [(44, 135), (46, 135), (0, 0), (44, 132), (45, 134), (45, 136), (45, 45), (45, 0)] {
            wrongs.push(wrong(12, move |s: &mut Sloping| (s.drawing.solid, s.slopes) = (picture, slopes)));
        }
        wrongs.push(wrong(13, |s: &mut Sloping| s.drawing.work = 32_767));
        wrongs.push(wrong(13, |s: &mut Sloping| s.drawing.work = 0));
        let good = Sloping::new(Drawing { tape: tape_of(slots), ..good_drawing() });
        assert_eq!(compared(&good, &mut noise).number, 0);
        try_all(&good, &wrongs, |case, expected| assert_eq!(compared(case, &mut noise), expected, "{case:?}"));
    }
}

#[test]
fn planted_faults_are_caught() {
    for &fault in Fault::ALL {
        let mut r = Random::seeded(&format!("{fault:?}"), 0x5EED_0065);
        let mut noise = Random::new(0x5EED_0066);
        let mut case = |i: u64| if i % 4 == 3 { Sloping::damaged(&mut r) } else { Sloping::random(&mut r) };
        let mut differs = |case: Sloping| {
            let planted = |tape: &[u8], grid: &Grid, (picture, slopes, work): &mut Lent| {
                slopes::faulty(fault, tape, grid, picture, slopes, work)
            };
            case.compare(&mut noise, core, planted).is_err()
        };
        assert!((0..2_000).any(|i| differs(case(i))), "{fault:?} is not caught");
    }
}
