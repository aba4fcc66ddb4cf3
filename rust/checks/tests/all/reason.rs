//! The reason for a pixel against the slow one: the request's figures, random pixels, refusals, planted faults.

use crate::refusals::{SLOTS, WIDE_SLOTS, good_drawing, grid_wrongs, tape_of, tape_wrongs, try_all, wrong};
use crate::stack::mixed;
use checks::compare::answer;
use checks::drawing::Drawing;
use checks::grids;
use checks::lists::List;
use checks::random::{Random, cases};
use checks::reason::Asked;
use layers::raw;
use slow::call::Answer;
use slow::draw::Grid;
use slow::fault;
use slow::reason::{Fault, Reason};

/// The core's call.
pub fn core(drawing: &Drawing, x: u32, y: u32, work: &mut [u8]) -> Reason {
    let raw::Reason { answer: said, side, low, high, clauses } =
        raw::explain_pixel(&drawing.tape, drawing.core_grid(), x, y, work);
    Reason { answer: answer(said), side, low, high, clauses }
}

fn compared(case: &Asked, noise: &mut Random) -> Reason {
    case.compare(noise, core).unwrap_or_else(|e| panic!("{e}"))
}

fn refused(number: u8, place: u32) -> Reason {
    Reason { answer: Answer { number, place, count: 0 }, side: 0, low: 0, high: 0, clauses: 0 }
}

/// Side, ends and clauses of a pixel.
fn said(tape: &[u8], grid: Grid, x: u32, y: u32) -> (u32, i32, i32, u32) {
    let drawing = Drawing::new(tape.to_vec(), grid);
    let Reason { answer, side, low, high, clauses } = compared(&Asked { drawing, x, y }, &mut Random::new(1));
    assert_eq!(answer, Answer { number: 0, place: 0, count: 0 });
    (side, low, high, clauses)
}

fn plain(width: u32, height: u32) -> Grid {
    Grid { sizes: [width, height, 0], origins: [0; 3], steps: [65_536; 3] }
}

/// root((x − 60)² + (y − 40)²) − 30.
fn disc() -> Vec<u8> {
    let one = 65_536;
    let square = |axis: i32, slot: i32, middle: i32| {
        [[axis, slot, 0, 0, 0], [0, 2, 0, 0, middle * one], [10, slot, slot, 2, 0], [7, slot, slot, 0, 0]]
    };
    let rest = [[9, 0, 0, 1, 0], [8, 0, 0, 0, 0], [0, 1, 0, 0, 30 * one], [10, 0, 0, 1, 0]];
    List { slots: 3, clauses: [&square(1, 0, 60)[..], &square(2, 1, 40), &rest].concat() }.tape()
}

#[test]
fn figures() {
    assert_eq!(said(&disc(), plain(100, 70), 60, 40), (8, -1_933_312, -1_423_674, 12));
    assert_eq!(said(&disc(), plain(100, 70), 31, 40), (1, -98_017, -98_017, 12));
    for (x, y) in [(100, 0), (0, 70), (100, 70), (64 + 36, 69), (u32::MAX, 0), (0, u32::MAX), (u32::MAX, u32::MAX)] {
        let drawing = Drawing::new(disc(), plain(100, 70));
        assert_eq!(compared(&Asked { drawing, x, y }, &mut Random::new(1)), refused(23, 0), "{x}, {y}");
    }
}

/// Values at both ends of their range, the largest picture, the longest tapes, 0 on either side.
#[test]
fn extremes() {
    let m = i32::MAX;
    let x = List { slots: 1, clauses: vec![[1, 0, 0, 0, 0]] }.tape();
    let great = Grid { sizes: [512, 512, 0], origins: [-m; 3], steps: [8_396_800; 3] };
    assert_eq!(said(&x, great, 0, 511), (64, -2_143_285_247, -1_614_286_847, 1));
    assert_eq!(said(&x, great, 511, 0), (64, 1_618_481_153, 2_147_479_553, 1));
    let constants = |constant: i32| List { slots: 128, clauses: vec![[0, 127, 0, 0, constant]; 6144] }.tape();
    assert_eq!(said(&constants(-m), great, 511, 511), (64, -m, -m, 6144));
    assert_eq!(said(&constants(m), great, 0, 0), (64, m, m, 6144));
    let zero = Grid { sizes: [2, 1, 0], origins: [-1, 0, 0], steps: [1; 3] };
    assert_eq!([0, 1].map(|column| said(&x, zero, column, 0)), [(1, -1, -1, 1), (1, 0, 0, 1)]);
    let mut sides = Vec::new();
    for (slots, count) in [(128, 6144), (64, 1024), (65, 70), (3, 7)] {
        let grid = Grid { sizes: [512, 500, 0], origins: [-43_300, -43_300, 0], steps: [1000; 3] };
        let tape = mixed(slots, count).tape();
        sides.extend([(0, 0), (511, 0), (43, 43), (44, 40), (511, 499)].map(|(x, y)| said(&tape, grid, x, y).0));
    }
    assert!([64, 8, 1].iter().all(|side| sides.contains(side)), "{sides:?}");
}

/// All pixels of small drawings: the sign of the ends is what the core's own picture has.
#[test]
fn every_pixel() {
    let mut r = Random::seeded("every_pixel", 0x5EED_0080);
    let mut work = vec![0; raw::WORK];
    for _ in 0..cases(60) {
        let drawing = Drawing::flat(&mut r, 900);
        let (mut picture, [width, height, _]) = (vec![0; drawing.flat], drawing.grid.sizes);
        assert_eq!(raw::tile_flat(&drawing.tape, drawing.core_grid(), &mut picture, &mut work).number, 0);
        for (x, y) in (0..height).flat_map(|y| (0..width).map(move |x| (x, y))) {
            let reason = core(&drawing, x, y, &mut work);
            let byte = picture[y as usize * width.div_ceil(8) as usize + x as usize / 8];
            let material = byte & (0x80 >> (x % 8)) != 0;
            assert_eq!(
                (reason.answer.number, reason.high < 0, reason.low >= 0),
                (0, material, !material),
                "{x}, {y}: {reason:?}, {drawing:?}"
            );
        }
    }
}

/// Every side is met, with and without material, and short tapes.
#[test]
fn random_pixels() {
    let cases = cases(6_000);
    let mut r = Random::seeded(&format!("random_pixels: {cases} cases"), 0x5EED_0081);
    let mut noise = Random::new(0x5EED_0082);
    let (mut met, mut short) = ([[0; 2]; 3], 0);
    for _ in 0..cases {
        let case = Asked::random(&mut r);
        let reason = compared(&case, &mut noise);
        assert_eq!(reason.answer.number, 0, "{case:?}");
        let level = [64, 8, 1].iter().position(|&side| side == reason.side).expect("a side");
        met[level][(reason.high < 0) as usize] += 1;
        short += ((reason.clauses as usize) < case.drawing.tape.len() / 10) as u64;
    }
    println!("random_pixels: by side, without and with material: {met:?}; {short} of a short tape");
    let least = *met.iter().flatten().min().expect("six");
    assert!(cases < 1000 || least.min(short) > cases / 100, "{met:?}, {short}");
}

/// Depth and the third step of a flat grid are not read.
#[test]
fn unread_fields() {
    let mut r = Random::seeded("unread_fields", 0x5EED_0083);
    for _ in 0..cases(300) {
        let case = Asked::random(&mut r);
        let mut other = case.clone();
        grids::unread(&mut r, &mut other.drawing.grid);
        assert_eq!(compared(&other, &mut r), compared(&case, &mut r), "{case:?}");
    }
}

/// Each number of the call's refusals is met.
#[test]
fn damaged_pixels() {
    let cases = cases(5_000);
    let mut r = Random::seeded(&format!("damaged_pixels: {cases} cases"), 0x5EED_0084);
    let mut noise = Random::new(0x5EED_0085);
    let mut met = [0; 24];
    for _ in 0..cases {
        met[compared(&Asked::damaged(&mut r), &mut noise).answer.number as usize] += 1;
    }
    println!("damaged_pixels: answers by number: {met:?}");
    let least = (0..=11).chain([13, 23]).map(|number| met[number]).min().expect("a number");
    assert!(least >= cases / 1000, "answers by number: {met:?}");
}

/// Lines 1 to 11, then 23, then 13: each alone and any two at once.
#[test]
fn refusals() {
    let mut noise = Random::seeded("reason: refusals", 0x5EED_0086);
    for slots in [SLOTS, WIDE_SLOTS] {
        let mut wrongs = tape_wrongs(slots, |a: &mut Asked| &mut a.drawing.tape);
        wrongs.extend(grid_wrongs(|a: &mut Asked| &mut a.drawing.grid));
        for (x, y) in [(9, 0), (0, 5), (9, 5), (64, 4), (u32::MAX, 0), (8, u32::MAX)] {
            wrongs.push(wrong(23, move |a: &mut Asked| (a.x, a.y) = (x, y)));
        }
        wrongs.extend([32_767, 0].map(|len| wrong(13, move |a: &mut Asked| a.drawing.work = len)));
        let good = Asked { drawing: Drawing { tape: tape_of(slots), ..good_drawing() }, x: 8, y: 4 };
        assert_eq!(compared(&good, &mut noise).answer.number, 0);
        try_all(&good, &wrongs, |case, expected| {
            assert_eq!(compared(case, &mut noise), refused(expected.number, expected.place), "{case:?}");
        });
    }
}

#[test]
fn planted_faults_are_caught() {
    for &planted in Fault::ALL {
        let mut r = Random::seeded(&format!("{planted:?}"), 0x5EED_0087);
        let mut noise = Random::new(0x5EED_0088);
        let mut differs = || {
            let case = Asked::random(&mut r);
            fault::with(planted, || case.compare(&mut noise, core)).is_err()
        };
        assert!((0..2_000).any(|_| differs()), "{planted:?} is not caught");
    }
}
