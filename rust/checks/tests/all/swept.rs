//! The drawing of what is swept along a path against the slow one: the request's figures, random paths, refusals, planted
//! faults.

use crate::refusals::{SLOTS, WIDE_SLOTS, good_drawing, grid_wrongs, tape_of, tape_wrongs, try_all, wrong};
use crate::stack::mixed;
use checks::drawing::Drawing;
use checks::grids;
use checks::lists::List;
use checks::random::{Random, cases};
use checks::swept::Sweeping;
use layers::raw::{self, tile_swept as core};
use slow::call::Answer;
use slow::draw::Grid;
use slow::fault;
use slow::swept::Fault;

const ONE: i32 = 65_536;

fn compared(case: &Sweeping, noise: &mut Random) -> Answer {
    case.compare(noise, core).unwrap_or_else(|e| panic!("{e}"))
}

fn case(tape: &[u8], grid: Grid, path: &[i32]) -> Sweeping {
    Sweeping { drawing: Drawing::new(tape.to_vec(), grid), path: path.to_vec() }
}

fn number(tape: &[u8], grid: Grid, path: &[i32]) -> u8 {
    compared(&case(tape, grid, path), &mut Random::new(1)).number
}

/// The core's picture, where the slow call says the same.
fn drawn(tape: &[u8], grid: Grid, path: &[i32]) -> Vec<u16> {
    let case = case(tape, grid, path);
    assert_eq!(compared(&case, &mut Random::new(1)), Answer { number: 0, place: 0, count: 0 });
    let (mut picture, mut work) = (vec![7; case.drawing.solid], vec![7; raw::WORK]);
    core(tape, case.drawing.core_grid(), path, &mut picture, &mut work);
    picture
}

/// x less so many units.
fn x_less(units: i32) -> Vec<u8> {
    List { slots: 2, clauses: vec![[1, 0, 0, 0, 0], [0, 1, 0, 0, units], [10, 0, 0, 1, 0]] }.tape()
}

fn constant(value: i32) -> Vec<u8> {
    List { slots: 1, clauses: vec![[0, 0, 0, 0, value]] }.tape()
}

fn plain(width: u32, height: u32) -> Grid {
    Grid { sizes: [width, height, 0], origins: [0; 3], steps: [ONE; 3] }
}

#[test]
fn figures() {
    let part = x_less(2 * ONE);
    assert_eq!(drawn(&part, plain(3, 2), &[0, 0, ONE, 0]), [1, 1, 2, 1, 1, 2]);
    assert_eq!(drawn(&part, plain(3, 2), &[-6_553_600, 0, 0, 0, ONE, 5]), [2, 2, 3, 2, 2, 3]);
    assert_eq!(drawn(&part, plain(3, 2), &[-6_553_600, 0]), [0; 6]);
    for path in [&[][..], &[1], &[i32::MIN, 0], &[0, i32::MIN], &[0, 0, 0], &[0; 8_194], &[0; 8_193]] {
        assert_eq!(number(&part, plain(3, 2), path), 25, "{path:?}");
    }
}

/// 4,096 positions on several tiles, of which the last alone covers a pixel, or each covers one of its own.
#[test]
fn the_longest_paths() {
    let mut path = [-200 * ONE, 0].repeat(4_096);
    path[8_190] = 0;
    let mut last = vec![0; 130];
    last[0] = 4_096;
    assert_eq!(drawn(&x_less(ONE), plain(130, 1), &path), last);
    assert_eq!(number(&constant(0), plain(2, 1), &[0; 8_192]), 0);
    // a column that goes to the right by a unit each time, from the middle of the picture on
    let column = List { slots: 2, clauses: vec![[1, 0, 0, 0, 0], [6, 0, 0, 0, 0], [0, 1, 0, 0, 1], [10, 0, 0, 1, 0]] };
    let grid = Grid { sizes: [512, 2, 0], origins: [0; 3], steps: [1; 3] };
    let away: Vec<i32> = (0..4_096).flat_map(|k| [(256 + k) % 512, -k]).collect();
    let row: Vec<u16> = (0..512).map(|x| if x < 256 { 257 + x } else { x - 255 }).collect();
    assert_eq!(drawn(&column.tape(), grid, &away), [&row[..], &row].concat());
}

/// In wide numbers: −2³¹ is allowed where all samples are below 0, and no sample is moved past an end.
#[test]
fn offsets_at_the_ends() {
    let (least, most) = (-i32::MAX, i32::MAX);
    let x = List { slots: 1, clauses: vec![[1, 0, 0, 0, 0]] }.tape();
    let at = |origin: i32, size: u32| Grid { sizes: [size, 1, 0], origins: [origin, 0, 0], steps: [1; 3] };
    let rows = [
        (-1, 1, i32::MIN, 0),
        (0, 1, i32::MIN, 25),
        (-1, 2, i32::MIN, 25),
        (-512, 512, i32::MIN, 0),
        (-511, 512, i32::MIN, 25),
        (0, 512, most, 0),
        (-1, 512, most, 25),
        (most, 1, 0, 0),
        (most, 1, -1, 25),
        (most, 1, most, 0),
        (least, 1, 0, 0),
        (least, 1, 1, 25),
        (least, 1, i32::MIN, 0),
    ];
    for (origin, size, by, expected) in rows {
        assert_eq!(number(&x, at(origin, size), &[by, 0]), expected, "{size} from {origin} by {by}");
        let Grid { sizes, origins, steps } = at(origin, size);
        let upward = Grid { sizes: [1, sizes[0], 0], origins: [0, origins[0], 0], steps };
        assert_eq!(number(&x, upward, &[0, by]), expected, "{size} upward from {origin} by {by}");
    }
    assert_eq!(drawn(&x, at(-1, 1), &[i32::MIN, 0]), [0]);
    assert_eq!(drawn(&x, at(0, 2), &[most, 0]), [1, 1]);
    let great = Grid { sizes: [512, 512, 0], origins: [least; 3], steps: [8_396_800; 3] };
    let spare = most - 2_147_479_553;
    assert_eq!([-spare, -spare - 1].map(|by| number(&constant(-1), great, &[by, by])), [0, 25]);
}

/// The longest tapes, on tiles and regions of every kind, along a path forth and back.
#[test]
fn the_longest_tapes() {
    let grid = Grid { sizes: [66, 9, 0], origins: [-33_300, -4_300, 100], steps: [1000; 3] };
    let there = [[0, 0], [9_000, -3_000], [-20_000, 1_000], [4_321, 12]];
    let path: Vec<i32> = there.iter().chain(there.iter().rev()).copied().flatten().collect();
    for (slots, count) in [(128, 6144), (64, 1024), (65, 70)] {
        let picture = drawn(&mixed(slots, count).tape(), grid, &path);
        assert!(picture.contains(&0) && picture.contains(&1) && picture.iter().all(|&first| first <= 4));
    }
}

/// Many pixels are covered and many are not, by the first position and by later ones.
#[test]
fn random_paths() {
    let cases = cases(3_000);
    let mut r = Random::seeded(&format!("random_paths: {cases} cases"), 0x5EED_00A0);
    let mut noise = Random::new(0x5EED_00A1);
    let mut met = [0; 3];
    for _ in 0..cases {
        let case = Sweeping::random(&mut r);
        assert_eq!(compared(&case, &mut noise), Answer { number: 0, place: 0, count: 0 }, "{case:?}");
        let (mut picture, mut work) = (vec![7; case.drawing.solid], vec![7; raw::WORK]);
        core(&case.drawing.tape, case.drawing.core_grid(), &case.path, &mut picture, &mut work);
        let has = [picture.contains(&0), picture.contains(&1), picture.iter().any(|&first| first > 1)];
        met.iter_mut().zip(has).for_each(|(n, has)| *n += has as u64);
    }
    println!("random_paths: with pixels never covered, at first, later: {met:?}");
    assert!(cases < 1000 || met.iter().all(|&n| n > cases / 5), "{met:?}");
}

/// Depth and the third step of a flat grid are not read.
#[test]
fn unread_fields() {
    let mut r = Random::seeded("unread_fields", 0x5EED_00A2);
    for _ in 0..cases(100) {
        let case = Sweeping::random(&mut r);
        let mut other = case.clone();
        grids::unread(&mut r, &mut other.drawing.grid);
        let pictures = [&case, &other].map(|case| {
            let (mut picture, mut work) = (vec![7; case.drawing.solid], vec![7; raw::WORK]);
            let said = core(&case.drawing.tape, case.drawing.core_grid(), &case.path, &mut picture, &mut work);
            (said, picture)
        });
        assert!(pictures[0] == pictures[1], "{case:?}");
    }
}

/// Each number of the call's refusals is met, but 1, for a tape of less than 8 bytes, may not be.
#[test]
fn damaged_paths() {
    let cases = cases(2_500);
    let mut r = Random::seeded(&format!("damaged_paths: {cases} cases"), 0x5EED_00A3);
    let mut noise = Random::new(0x5EED_00A4);
    let mut met = [0; 26];
    for _ in 0..cases {
        met[compared(&Sweeping::damaged(&mut r), &mut noise).number as usize] += 1;
    }
    println!("damaged_paths: answers by number: {met:?}");
    let least = [0].into_iter().chain(2..=13).chain([25]).map(|number| met[number]).min().expect("a number");
    assert!(cases < 1000 || least > 0, "answers by number: {met:?}");
}

/// Lines 1 to 11, then 25, 12, 13: each alone and any two at once.
#[test]
fn refusals() {
    let mut noise = Random::seeded("swept: refusals", 0x5EED_00A5);
    for slots in [SLOTS, WIDE_SLOTS] {
        let mut wrongs = tape_wrongs(slots, |s: &mut Sweeping| &mut s.drawing.tape);
        wrongs.extend(grid_wrongs(|s: &mut Sweeping| &mut s.drawing.grid));
        for path in [&[][..], &[0], &[0, 0, 0], &[0; 8_193], &[0; 8_194], &[0, 0, i32::MIN, 0], &[0, i32::MAX]] {
            wrongs.push(wrong(25, move |s: &mut Sweeping| s.path = path.to_vec()));
        }
        wrongs.extend([44, 46, 0, 10].map(|len| wrong(12, move |s: &mut Sweeping| s.drawing.solid = len)));
        wrongs.extend([32_767, 0].map(|len| wrong(13, move |s: &mut Sweeping| s.drawing.work = len)));
        let drawing = Drawing { tape: tape_of(slots), ..good_drawing() };
        let good = Sweeping { drawing, path: vec![0, 0, 1000, -70_000, ONE, 5] };
        assert_eq!(compared(&good, &mut noise).number, 0);
        try_all(&good, &wrongs, |case, expected| assert_eq!(compared(case, &mut noise), expected, "{case:?}"));
    }
}

#[test]
fn planted_faults_are_caught() {
    for &planted in Fault::ALL {
        let mut r = Random::seeded(&format!("{planted:?}"), 0x5EED_00A6);
        let mut noise = Random::new(0x5EED_00A7);
        let mut differs = |i: u64| {
            let case = if i % 2 == 1 { Sweeping::damaged(&mut r) } else { Sweeping::random(&mut r) };
            fault::with(planted, || case.compare(&mut noise, core)).is_err()
        };
        assert!((0..300).any(&mut differs), "{planted:?} is not caught");
    }
}
