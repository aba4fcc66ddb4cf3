//! The solid drawing with its tiles in an order of the caller's own, against the slow one: the request's figures, random
//! orders, refusals, planted faults.

use crate::refusals::{SLOTS, WIDE_SLOTS, grid_wrongs, tape_of, tape_wrongs, try_all, wrong};
use crate::stack::mixed;
use checks::compare::answer;
use checks::drawing::Drawing;
use checks::lists::List;
use checks::order::Ordered;
use checks::random::{Random, cases};
use layers::raw::{self, tile_solid_in_order as core};
use slow::call::Answer;
use slow::draw::Grid;
use slow::fault;
use slow::order::Fault;

fn compared(case: &Ordered, noise: &mut Random) -> Answer {
    case.compare(noise, core).unwrap_or_else(|e| panic!("{e}"))
}

/// The core's answer and heights, where the slow call says the same.
fn drawn(tape: Vec<u8>, grid: Grid, order: &[u16]) -> (Answer, Vec<u16>) {
    let case = Ordered { drawing: Drawing::new(tape, grid), order: order.to_vec() };
    let said = compared(&case, &mut Random::new(1));
    let (mut picture, mut work) = (vec![7; case.drawing.solid], vec![7; raw::WORK]);
    core(&case.drawing.tape, case.drawing.core_grid(), order, &mut picture, &mut work);
    (said, picture)
}

fn done(count: u64) -> Answer {
    Answer { number: 0, place: 0, count }
}

/// z less so many whole ones.
fn below(height: i32) -> Vec<u8> {
    List { slots: 2, clauses: vec![[3, 0, 0, 0, 0], [0, 1, 0, 0, 65_536 * height], [10, 0, 0, 1, 0]] }.tape()
}

fn plain(sizes: [u32; 3]) -> Grid {
    Grid { sizes, origins: [0; 3], steps: [65_536; 3] }
}

#[test]
fn figures() {
    let column = |order: &[u16]| drawn(below(100), plain([1, 1, 128]), order);
    assert_eq!(column(&[0, 1]), (done(21), vec![100]));
    assert_eq!(column(&[1, 0]), (done(24), vec![100]));
    let pair = |order: &[u16]| drawn(below(70), plain([2, 1, 130]), order);
    assert_eq!(pair(&[0, 1, 2]), (done(45), vec![70; 2]));
    assert_eq!(pair(&[2, 1, 0]), (done(48), vec![70; 2]));
    for wrong in [&[0, 0][..], &[0], &[0, 2], &[], &[1, 1], &[0, 1, 2], &[0, 1, 0], &[0, 65_535], &[256, 1]] {
        assert_eq!(column(wrong), (Answer { number: 12, place: 0, count: 0 }, vec![7]), "{wrong:?}");
    }
}

/// 512 tiles: those below a full one are hidden, if it came before them.
#[test]
fn the_largest_grid() {
    let full = || List { slots: 1, clauses: vec![[0, 0, 0, 0, -1]] }.tape();
    let down: Vec<u16> = (0..512).collect();
    let up: Vec<u16> = (0..512).rev().collect();
    let grid = plain([512; 3]);
    assert_eq!(drawn(full(), grid, &down), (done(64), vec![512; 512 * 512]));
    assert_eq!(drawn(full(), grid, &up), (done(512), vec![512; 512 * 512]));
    let wrongs = [(511, 512), (511, 510), (0, 0), (255, 65_535)].map(|(at, number)| {
        let mut order = up.clone();
        order[at] = number;
        order
    });
    for wrong in wrongs.iter().chain([&up[1..].to_vec(), &[&up[..], &[512]].concat(), &vec![0; 65_536]]) {
        assert_eq!(drawn(full(), grid, wrong).0.number, 12);
    }
}

/// The longest tapes, on several tiles, back to front.
#[test]
fn the_longest_tape() {
    let grid = Grid { sizes: [66, 3, 70], origins: [-33_300, -1_300, -35_300], steps: [1000; 3] };
    for (slots, count) in [(128, 6144), (64, 1024), (65, 70)] {
        let (said, picture) = drawn(mixed(slots, count).tape(), grid, &[3, 2, 1, 0]);
        assert_eq!(said.number, 0);
        assert!(picture.iter().any(|&height| height > 0));
    }
}

/// In any order the heights and the work buffer are those of the core's own walk, and in its order the count too.
#[test]
fn random_orders() {
    let cases = cases(1_500);
    let mut r = Random::seeded(&format!("random_orders: {cases} cases"), 0x5EED_0090);
    let mut noise = Random::new(0x5EED_0091);
    let (mut several, mut other_count) = (0, 0);
    for _ in 0..cases {
        let case = Ordered::random(&mut r);
        let said = compared(&case, &mut noise);
        assert_eq!(said.number, 0, "{case:?}");
        let (drawing, grid) = (&case.drawing, case.drawing.core_grid());
        let (mut heights, mut work) = (vec![7; drawing.solid], vec![7; drawing.work]);
        let walk = answer(raw::tile_solid(&drawing.tape, grid, &mut heights, &mut work));
        let (mut picture, mut other) = (vec![9; drawing.solid], vec![9; drawing.work]);
        core(&drawing.tape, grid, &case.order, &mut picture, &mut other);
        assert_eq!((&picture, &other), (&heights, &work), "{case:?}");
        assert!(!case.order.is_sorted() || said == walk, "{said:?}, not {walk:?}: {case:?}");
        several += (case.order.len() > 1) as u64;
        other_count += (said.count != walk.count) as u64;
    }
    println!("random_orders: {several} with several tiles, {other_count} with a count of their own");
    assert!(cases < 1000 || several.min(5 * other_count) > cases / 2, "{several}, {other_count}");
}

/// Each number of the call's refusals is met.
#[test]
fn damaged_orders() {
    let cases = cases(1_500);
    let mut r = Random::seeded(&format!("damaged_orders: {cases} cases"), 0x5EED_0092);
    let mut noise = Random::new(0x5EED_0093);
    let mut met = [0; 14];
    for _ in 0..cases {
        met[compared(&Ordered::damaged(&mut r), &mut noise).number as usize] += 1;
    }
    println!("damaged_orders: answers by number: {met:?}");
    assert!(cases < 1000 || met.iter().all(|&n| n > 0), "answers by number: {met:?}");
}

/// Lines 1 to 11, 12 for the picture, 12 for the list, 13: each alone and any two at once. The tile count of a refused
/// grid can be past 64 bits.
#[test]
fn refusals() {
    let mut noise = Random::seeded("order: refusals", 0x5EED_0094);
    for slots in [SLOTS, WIDE_SLOTS] {
        let mut wrongs = tape_wrongs(slots, |o: &mut Ordered| &mut o.drawing.tape);
        for sizes in [[0, 5, 3], [9, 5, 0], [9, 5, 513], [u32::MAX; 3]] {
            wrongs.push(wrong(10, move |o: &mut Ordered| o.drawing.grid.sizes = sizes));
        }
        wrongs.extend(grid_wrongs(|o: &mut Ordered| &mut o.drawing.grid));
        wrongs.push(wrong(11, |o: &mut Ordered| o.drawing.grid.steps[2] = 0));
        for pixels in [129, 131, 0] {
            wrongs.push(wrong(12, move |o: &mut Ordered| o.drawing.solid = pixels));
        }
        for list in [&[0, 0, 1, 2][..], &[3, 2, 1], &[1, 2, 3, 4], &[0, 1, 2, 3, 0], &[], &[0; 4], &[3, 2, 1, 512]] {
            wrongs.push(wrong(12, move |o: &mut Ordered| o.order = list.to_vec()));
        }
        wrongs.extend([32_767, 0].map(|len| wrong(13, move |o: &mut Ordered| o.drawing.work = len)));
        // four tiles, two along x and two along z, and 130 pixels
        let grid = Grid { sizes: [65, 2, 66], origins: [-300_000; 3], steps: [65_536; 3] };
        let good = Ordered { drawing: Drawing::new(tape_of(slots), grid), order: vec![2, 0, 3, 1] };
        assert_eq!(compared(&good, &mut noise).number, 0);
        try_all(&good, &wrongs, |case, expected| assert_eq!(compared(case, &mut noise), expected, "{case:?}"));
    }
}

#[test]
fn planted_faults_are_caught() {
    for &planted in Fault::ALL {
        let mut r = Random::seeded(&format!("{planted:?}"), 0x5EED_0095);
        let mut noise = Random::new(0x5EED_0096);
        let mut differs = |i: u64| {
            let case = if i % 2 == 1 { Ordered::damaged(&mut r) } else { Ordered::random(&mut r) };
            fault::with(planted, || case.compare(&mut noise, core)).is_err()
        };
        assert!((0..400).any(&mut differs), "{planted:?} is not caught");
    }
}
