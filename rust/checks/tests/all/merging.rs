//! Two tapes into one against the slow side: the request's figure, random pairs, refusals, planted faults.

use crate::refusals::{SLOTS, WIDE_SLOTS, Wrong, tape_of, tape_wrongs, try_all, wrong};
use checks::drawing::Drawing;
use checks::grids;
use checks::lists::List;
use checks::merging::Merging;
use checks::random::{Random, cases};
use layers::raw;
use slow::call::Answer;
use slow::draw::Grid;
use slow::fault;
use slow::merge::Fault;

fn compared(case: &Merging, r: &mut Random) -> Answer {
    case.compare(r).unwrap_or_else(|e| panic!("{e}"))
}

/// An axis, 1 to 3, less so many whole ones.
fn axis_less(axis: i32, ones: i32) -> Vec<u8> {
    let clauses = vec![[axis, 0, 0, 0, 0], [0, 1, 0, 0, 65_536 * ones], [10, 0, 0, 1, 0]];
    List { slots: 2, clauses }.tape()
}

/// The core's tape of both.
fn merged(case: &Merging) -> Vec<u8> {
    let mut out = vec![0xA5; case.out];
    assert_eq!(raw::merge_tapes(&case.first, &case.second, &mut out).number, 0);
    out
}

#[test]
fn figure() {
    let case = Merging::new(axis_less(1, 2), axis_less(2, 1));
    assert_eq!(compared(&case, &mut Random::new(1)), Answer { number: 0, place: 0, count: 0 });
    let tape = merged(&case);
    assert_eq!((tape[3], tape[4], &tape[68..]), (4, 7, &[0x43, 0x4C, 0x0C, 0, 0, 2, 0, 0, 0, 0][..]));
    let grid = raw::Grid { depth: 0, ..raw::Grid::flat(3, 2) };
    let (mut picture, mut work) = ([9; 2], [9; raw::WORK]);
    let said = raw::tile_flat(&tape, grid, &mut picture, &mut work);
    assert_eq!((said.number, said.count, picture), (0, 56, [0xE0, 0xC0]));
}

#[test]
fn random_pairs() {
    let mut r = Random::seeded("random_pairs", 0x5EED_0050);
    let (mut done, mut large, mut second_edition) = (0, 0, 0);
    let cases = cases(6000);
    for i in 0..cases {
        let case = if i % 40 == 0 { Merging::limits(&mut r) } else { Merging::random(&mut r) };
        match compared(&case, &mut r).number {
            0 => {
                done += 1;
                second_edition += (merged(&case)[2] == 2) as u64;
            }
            21 => large += 1,
            number => panic!("{number}: {case:?}"),
        }
    }
    println!("random_pairs: {done} done, {second_edition} of edition 02, {large} too large");
    let least = done.min(10 * large).min(10 * second_edition);
    assert!(cases < 1000 || least > cases / 4, "{done}, {large}, {second_edition}");
}

/// A merged tape is drawn as the slow drawing has it, by tiles too.
#[test]
fn merged_tapes_are_drawn() {
    let mut r = Random::seeded("merged_tapes_are_drawn", 0x5EED_0051);
    for _ in 0..cases(300) {
        let case = Merging::random(&mut r);
        if compared(&case, &mut r).number == 0 {
            let grid: Grid = if r.one_in(2) { grids::wild(&mut r, 40) } else { grids::tame(&mut r, 40) };
            let drawing = Drawing::new(merged(&case), grid);
            drawing.compare(&mut r).unwrap_or_else(|e| panic!("{e}"));
        }
    }
}

/// Each number from 0 to 9 is met, and 14; 21 is by the pairs that are not damaged.
#[test]
fn damaged_pairs() {
    let mut r = Random::seeded("damaged_pairs", 0x5EED_0052);
    let cases = cases(6000);
    let mut met = [0; 22];
    for _ in 0..cases {
        met[compared(&Merging::damaged(&mut r), &mut r).number as usize] += 1;
    }
    println!("damaged_pairs: answers by number: {met:?}");
    assert!((0..=9).chain([14]).all(|number| met[number] >= cases / 400), "answers by number: {met:?}");
}

/// The head of a tape counts so many slots that no other goes with it.
fn widen(tape: &mut [u8]) {
    tape[2..4].copy_from_slice(&[2, 128]);
}

/// Lines 1 to 9 of the first tape, then of the second, then 21, then 14: each alone and any two at once.
#[test]
fn refusals() {
    let mut r = Random::seeded("merging: refusals", 0x5EED_0053);
    let lengths = || -> Vec<Wrong<Merging>> {
        // two tapes of five clauses take 118 bytes; what is put last counts, so that no two undo each other
        let puts: [fn(&mut Merging); 5] =
            [|m| m.out = 117, |m| m.out = 119, |m| m.out = 108, |m| m.out = 128, |m| m.out = 0];
        puts.map(|put| wrong(14, put)).into()
    };
    let with = |tape: Vec<Wrong<Merging>>, large: fn(&mut Merging)| -> Vec<Wrong<Merging>> {
        tape.into_iter().chain([wrong(21, large)]).chain(lengths()).collect()
    };
    for (slots, others) in [(SLOTS, SLOTS), (SLOTS, WIDE_SLOTS), (WIDE_SLOTS, SLOTS)] {
        let good = Merging::new(tape_of(slots), tape_of(others));
        assert_eq!(compared(&good, &mut r).number, 0);
        let first = || tape_wrongs(slots, |m: &mut Merging| &mut m.first);
        let second = || tape_wrongs(others, |m: &mut Merging| &mut m.second);
        let wrongs = [
            first().into_iter().chain(second()).collect(),
            with(first(), |m| widen(&mut m.second)),
            with(second(), |m| widen(&mut m.first)),
        ];
        for wrongs in wrongs {
            try_all(&good, &wrongs, |case, expected: Answer| assert_eq!(compared(case, &mut r), expected, "{case:?}"));
        }
    }
}

/// One buffer lent as both tapes.
#[test]
fn a_tape_with_itself() {
    let mut r = Random::seeded("a_tape_with_itself", 0x5EED_0054);
    for _ in 0..cases(200) {
        let tape = Merging::random(&mut r).first;
        let case = Merging::new(tape.clone(), tape);
        let mut out = r.bytes(case.out);
        let said = raw::merge_tapes(&case.first, &case.first, &mut out);
        assert_eq!(said.number, compared(&case, &mut r).number);
        assert!(said.number != 0 || out == merged(&case));
    }
}

#[test]
fn planted_faults_are_caught() {
    for &fault in Fault::ALL {
        let (mut r, mut noise) = (Random::seeded(&format!("{fault:?}"), 0x5EED_0055), Random::new(0x5EED_0056));
        let caught = fault::with(fault, || {
            (0..400).any(|i| {
                let case = if i % 4 == 0 { Merging::limits(&mut r) } else { Merging::random(&mut r) };
                case.compare(&mut noise).is_err()
            })
        });
        assert!(caught, "{fault:?} is not caught");
    }
}
