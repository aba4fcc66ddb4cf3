//! The probe against the slow one: the request's figures, random tapes and points, refusals, planted faults.

use crate::refusals::{SLOTS, WIDE_SLOTS, tape_of, tape_wrongs, try_all, wrong};
use checks::compare::answer;
use checks::lists::List;
use checks::probe::{Probing, axis_tape};
use checks::random::cases;
use layers::raw;
use slow::call::Answer;
use slow::probe::{self, Fault, Probed};

/// The core's probe.
pub fn core(tape: &[u8], [x, y, z]: [f64; 3]) -> Probed {
    let said = raw::probe(tape, raw::Point { x, y, z });
    Probed { answer: answer(said.answer), side: said.side, bits: said.value.to_bits() }
}

fn compared(case: &Probing) -> Probed {
    case.compare(core, probe::probe).unwrap_or_else(|e| panic!("{e}"))
}

/// What comes back: the number, the side and the value.
fn said(case: &Probing) -> (u8, u8, f64) {
    let Probed { answer, side, bits } = compared(case);
    assert_eq!((answer.place, answer.count), (0, 0));
    (answer.number, side, f64::from_bits(bits))
}

#[test]
fn figures() {
    let clauses = vec![[1, 0, 0, 0, 0], [0, 1, 0, 0, 131_072], [10, 0, 0, 1, 0]];
    let tape = List { slots: 2, clauses }.tape();
    let at = |x: f64| said(&Probing { tape: tape.clone(), point: [x, 0.0, 0.0] });
    assert_eq!(at(1.99999), (0, 1, -1.52587890625e-5));
    assert_eq!(at(2.00001), (0, 3, 0.0));
    assert_eq!(at(-0.0), (0, 1, -2.0));
}

/// Each axis has its own coordinate, rounded down: the value in units, or line 20.
#[test]
fn coordinates() {
    let least = f64::from_bits(1);
    let figures = [
        (-0.0, Some(0.0)),
        (least, Some(0.0)),
        (-least, Some(-1.0)),
        (0.1, Some(6_553.0)),
        (-0.1, Some(-6_554.0)),
        (-1.5 / 65_536.0, Some(-2.0)),
        (32_767.0, Some(2_147_418_112.0)),
        (-32_767.0, Some(-2_147_418_112.0)),
        (f64::from_bits(0x40DF_FFBF_FFFF_FFFF), Some(2_147_418_111.0)),
        (f64::from_bits(0xC0DF_FFBF_FFFF_FFFF), Some(-2_147_418_112.0)),
        (f64::from_bits(0x40DF_FFC0_0000_0001), None),
        (f64::from_bits(0xC0DF_FFC0_0000_0001), None),
        (32_768.0, None),
        (f64::MAX, None),
        (f64::MIN, None),
        (f64::INFINITY, None),
        (f64::NEG_INFINITY, None),
        (f64::NAN, None),
        (-f64::NAN, None),
        (f64::from_bits(0x7FF0_0000_0000_0001), None),
    ];
    for axis in 0..3 {
        for (c, units) in figures {
            let mut point = [7.0, 8.0, 9.0];
            point[axis] = c;
            let expected = match units {
                None => (20, 0, 0.0),
                Some(0.0) => (0, 3, 0.0),
                Some(units) => (0, if units < 0.0 { 1 } else { 2 }, units / 65_536.0),
            };
            assert_eq!(said(&Probing { tape: axis_tape(axis), point }), expected, "{c:e} on axis {axis}");
        }
    }
}

#[test]
fn random_points() {
    let mut sides = [0u64; 4];
    let mut line_20 = 0;
    Probing::each("random_points", 0x5EED_0040, cases(40_000), |case| {
        let said = compared(case);
        sides[said.side as usize] += 1;
        line_20 += (said.answer.number == 20) as u64;
    });
    let all: u64 = sides.iter().sum();
    assert!(all < 1_000 || (line_20 > all / 20 && sides.iter().all(|&n| n > all / 20)), "{sides:?}, {line_20}");
}

/// Lines 1 to 9, then 20.
#[test]
fn refusals() {
    for slots in [SLOTS, WIDE_SLOTS] {
        let mut wrongs = tape_wrongs(slots, |p: &mut Probing| &mut p.tape);
        for axis in 0..3 {
            wrongs.push(wrong(20, move |p: &mut Probing| p.point[axis] = f64::NAN));
            wrongs.push(wrong(20, move |p: &mut Probing| p.point[axis] = f64::NEG_INFINITY));
            wrongs.push(wrong(20, move |p: &mut Probing| p.point[axis] = 32_767.000_000_001));
            wrongs.push(wrong(20, move |p: &mut Probing| p.point[axis] = -1e300));
        }
        let good = Probing { tape: tape_of(slots), point: [1.0, 2.0, 3.0] };
        assert_eq!(compared(&good).answer.number, 0);
        try_all(&good, &wrongs, |case, expected: Answer| {
            assert_eq!(compared(case), Probed { answer: expected, side: 0, bits: 0 }, "{case:?}");
        });
    }
}

#[test]
fn planted_faults_are_caught() {
    for &fault in Fault::ALL {
        let mut differ = 0;
        Probing::each(&format!("{fault:?}"), 0x5EED_0041, 2_000, |case| {
            differ += case.compare(core, |t, p| probe::faulty(fault, t, p)).is_err() as u64;
        });
        assert!(differ > 0, "{fault:?} is not caught");
    }
}
