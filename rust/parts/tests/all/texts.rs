//! Formulas as text: what a part's text means, by the slow reader, and its tape by the core's.

use crate::common::{Random, value_at};
use layers::{ONE, Opcode, Tape};
use parts::examples::designs;
use parts::formula::{Formula, Id};
use parts::text::{number, text};
use slow::text::{tape, tree};

/// The parts whose trees have few enough clauses, in which shared nodes count once for each use.
const SMALL: [&str; 4] = ["bracket", "gear", "housing", "flange"];

/// How far a text's value may lie from the part's own: its numbers have four decimals.
const NEAR: i128 = ONE as i128 / 100;

#[test]
fn every_part_has_a_text() {
    let mut random = Random(5);
    for design in designs() {
        let text = design.text();
        let tree = tree(text.as_bytes()).unwrap_or_else(|e| panic!("{}: {e:?}", design.name));
        let tape = tape(text.as_bytes(), None);
        assert_eq!(tape.as_ref().err().map(|e| e.number), (!SMALL.contains(&design.name)).then_some(19));
        let read = Tape::from_text(&text).map_err(|e| e.refusal().number());
        let expected = tape.as_ref().map(|tape| tape.to_bytes()).map_err(|e| e.number);
        assert!(read.map(|tape| tape.as_bytes().to_vec()) == expected, "{}", design.name);
        let mut formula = Formula::default();
        let result = design.shape.formula(&mut formula);
        for sample in [0; 300].map(|_| random.sample(40 << 16)) {
            let meant = tree.meaning(sample);
            let apart = (meant - value_at(&formula, result, sample)).abs();
            assert!(apart <= NEAR, "{}: {apart} units apart at {sample:?}", design.name);
            assert!(tape.as_ref().map_or(true, |tape| tape.value_at(sample) == meant));
        }
    }
}

/// The value of a number.
fn read(number: &str) -> i32 {
    tape(number.as_bytes(), None).expect("a number").clauses[0].constant
}

#[test]
fn numbers() {
    let values = [0, 1, 6, 65_529, 65_535, 65_536, 98_304, 655_360, 2_147_483_647];
    let texts = ["0", "0", "0.0001", "0.9999", "1", "1", "1.5", "10", "32767.9999"];
    assert_eq!(values.map(number), texts);
    for value in (0..200_000).chain(2_147_400_000..2_147_450_000) {
        assert!(read(&number(value)).abs_diff(value as i32) <= 3, "{value}");
    }
}

/// A formula of operations on nodes picked at random, and its last node; its constants are numbers of a text.
fn tangle(random: &mut Random, nodes: usize) -> (Formula, Id) {
    let mut formula = Formula::default();
    let mut made = vec![formula.axis(0), formula.axis(1), formula.axis(2)];
    for _ in 0..nodes {
        let op = Opcode::ALL[random.below(Opcode::ALL.len() as u64) as usize];
        let [a, b] = [0; 2].map(|_| made[random.below(made.len() as u64) as usize]);
        made.push(match op.reads() {
            0 => formula.constant(read(&number(random.below(1 << 24) as u32))),
            1 => formula.unary(op, a),
            _ => formula.binary(op, a, b),
        });
    }
    (formula, *made.last().unwrap())
}

#[test]
fn texts_mean_what_their_formulas_do() {
    let mut random = Random(6);
    let mut within = 0;
    for _ in 0..2_000 {
        let nodes = 1 + random.below(20) as usize;
        let (formula, result) = tangle(&mut random, nodes);
        let text = text(&formula, result);
        let Ok(tree) = tree(text.as_bytes()) else { continue };
        within += 1;
        for sample in [0; 5].map(|_| random.sample(100 << 16)) {
            assert_eq!(tree.meaning(sample), value_at(&formula, result, sample), "{text}");
        }
    }
    assert!(within > 1_500, "{within}");
}
