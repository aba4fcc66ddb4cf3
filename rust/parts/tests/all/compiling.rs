//! A tape tells what its formula tells, within its slots.

use crate::common::{Random, value_at};
use layers::{Clause, FIRST_EDITION_SLOTS, MAX_SLOTS, Opcode, Tape};
use parts::examples::designs;
use parts::formula::{Formula, Id};
use parts::slots::{TooBig, compile};

/// The tape's result at a sample, by the slow drawing.
fn run(tape: &Tape, sample: [i128; 3]) -> i128 {
    slow::tape::Tape::from_bytes(tape.as_bytes()).expect("an accepted tape").value_at(sample)
}

#[test]
fn parts_have_the_values_of_their_formulas() {
    let mut random = Random(1);
    for design in designs() {
        let mut formula = Formula::default();
        let result = design.shape.formula(&mut formula);
        // the chart needs some ninety
        for slots in [MAX_SLOTS, if design.name == "chart" { 96 } else { 32 }] {
            let tape = compile(&formula, result, slots).unwrap();
            for reach in [50 << 16, 50 << 16, 300 << 16, i32::MAX] {
                for sample in [0; 100].map(|_| random.sample(reach)) {
                    let expected = value_at(&formula, result, sample);
                    assert_eq!(run(&tape, sample), expected, "{} at {sample:?}", design.name);
                }
            }
        }
    }
}

/// A formula of operations on nodes picked at random, so that much is shared, and its last node.
fn tangle(random: &mut Random, nodes: usize) -> (Formula, Id) {
    let mut formula = Formula::default();
    let mut made = vec![formula.axis(0), formula.axis(1), formula.axis(2)];
    for _ in 0..nodes {
        let op = Opcode::ALL[random.below(Opcode::ALL.len() as u64) as usize];
        let a = made[random.below(made.len() as u64) as usize];
        let b = made[random.below(made.len() as u64) as usize];
        made.push(match op.reads() {
            0 => formula.constant(random.below(1 << 20) as i32 - (1 << 19)),
            1 => formula.unary(op, a),
            _ => formula.binary(op, a, b),
        });
    }
    (formula, *made.last().unwrap())
}

#[test]
fn tangled_formulas_keep_their_values_in_few_slots() {
    let mut random = Random(2);
    for _ in 0..2000 {
        let nodes = 1 + random.below(60) as usize;
        let (formula, result) = tangle(&mut random, nodes);
        let roomy = compile(&formula, result, MAX_SLOTS).unwrap();
        let tapes = (1..roomy.slots()).filter_map(|slots| compile(&formula, result, slots).ok());
        for tape in tapes.chain([roomy.clone()]) {
            let (count, least) = (tape.clause_count(), roomy.clause_count());
            assert!(count > least || (count == least && tape == roomy));
            for sample in [0; 5].map(|_| random.sample(100 << 16)) {
                assert_eq!(run(&tape, sample), value_at(&formula, result, sample));
            }
        }
    }
}

/// Every part but the chart is of edition 1, and does with half of its slots.
#[test]
fn half_the_slots_do_for_every_small_part() {
    let half = FIRST_EDITION_SLOTS / 2;
    for design in designs().iter().filter(|design| design.name != "chart") {
        assert_eq!(design.part().tape.edition(), 1, "{}", design.name);
        assert!(design.compiled(half).unwrap().slots() <= half, "{}", design.name);
    }
}

/// The chart needs more clauses than edition 1 has, and more slots, however many clauses it may take.
#[test]
fn the_chart_needs_edition_2() {
    let designs = designs();
    let chart = designs.iter().find(|design| design.name == "chart").unwrap();
    assert_eq!(chart.compiled(FIRST_EDITION_SLOTS), Err(TooBig::Slots));
    let tape = chart.part().tape;
    assert_eq!(tape.edition(), 2);
    assert!(tape.slots() >= 80 && (5900..=6144).contains(&tape.clause_count()));
}

/// x + 1 and x − 1 multiplied, and so on with 2, 3 ...: both factors wait for each other.
fn products(count: i32) -> (Formula, Id) {
    let mut formula = Formula::default();
    let x = formula.axis(0);
    let mut sum = x;
    for i in 1..=count {
        let (more, less) = (formula.less(x, -i), formula.less(x, i));
        let product = formula.binary(Opcode::Multiply, more, less);
        sum = formula.binary(Opcode::Add, sum, product);
    }
    (formula, sum)
}

#[test]
fn what_does_not_fit_is_turned_down() {
    let (formula, result) = products(10);
    assert_eq!(compile(&formula, result, 2), Err(TooBig::Slots));
    assert!(compile(&formula, result, 4).is_ok());
    // One load of x, five clauses a product.
    let (formula, result) = products(1228);
    assert_eq!(compile(&formula, result, MAX_SLOTS).unwrap().clause_count(), 6141);
    let (formula, result) = products(1229);
    assert_eq!(compile(&formula, result, MAX_SLOTS), Err(TooBig::Clauses(6146)));
}

#[test]
fn a_formula_of_one_node_is_one_clause() {
    let mut formula = Formula::default();
    let y = formula.axis(1);
    assert_eq!(compile(&formula, y, MAX_SLOTS), Ok(Tape::from_clauses(1, &[Clause::y(0)]).unwrap()));
}
