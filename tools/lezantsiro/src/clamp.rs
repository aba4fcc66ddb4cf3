//! Whether values can clamp on the plate. The core's values end at ±2,147,483,647 units, just short of ±32,768; what
//! goes beyond stays at the end, and the picture is then not the formula's. So before drawing the tape is run over the
//! plate's ranges in wide numbers that do not clamp. Ranges are wider than what the formula has, so this errs on the
//! side of warning; boxes that look wrong are cut smaller before anything is said.

use crate::part::Part;
use crate::units::{Fraction, GREATEST};
use layers::{Clause, Opcode};
use rayon::prelude::*;

/// A range of values, in units.
pub type Range = [i128; 2];

/// Beyond this a wide number is as good as endless: its product with another still fits 128 bits.
const ENDLESS: i128 = 1 << 62;

/// A clause that can pass the core's values, and how far.
#[derive(Clone, Debug, PartialEq, Eq)]
pub struct Clamped {
    pub clause: usize,
    /// The clause's range, where the first box was found.
    pub range: Range,
    /// The box, in units.
    pub near: [Range; 3],
}

/// How often a box is halved before it counts.
const HALVINGS: u32 = 10;

/// A box where some clause clamps, with that clause; `None` if none can. Layers are looked at one by one, the lowest
/// first: between two of them a divisor may be 0 that is 0 on none.
pub fn clamped(clauses: &[Clause], x: Range, y: Range, levels: &[i128]) -> Option<Clamped> {
    let ends = [levels.iter().min()?, levels.iter().max()?].map(|z| *z);
    first_beyond(clauses, [x, y, ends])?;
    levels.par_iter().find_map_first(|z| at_level(clauses, [x, y, [*z, *z]]))
}

/// The same for one layer. The first clause that looks wrong over all of it is tried before the others, since it is the
/// cause of what follows.
fn at_level(clauses: &[Clause], ranges: [Range; 3]) -> Option<Clamped> {
    let (first, _) = first_beyond(clauses, ranges)?;
    search(&clauses[..=first], ranges, HALVINGS).or_else(|| search(clauses, ranges, HALVINGS))
}

fn search(clauses: &[Clause], ranges: [Range; 3], halvings: u32) -> Option<Clamped> {
    let (clause, range) = first_beyond(clauses, ranges)?;
    match halves(ranges) {
        Some([low, high]) if halvings > 0 => {
            search(clauses, low, halvings - 1).or_else(|| search(clauses, high, halvings - 1))
        }
        _ => Some(sharpened(clauses, Clamped { clause, range, near: ranges })),
    }
}

/// The same clause in as small a box as halving leads to: a place to point at.
fn sharpened(clauses: &[Clause], found: Clamped) -> Clamped {
    let within = |part: [Range; 3]| {
        let (clause, range) = first_beyond(&clauses[..=found.clause], part)?;
        (clause == found.clause).then_some(Clamped { clause, range, near: part })
    };
    match halves(found.near).and_then(|[low, high]| within(high).or_else(|| within(low))) {
        Some(smaller) => sharpened(clauses, smaller),
        None => found,
    }
}

/// The box cut in two across its longest side; `None` for a single point.
fn halves(ranges: [Range; 3]) -> Option<[[Range; 3]; 2]> {
    let length = |axis: &usize| ranges[*axis][1] - ranges[*axis][0];
    let axis = (0..3).max_by_key(length).filter(|axis| length(axis) > 0)?;
    let [from, to] = ranges[axis];
    let middle = from + (to - from) / 2;
    let with = |range: Range| {
        let mut part = ranges;
        part[axis] = range;
        part
    };
    Some([with([from, middle]), with([middle + 1, to])])
}

/// The first clause whose range over the box goes beyond the core's values.
fn first_beyond(clauses: &[Clause], ranges: [Range; 3]) -> Option<(usize, Range)> {
    let mut slots = vec![[0, 0]; 256];
    for (index, clause) in clauses.iter().enumerate() {
        let range = range_of(clause, &slots, ranges);
        if range[0] < -GREATEST || range[1] > GREATEST {
            return Some((index, range));
        }
        slots[usize::from(clause.out)] = range;
    }
    None
}

fn range_of(clause: &Clause, slots: &[Range], ranges: [Range; 3]) -> Range {
    let (left, right) = (slots[usize::from(clause.left)], slots[usize::from(clause.right)]);
    let wide = match clause.opcode {
        Opcode::Constant => [clause.constant.into(); 2],
        Opcode::X => ranges[0],
        Opcode::Y => ranges[1],
        Opcode::Z => ranges[2],
        Opcode::Copy => left,
        Opcode::Negate => [-left[1], -left[0]],
        Opcode::Absolute => absolute(left),
        Opcode::Square => square(left),
        Opcode::Root => left.map(root),
        Opcode::Add => [left[0] + right[0], left[1] + right[1]],
        Opcode::Subtract => [left[0] - right[1], left[1] - right[0]],
        Opcode::Multiply if clause.left == clause.right => square(left),
        Opcode::Multiply => corners(left, right, |a, b| (a * b).div_euclid(65_536)),
        Opcode::Minimum => [left[0].min(right[0]), left[1].min(right[1])],
        Opcode::Maximum => [left[0].max(right[0]), left[1].max(right[1])],
        Opcode::Divide if right[0] > 0 => corners(left, right, |a, b| (a * 65_536).div_euclid(b)),
        Opcode::Divide if right[1] < 0 => corners(left, right, |a, b| (-a * 65_536).div_euclid(-b)),
        // by 0, or an opcode that is not known here: no bounds
        _ => [-ENDLESS, ENDLESS],
    };
    wide.map(|end| end.clamp(-ENDLESS, ENDLESS))
}

fn absolute([low, high]: Range) -> Range {
    let least = if low <= 0 && high >= 0 { 0 } else { low.abs().min(high.abs()) };
    [least, low.abs().max(high.abs())]
}

fn square(range: Range) -> Range {
    absolute(range).map(|end| (end * end).div_euclid(65_536))
}

/// The core's root: of the value times 65,536, rounded down; 0 of what is below 0.
fn root(value: i128) -> i128 {
    (value.max(0) as u128 * 65_536).isqrt() as i128
}

fn corners(left: Range, right: Range, value: impl Fn(i128, i128) -> i128) -> Range {
    let values = [(0, 0), (0, 1), (1, 0), (1, 1)].map(|(a, b)| value(left[a], right[b]));
    values[1..].iter().fold([values[0]; 2], |[low, high], value| [low.min(*value), high.max(*value)])
}

/// What a person is told of a clamped clause.
pub fn words(part: &Part, clamped: &Clamped) -> String {
    let name = part.clause_name(clamped.clause);
    let why = match part.tape.clauses()[clamped.clause].opcode {
        // the square of 181.01 is below 32,768, that of 181.02 is not
        Opcode::Square => format!("where |{}| > 181.01", part.operand_name(clamped.clause)),
        Opcode::Divide if clamped.range == [-ENDLESS, ENDLESS] => "where its divisor is near 0".to_string(),
        _ => format!("where it passes 32767.99: it reaches {}", reach(clamped.range)),
    };
    let near = clamped.near.map(|[from, to]| Fraction::of_units((from + to) / 2).decimal());
    let [x, y, z] = near;
    format!("{name} clamps {why}, for instance near x = {x}, y = {y}, z = {z}")
}

fn reach([low, high]: Range) -> String {
    let end = if high >= -low { high } else { low };
    if end.abs() == ENDLESS { "any size".to_string() } else { Fraction::of_units(end).decimal() }
}

#[cfg(test)]
mod tests {
    use super::*;
    use crate::random::Random;
    use layers::{Probe, Tape};

    fn mm(from: i128, to: i128) -> Range {
        [from * 65_536, to * 65_536]
    }

    /// What is said of a plate whose layers are a quarter apart.
    fn said(formula: &str, [x, y, z]: [Range; 3]) -> Option<String> {
        let part = Part::of_formula(formula).expect("a part");
        let levels: Vec<i128> = (z[0]..=z[1]).step_by(16_384).collect();
        clamped(&part.tape.clauses(), x, y, &levels).map(|clamped| words(&part, &clamped))
    }

    #[test]
    fn the_far_circle_is_named_with_its_byte() {
        let far = said("root(sqr(x) + sqr(y)) - 200", [mm(150, 342), mm(-60, 60), mm(0, 0)]).expect("clamped");
        assert!(far.starts_with("sqr(x) at byte 5 clamps where |x| > 181"), "{far}");
        let near = said("max(root(sqr(x)) - 200, z)", [mm(170, 342), mm(0, 0), mm(0, 0)]).expect("clamped");
        assert!(near.starts_with("sqr(x) at byte 9 clamps where |x| > 181.01, for instance near x = "), "{near}");
    }

    #[test]
    fn what_stays_within_is_let_pass() {
        let plate = [mm(-96, 96), mm(-60, 60), mm(0, 20)];
        for formula in ["root(sqr(x) + sqr(y)) - 24", "x*y*3 - z", "x/(z + 1)", "(x - y)*(x + y)", "32767"] {
            assert_eq!(said(formula, plate), None, "{formula}");
        }
        // over the whole plate the range of the product is 1.6 times too wide; on smaller boxes it is not
        assert_eq!(said("(x + 80)*(x - 80)*2", plate), None);
    }

    #[test]
    fn every_way_of_clamping_is_found() {
        let plate = [mm(-96, 96), mm(-60, 60), mm(0, 20)];
        // the divisor is 0 on no layer
        assert_eq!(said("x/(z - 2.1)", plate), None);
        for (formula, begin) in [
            ("x*y*6", "x*y*6 at byte 0"),
            ("1/z", "1/z at byte 0 clamps where its divisor is near 0"),
            ("x/(y - 3)", "x/(y - 3) at byte 0"),
            ("32767 + x", "32767 + x at byte 0"),
            ("-32767 - abs(x) - y", "-32767 - abs(x) at byte 0"),
            ("2 + sqr(sqr(x))", "sqr(sqr(x)) at byte 4 clamps where |sqr(x)| > 181.01"),
        ] {
            let words = said(formula, plate).expect("clamped");
            assert!(words.starts_with(begin), "{words}");
        }
    }

    /// The ranges hold what the core computes: at random points of the plate the value lies within.
    #[test]
    fn values_of_the_core_lie_within_the_ranges() {
        let seed = 41;
        println!("seed {seed}");
        let mut random = Random::new(seed);
        for formula in ["root(sqr(x) - y) - z*y", "x/(z + 2) - abs(y)*0.3", "max(x*x, min(-y, z))", "-(x/(-3 - z))*y"] {
            let tape = Tape::from_text(formula).expect("a tape");
            let clauses = tape.clauses();
            for _ in 0..500 {
                let corner = [0, 1, 2].map(|_| random.below(100 * 65_536) as i128 - 50 * 65_536);
                let side = random.below(9 * 65_536) as i128;
                let ranges = corner.map(|from| [from, from + side]);
                let mut slots = vec![[0, 0]; 256];
                clauses.iter().for_each(|clause| slots[usize::from(clause.out)] = range_of(clause, &slots, ranges));
                let range = slots[usize::from(clauses[clauses.len() - 1].out)];
                let point = ranges.map(|[from, _]| from + random.below(side as u64 + 1) as i128);
                let [x, y, z] = point.map(|units| units as f64 / 65_536.0);
                let value = match tape.probe(x, y, z).expect("a value") {
                    Probe::Inside(value) | Probe::Outside(value) => (value * 65_536.0) as i128,
                    Probe::Surface => 0,
                };
                let within = range[0] <= value && value <= range[1];
                assert!(within || range[0] < -GREATEST || range[1] > GREATEST, "{formula} at {point:?}");
            }
        }
    }
}
