//! What a tree means at a sample, in whole numbers with the core's own arithmetic, and what a number means. It is
//! computed on the tree and shares nothing with the ways by which the tree becomes a tape, so that the two can be
//! compared.

use super::{Angle, Extreme, Kind, Tree, Wrong};
pub use super::{Binary, Unary};
use std::collections::HashMap;
use std::rc::Rc;

/// The greatest value; the least is its negative.
pub const MOST: i128 = i32::MAX as i128;

/// Units of one.
const ONE: i128 = 65_536;

/// Numbers have four decimals.
const SCALE: f64 = 10_000.0;

/// A number's value in units: that of the nearest number of four decimals, rounded down.
pub fn units(number: f64) -> i32 {
    let scaled = (number.abs() * SCALE).round().min(32_768.0 * SCALE - 1.0);
    let value = (scaled as i128 * ONE).div_euclid(SCALE as i128);
    (if number < 0.0 { -value } else { value }) as i32
}

/// The number of a tree without x, y and z, as an angle or a power takes it.
pub fn number(tree: &Tree) -> Result<f64, Wrong> {
    let of = |tree: &Rc<Tree>| number(tree);
    Ok(match &tree.kind {
        Kind::Number(number) => *number,
        Kind::Axis(axis) => {
            let axis = ["x", "y", "z"][*axis];
            return Err(Wrong::new(
                tree.at,
                format_args!("sin and cos are of numbers alone, and this has {axis} in it"),
            ));
        }
        Kind::Negate(a) => -of(a)?,
        Kind::Unary(Unary::Absolute, a) => of(a)?.abs(),
        Kind::Unary(Unary::Square, a) => of(a)?.powi(2),
        Kind::Unary(Unary::Root, a) => of(a)?.max(0.0).sqrt(),
        Kind::Binary(Binary::Add, a, b) => of(a)? + of(b)?,
        Kind::Binary(Binary::Subtract, a, b) => of(a)? - of(b)?,
        Kind::Binary(Binary::Multiply, a, b) => of(a)? * of(b)?,
        Kind::Binary(Binary::Divide, a, b) => {
            let (a, by) = (of(a)?, of(b)?);
            if by == 0.0 {
                return Err(Wrong::new(b.at, "this number is 0, and divides"));
            }
            a / by
        }
        Kind::Extreme(extreme, of_all) => {
            let numbers: Result<Vec<f64>, Wrong> = of_all.iter().map(of).collect();
            numbers?.into_iter().reduce(|a, b| if extreme.takes(a, b) { a } else { b }).unwrap_or(0.0)
        }
        Kind::Power(a, power) => of(a)?.powi(*power as i32),
        Kind::Angle(angle, a) => sine(*angle, of(a)?),
    })
}

impl Extreme {
    fn takes<T: PartialOrd>(self, a: T, b: T) -> bool {
        match self {
            Extreme::Least => a <= b,
            Extreme::Greatest => a >= b,
        }
    }
}

/// The sine or cosine of an angle in degrees, exact at whole quarters.
pub fn sine(angle: Angle, degrees: f64) -> f64 {
    let turned = match angle {
        Angle::Sine => degrees,
        Angle::Cosine => degrees + 90.0,
    };
    let turned = turned.rem_euclid(360.0);
    match turned {
        0.0 | 180.0 => 0.0,
        90.0 => 1.0,
        270.0 => -1.0,
        _ => turned.to_radians().sin(),
    }
}

/// The value of a tree at a sample, both in units. Shared trees are computed once.
pub fn value(tree: &Rc<Tree>, sample: [i32; 3]) -> Result<i32, Wrong> {
    let mut known = HashMap::new();
    Ok(at(tree, sample, &mut known)? as i32)
}

fn at(tree: &Rc<Tree>, sample: [i32; 3], known: &mut HashMap<*const Tree, i128>) -> Result<i128, Wrong> {
    if let Some(value) = known.get(&Rc::as_ptr(tree)) {
        return Ok(*value);
    }
    let mut of = |tree: &Rc<Tree>| at(tree, sample, known);
    let value = match &tree.kind {
        Kind::Number(number) => units(*number).into(),
        Kind::Axis(axis) => sample[*axis].into(),
        Kind::Negate(a) => -of(a)?,
        Kind::Unary(unary, a) => unary.of(of(a)?),
        Kind::Binary(binary, a, b) => binary.of(of(a)?, of(b)?),
        Kind::Extreme(extreme, of_all) => {
            let mut most = of(&of_all[0])?;
            for tree in &of_all[1..] {
                let next = of(tree)?;
                most = if extreme.takes(most, next) { most } else { next };
            }
            most
        }
        Kind::Power(a, power) => raised(of(a)?, *power),
        Kind::Angle(angle, a) => units(sine(*angle, number(a)?)).into(),
    };
    known.insert(Rc::as_ptr(tree), value);
    Ok(value)
}

fn clamped(value: i128) -> i128 {
    value.clamp(-MOST, MOST)
}

/// A power as the squares and products that it is written as: rounding goes with them.
fn raised(a: i128, power: u32) -> i128 {
    match power {
        1 => a,
        _ if power.is_multiple_of(2) => Unary::Square.of(raised(a, power / 2)),
        _ => Binary::Multiply.of(raised(a, power - 1), a),
    }
}

impl Unary {
    /// Of a value, all in units.
    pub fn of(self, a: i128) -> i128 {
        match self {
            Unary::Absolute => a.abs(),
            Unary::Square => clamped((a * a).div_euclid(ONE)),
            Unary::Root => (a.max(0) * ONE).isqrt(),
        }
    }
}

impl Binary {
    /// Of two values, all in units.
    pub fn of(self, a: i128, b: i128) -> i128 {
        clamped(match self {
            Binary::Add => a + b,
            Binary::Subtract => a - b,
            Binary::Multiply => (a * b).div_euclid(ONE),
            Binary::Divide if b == 0 => a.signum() * MOST,
            // rounded down whatever the signs: the divisor's goes to the numerator
            Binary::Divide => (a * ONE * b.signum()).div_euclid(b.abs()),
        })
    }
}

#[cfg(test)]
mod tests {
    use super::super::read::read;
    use super::*;

    #[test]
    fn angles_are_degrees_and_exact_at_quarters() {
        let of = |text: &str| number(&read(text).expect(text));
        assert_eq!(
            [of("sin(90)"), of("cos(90)"), of("cos(180)"), of("sin(-90)")],
            [Ok(1.0), Ok(0.0), Ok(-1.0), Ok(-1.0)]
        );
        assert!((of("sin(30)").expect("a number") - 0.5).abs() < 1e-12);
        assert!((of("cos(360/7*2)").expect("a number") + 0.222_520_933_956).abs() < 1e-9);
        assert_eq!(of("max(1, 3, 2) + min(4, 2^3)^2/sqrt(16) - abs(-1)"), Ok(6.0));
        assert_eq!(of("sin(x)").map_err(|wrong| wrong.at), Err(4));
        assert_eq!(of("1/(2 - 2)").map_err(|wrong| wrong.at), Err(3));
    }

    #[test]
    fn units_are_those_of_the_nearest_four_decimals() {
        assert_eq!(
            [0.3, -0.3, 0.5, 0.00004, 0.00005, 40_000.0].map(units),
            [19_660, -19_660, 32_768, 0, 6, 2_147_483_641]
        );
    }
}
