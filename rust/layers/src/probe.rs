//! The formula at a point.

use crate::raw::{self, Point, Probed};
use crate::{Refusal, Tape};

/// Where a point lies, with the formula's value there. The value is exact: a whole number of units of 1/65,536.
#[derive(Clone, Copy, Debug, PartialEq)]
pub enum Probe {
    /// In the part; the value is below 0.
    Inside(f64),
    /// Outside the part; the value is above 0.
    Outside(f64),
    /// On the surface: the value is 0, which is no material.
    Surface,
}

impl Tape {
    /// The formula at the point (x, y, z), each coordinate rounded down to a unit of 1/65,536.
    ///
    /// A coordinate that is not a number, infinite, or above 32,767 in magnitude is
    /// [`Refusal::CoordinateOutOfRange`]. The floating-point state is as the ABI has it: where C code of the same thread
    /// has set flush-to-zero or denormals-are-zero, −1e-310 is not rounded down but taken for 0.
    ///
    /// ```
    /// use layers::{fixed, Clause, Probe, Refusal, Tape};
    ///
    /// // the part x − 2
    /// let tape = Tape::from_clauses(2, &[Clause::x(0), Clause::constant(1, fixed(2.0)), Clause::subtract(0, 0, 1)])?;
    /// assert_eq!(tape.probe(0.5, 0.0, 0.0)?, Probe::Inside(-1.5));
    /// assert_eq!(tape.probe(2.25, 0.0, 0.0)?, Probe::Outside(0.25));
    ///
    /// // 2.00001 lies less than a unit above 2, 1.99999 less than a unit below
    /// assert_eq!(tape.probe(2.00001, 0.0, 0.0)?, Probe::Surface);
    /// assert_eq!(tape.probe(1.99999, 0.0, 0.0)?, Probe::Inside(-1.0 / 65_536.0));
    ///
    /// assert_eq!(tape.probe(0.0, f64::NAN, 0.0), Err(Refusal::CoordinateOutOfRange));
    /// # Ok::<(), Refusal>(())
    /// ```
    pub fn probe(&self, x: f64, y: f64, z: f64) -> Result<Probe, Refusal> {
        let Probed { answer, side, value } = raw::probe(self.as_bytes(), Point { x, y, z });
        answer.into_result()?;
        Ok(match side {
            1 => Probe::Inside(value),
            2 => Probe::Outside(value),
            3 => Probe::Surface,
            side => panic!("the core returned the side {side}, which it does not have"),
        })
    }
}

#[cfg(test)]
mod tests {
    use super::*;
    use crate::{Clause, fixed};

    fn minus_two() -> Tape {
        Tape::from_clauses(2, &[Clause::x(0), Clause::constant(1, fixed(2.0)), Clause::subtract(0, 0, 1)]).unwrap()
    }

    /// The unit that a coordinate is rounded down to, by the part x; none where it is refused.
    fn unit(c: f64) -> Option<i64> {
        let tape = Tape::from_clauses(1, &[Clause::x(0)]).unwrap();
        match tape.probe(c, 0.0, 0.0) {
            Ok(Probe::Inside(value)) => Some((value * 65_536.0) as i64).filter(|&units| units < 0),
            Ok(Probe::Outside(value)) => Some((value * 65_536.0) as i64).filter(|&units| units > 0),
            Ok(Probe::Surface) => Some(0),
            Err(refusal) => {
                assert_eq!(refusal, Refusal::CoordinateOutOfRange);
                None
            }
        }
    }

    #[test]
    fn figures_of_the_request() {
        let rows: [(f64, Option<i64>); 14] = [
            (-0.0, Some(0)),
            (5e-324, Some(0)),
            (-5e-324, Some(-1)),
            (0.1, Some(6_553)),
            (-0.1, Some(-6_554)),
            (-1.5 / 65_536.0, Some(-2)),
            (32_767.0, Some(2_147_418_112)),
            (-32_767.0, Some(-2_147_418_112)),
            (f64::from_bits(0x40DF_FFC0_0000_0001), None),
            (f64::from_bits(0x40DF_FFBF_FFFF_FFFF), Some(2_147_418_111)),
            (f64::from_bits(0xC0DF_FFBF_FFFF_FFFF), Some(-2_147_418_112)),
            (f64::NAN, None),
            (f64::INFINITY, None),
            (f64::NEG_INFINITY, None),
        ];
        for (c, expected) in rows {
            assert_eq!(unit(c), expected, "{c:e}");
        }
        let tape = minus_two();
        assert_eq!(tape.probe(1.99999, 0.0, 0.0), Ok(Probe::Inside(-1.52587890625e-5)));
        assert_eq!(tape.probe(2.00001, 0.0, 0.0), Ok(Probe::Surface));
        assert_eq!(tape.probe(-0.0, 0.0, 0.0), Ok(Probe::Inside(-2.0)));
    }

    /// Each coordinate is its own, and each is tested.
    #[test]
    fn every_axis_counts() {
        let clauses = [Clause::x(0), Clause::y(1), Clause::subtract(0, 0, 1), Clause::z(1), Clause::subtract(0, 0, 1)];
        let tape = Tape::from_clauses(2, &clauses).unwrap();
        assert_eq!(tape.probe(8.0, 2.0, 1.0), Ok(Probe::Outside(5.0)));
        for (x, y, z) in [(4e4, 0.0, 0.0), (0.0, -4e4, 0.0), (0.0, 0.0, f64::NAN)] {
            assert_eq!(tape.probe(x, y, z), Err(Refusal::CoordinateOutOfRange));
        }
    }

    /// The tape is tested first, and no further figure comes with a refusal.
    #[test]
    fn the_tape_comes_first() {
        let point = Point { x: f64::NAN, y: 0.0, z: 0.0 };
        let tape = minus_two();
        let mut bytes = tape.as_bytes().to_vec();
        let probed = raw::probe(&bytes, point);
        assert_eq!((probed.answer.number, probed.answer.place, probed.answer.count), (20, 0, 0));
        assert_eq!((probed.side, probed.value.to_bits()), (0, 0));
        bytes[20] = 99;
        let probed = raw::probe(&bytes, point);
        assert_eq!((probed.answer.number, probed.answer.place, probed.answer.count), (5, 1, 0));
        assert_eq!((probed.side, probed.value.to_bits()), (0, 0));
        assert_eq!(raw::probe(&[], point).answer.number, 1);
    }
}
