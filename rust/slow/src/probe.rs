//! The probe: the formula at a point given as three f64 coordinates. Of a coordinate only the bits are looked at, and
//! the answer's f64 is put together of bits, so that no rounding of the machine's own has a part in it.

use crate::call::{Answer, answer};
use crate::tape::{Refused, Tape, refuse};

listed! {
    /// Faults that can be planted, one at a time.
    Fault {
        /// A coordinate is rounded toward 0.
        TowardZero,
        /// A coordinate that is a whole number of units becomes one less.
        WholeIsOneLess,
        /// Line 20 allows up to 32,768 in magnitude.
        LimitIs32768,
        /// The surface counts as inside.
        ZeroIsInside,
        /// Line 20 is tested before the tape.
        PointBeforeTape,
        /// The answer is the stored number divided by 32,768.
        DividedBy32768,
    }
}

/// What comes back: number, place and count; the side; the value's bits, those of 0 where there is none.
#[derive(Clone, Copy, Debug, PartialEq, Eq)]
pub struct Probed {
    pub answer: Answer,
    /// 0 refused, 1 inside, 2 outside, 3 surface.
    pub side: u8,
    pub bits: u64,
}

pub fn probe(tape: &[u8], point: [f64; 3]) -> Probed {
    probed(tape, point, None)
}

/// The same with a fault planted.
pub fn faulty(fault: Fault, tape: &[u8], point: [f64; 3]) -> Probed {
    probed(tape, point, Some(fault))
}

fn probed(tape: &[u8], point: [f64; 3], fault: Option<Fault>) -> Probed {
    match value_at(tape, point, fault) {
        Err(refused) => Probed { answer: answer(Err(refused)), side: 0, bits: 0 },
        Ok(value) => {
            let side = match value {
                0 if fault == Some(Fault::ZeroIsInside) => 1,
                0 => 3,
                _ if value < 0 => 1,
                _ => 2,
            };
            let places = if fault == Some(Fault::DividedBy32768) { 15 } else { 16 };
            Probed { answer: answer(Ok(0)), side, bits: bits_of(value, places) }
        }
    }
}

/// Lines 1 to 9, then 20, then the full tape's value at the rounded point.
fn value_at(tape: &[u8], point: [f64; 3], fault: Option<Fault>) -> Result<i128, Refused> {
    let rounded = || point.map(|c| rounded(c, fault));
    if fault == Some(Fault::PointBeforeTape) && rounded().contains(&None) {
        return refuse(20);
    }
    let tape = Tape::from_bytes(tape)?;
    match rounded() {
        [Some(x), Some(y), Some(z)] => Ok(tape.value_at([x, y, z])),
        _ => refuse(20),
    }
}

/// The fraction that a coordinate's bits mean: digits times 2 to the exponent. None if it is not a number or infinite.
fn fraction(c: f64) -> Option<(i128, i32)> {
    let bits = c.to_bits();
    let low = (bits & ((1 << 52) - 1)) as i128;
    let (size, exponent) = match (bits >> 52 & 0x7FF) as i32 {
        0x7FF => return None,
        0 => (low, -1074),
        field => (low + (1 << 52), field - 1075),
    };
    Some((if bits >> 63 == 1 { -size } else { size }, exponent))
}

/// The greatest whole v with v/65,536 at most the coordinate. None where line 20 holds.
fn rounded(c: f64, fault: Option<Fault>) -> Option<i128> {
    let limit = if fault == Some(Fault::LimitIs32768) { 32_768 } else { 32_767 };
    let (digits, exponent) = fraction(c)?;
    // above 2^52 where the exponent is not below 0; below 2^53, and so small, where it is far below
    let above = exponent >= 0 || (exponent > -64 && digits.abs() > limit << -exponent);
    if above {
        return None;
    }
    let (units, whole) = (digits * 65_536, 1 << (-exponent).min(100));
    Some(match fault {
        Some(Fault::TowardZero) => units / whole,
        Some(Fault::WholeIsOneLess) if units % whole == 0 => units / whole - 1,
        _ => units.div_euclid(whole),
    })
}

/// The bits of the f64 that is exactly the value divided by 2 to so many places.
fn bits_of(value: i128, places: u64) -> u64 {
    if value == 0 {
        return 0;
    }
    let size = value.unsigned_abs();
    let top = size.ilog2() as u64;
    let below_top = (size - (1 << top)) as u64;
    ((value < 0) as u64) << 63 | (1023 + top - places) << 52 | below_top << (52 - top)
}

/// Figures of the request.
#[cfg(test)]
mod tests {
    use super::*;

    fn down(c: f64) -> Option<i128> {
        rounded(c, None)
    }

    #[test]
    fn coordinates_are_rounded_down() {
        assert_eq!([-0.0, 5e-324, -5e-324, 0.1, -0.1].map(down), [0, 0, -1, 6_553, -6_554].map(Some));
        assert_eq!([-1.5 / 65_536.0, 1.5 / 65_536.0, -1.0 / 65_536.0].map(down), [-2, 1, -1].map(Some));
        assert_eq!([32_767.0, -32_767.0].map(down), [2_147_418_112, -2_147_418_112].map(Some));
        let bits = [0x40DF_FFBF_FFFF_FFFF, 0xC0DF_FFBF_FFFF_FFFF].map(|b| down(f64::from_bits(b)));
        assert_eq!(bits, [2_147_418_111, -2_147_418_112].map(Some));
    }

    #[test]
    fn line_20() {
        let beyond = [0x40DF_FFC0_0000_0001, 0xC0DF_FFC0_0000_0001, 0x7FF0_0000_0000_0001, 0xFFFF_FFFF_FFFF_FFFF];
        assert_eq!(beyond.map(|b| down(f64::from_bits(b))), [None; 4]);
        let great = [32_768.0, -1e300, f64::MAX, f64::MIN, f64::INFINITY, f64::NEG_INFINITY, f64::NAN, -f64::NAN];
        assert_eq!(great.map(down), [None; 8]);
    }

    /// Never above the coordinate and less than a unit below it, by the machine's own floats, which hold every one of
    /// these numbers exactly.
    #[test]
    fn bits_of_every_kind() {
        let mut bits = 0x9E37_79B9_7F4A_7C15u64;
        for case in 0..200_000 {
            bits = bits.wrapping_mul(0xD134_2543_DE82_EF95).wrapping_add(1);
            let near = 0x3F00_0000_0000_0000 + (bits >> 9 & 0x01FF_FFFF_FFFF_FFFF) + (bits & 1 << 63);
            let c = f64::from_bits(if case % 2 == 0 { bits } else { near });
            let expected = if c.abs() <= 32_767.0 { Some((c * 65_536.0).floor() as i128) } else { None };
            assert_eq!(down(c), expected, "{c:e}");
        }
    }

    #[test]
    fn values_are_exact() {
        let mut value = 1i128;
        while value < 2_147_483_648 {
            for v in [value, value - 1, -value, 1 - value, value / 3, -(value / 7)] {
                assert_eq!(bits_of(v, 16), (v as f64 / 65_536.0).to_bits(), "{v}");
            }
            value *= 2;
        }
        assert_eq!(bits_of(2_147_483_647, 16), 32_767.999_984_741_21f64.to_bits());
    }

    #[test]
    fn x_less_two() {
        let list = [[1, 0, 0, 0, 0], [0, 1, 0, 0, 131_072], [10, 0, 0, 1, 0]];
        let tape = Tape::from_list(2, &list.concat()).expect("an accepted list").to_bytes();
        let at = |x: f64| {
            let Probed { answer, side, bits } = probe(&tape, [x, 0.0, 0.0]);
            (answer.number, answer.place, answer.count, side, f64::from_bits(bits))
        };
        assert_eq!(at(1.99999), (0, 0, 0, 1, -1.52587890625e-5));
        assert_eq!(at(2.00001), (0, 0, 0, 3, 0.0));
        assert_eq!(at(-0.0), (0, 0, 0, 1, -2.0));
        assert_eq!(at(32_767.0), (0, 0, 0, 2, 32_765.0));
        assert_eq!(at(32_767.5), (20, 0, 0, 0, 0.0));
        for axis in 0..3 {
            let mut point = [0.0; 3];
            point[axis] = f64::NAN;
            assert_eq!(probe(&tape, point).answer.number, 20);
            assert_eq!(probe(&tape[1..], point).answer.number, 2);
        }
    }
}
