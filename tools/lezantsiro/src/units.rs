//! Lengths as people write them, kept as fractions: nothing is rounded before the one rounding down to a unit that the
//! core's samples have.

use std::fmt;
use std::ops::{Add, Div, Mul, Neg, Sub};
use std::str::FromStr;

/// Units of the core in a millimetre.
pub const UNITS: i128 = 65_536;

/// The greatest value of the core, in units.
pub const GREATEST: i128 = i32::MAX as i128;

/// The longest length and the finest denominator that are read. Sums and products of a few such fractions, and of the
/// number of a layer or a sample, stay far within 128 bits.
const LONGEST: i128 = 100_000;
const FINEST: i128 = 1_000_000;

/// A fraction in lowest terms, with a denominator above 0. Lengths are in millimetres.
#[derive(Clone, Copy, Debug, PartialEq, Eq, Hash)]
pub struct Fraction {
    num: i128,
    den: i128,
}

impl Fraction {
    /// num / den, for a den that is not 0.
    pub fn new(num: i128, den: i128) -> Fraction {
        let common = gcd(num.unsigned_abs(), den.unsigned_abs()) as i128 * den.signum();
        Fraction { num: num / common, den: den / common }
    }

    /// A whole number.
    pub const fn whole(num: i128) -> Fraction {
        Fraction { num, den: 1 }
    }

    /// So many units of the core.
    pub fn of_units(units: i128) -> Fraction {
        Fraction::new(units, UNITS)
    }

    pub fn num(self) -> i128 {
        self.num
    }

    pub fn den(self) -> i128 {
        self.den
    }

    pub fn is_whole(self) -> bool {
        self.den == 1
    }

    /// Rounded down.
    pub fn floor(self) -> i128 {
        self.num.div_euclid(self.den)
    }

    /// Rounded up.
    pub fn ceil(self) -> i128 {
        -(-self).floor()
    }

    /// To the nearest whole number, halves up.
    pub fn round(self) -> i128 {
        (self + Fraction::new(1, 2)).floor()
    }

    /// In units of the core, rounded down.
    pub fn floor_units(self) -> i128 {
        (self * Fraction::whole(UNITS)).floor()
    }

    pub fn is_positive(self) -> bool {
        self.num > 0
    }

    pub fn abs(self) -> Fraction {
        Fraction { num: self.num.abs(), den: self.den }
    }

    /// Near enough to show, not to compute with.
    pub fn to_f64(self) -> f64 {
        self.num as f64 / self.den as f64
    }

    /// As a decimal number, exactly if it is one of at most six decimals, otherwise rounded down to six.
    pub fn decimal(self) -> String {
        let millionths = (self.abs() * Fraction::whole(1_000_000)).floor();
        let digits = format!("{}.{:06}", millionths / 1_000_000, millionths % 1_000_000);
        let short = digits.trim_end_matches('0').trim_end_matches('.');
        let sign = if self.num < 0 && millionths > 0 { "-" } else { "" };
        format!("{sign}{short}")
    }
}

fn gcd(a: u128, b: u128) -> u128 {
    if b == 0 { a } else { gcd(b, a % b) }
}

impl Add for Fraction {
    type Output = Fraction;

    fn add(self, other: Fraction) -> Fraction {
        Fraction::new(self.num * other.den + other.num * self.den, self.den * other.den)
    }
}

impl Sub for Fraction {
    type Output = Fraction;

    fn sub(self, other: Fraction) -> Fraction {
        self + -other
    }
}

impl Neg for Fraction {
    type Output = Fraction;

    fn neg(self) -> Fraction {
        Fraction { num: -self.num, den: self.den }
    }
}

impl Mul for Fraction {
    type Output = Fraction;

    fn mul(self, other: Fraction) -> Fraction {
        Fraction::new(self.num * other.num, self.den * other.den)
    }
}

impl Div for Fraction {
    type Output = Fraction;

    /// For a divisor that is not 0.
    fn div(self, other: Fraction) -> Fraction {
        Fraction::new(self.num * other.den, self.den * other.num)
    }
}

impl PartialOrd for Fraction {
    fn partial_cmp(&self, other: &Fraction) -> Option<std::cmp::Ordering> {
        Some(self.cmp(other))
    }
}

impl Ord for Fraction {
    fn cmp(&self, other: &Fraction) -> std::cmp::Ordering {
        (self.num * other.den).cmp(&(other.num * self.den))
    }
}

/// Exactly: `3`, `-1/20`.
impl fmt::Display for Fraction {
    fn fmt(&self, f: &mut fmt::Formatter) -> fmt::Result {
        if self.den == 1 { write!(f, "{}", self.num) } else { write!(f, "{}/{}", self.num, self.den) }
    }
}

/// A length: `0.05`, `0.05mm`, `1/20mm`, `50um`, with a sign if wished.
impl FromStr for Fraction {
    type Err = String;

    fn from_str(text: &str) -> Result<Fraction, String> {
        let (number, scale) = match text.strip_suffix("mm") {
            Some(number) => (number, 1),
            None => match text.strip_suffix("um").or(text.strip_suffix("µm")) {
                Some(number) => (number, 1000),
                None => (text, 1),
            },
        };
        let length =
            fraction(number.trim_end()).ok_or(format!("'{text}' is no length such as 0.05mm, 1/20 or 50um"))?;
        let length = length * Fraction::new(1, scale);
        if length.abs() > Fraction::whole(LONGEST) || length.den > FINEST {
            return Err(format!("'{text}' is longer than {LONGEST} mm, or finer than 1/{FINEST} mm"));
        }
        Ok(length)
    }
}

fn fraction(text: &str) -> Option<Fraction> {
    let (negative, text) = match text.strip_prefix('-') {
        Some(rest) => (true, rest),
        None => (false, text),
    };
    let size = match text.split_once('/') {
        Some((num, den)) => {
            let den = digits(den).filter(|den| *den > 0)?;
            Fraction::new(digits(num)?, den)
        }
        None => decimal(text)?,
    };
    Some(if negative { -size } else { size })
}

/// Digits with, if wished, a point among them.
fn decimal(text: &str) -> Option<Fraction> {
    let Some((whole, part)) = text.split_once('.') else { return digits(text).map(Fraction::whole) };
    let whole = if whole.is_empty() { 0 } else { digits(whole)? };
    let scale = 10_i128.pow(u32::try_from(part.len()).ok().filter(|len| *len <= 12)?);
    Some(Fraction::whole(whole) + Fraction::new(digits(part)?, scale))
}

/// At most twelve decimal digits, and at least one.
fn digits(text: &str) -> Option<i128> {
    let plain = (1..=12).contains(&text.len()) && text.bytes().all(|byte| byte.is_ascii_digit());
    if plain { text.parse().ok() } else { None }
}

#[cfg(test)]
mod tests {
    use super::*;

    fn length(text: &str) -> Fraction {
        text.parse().expect("a length")
    }

    #[test]
    fn lengths_are_read_exactly() {
        let twentieth = Fraction::new(1, 20);
        for text in ["0.05", "0.05mm", "1/20", "1/20mm", "50um", "50µm", ".05", "0.050 mm"] {
            assert_eq!(length(text), twentieth, "{text}");
        }
        assert_eq!(length("-0.035"), Fraction::new(-7, 200));
        assert_eq!(length("0"), Fraction::whole(0));
        for wrong in
            ["", "mm", "0.05cm", "1/0", "--1", "1.", "1e3", "0x1", "1/2/3", "100001", "0.0000001", "+1", "1 /2"]
        {
            assert!(wrong.parse::<Fraction>().is_err(), "{wrong}");
        }
    }

    #[test]
    fn rounding_is_down_on_both_sides_of_0() {
        assert_eq!(length("0.05").floor_units(), 3_276);
        assert_eq!(length("-0.05").floor_units(), -3_277);
        assert_eq!(Fraction::new(-7, 2).ceil(), -3);
        assert_eq!([Fraction::new(5, 2), Fraction::new(-5, 2)].map(Fraction::round), [3, -2]);
    }

    #[test]
    fn shown_as_fractions_and_as_decimals() {
        assert_eq!(length("0.035").to_string(), "7/200");
        assert_eq!(length("-96").to_string(), "-96");
        assert_eq!(length("-0.035").decimal(), "-0.035");
        assert_eq!(length("20").decimal(), "20");
        assert_eq!(Fraction::new(1, 3).decimal(), "0.333333");
        assert_eq!(Fraction::new(-1, 3_000_000_000).decimal(), "0");
    }

    #[test]
    fn order_is_that_of_the_numbers() {
        assert!(length("-1/3") < length("-0.3333"));
        assert!(length("0.05") == length("1/20") && length("0.051") > length("1/20"));
    }
}
