//! Fixed-point values: whole numbers that count units of 1/65,536.

/// The value 1.
pub const ONE: i32 = 65_536;

/// The value of a number: rounded down to a unit, as the core rounds, and clamped to the range of values, which goes
/// from `-i32::MAX` to `i32::MAX` (about ±32,768).
///
/// ```
/// use layers::{fixed, ONE};
///
/// assert_eq!(fixed(2.5), 2 * ONE + ONE / 2);
/// assert_eq!(fixed(-0.000_001), -1);
/// assert_eq!(fixed(-1e9), -i32::MAX);
/// ```
///
/// # Panics
///
/// If the number is NaN, which no value stands for.
pub fn fixed(number: f64) -> i32 {
    assert!(!number.is_nan(), "no value stands for NaN");
    // a cast from f64 stops at i32's ends, of which the lower is no value
    ((number * f64::from(ONE)).floor() as i32).max(-i32::MAX)
}

#[cfg(test)]
mod tests {
    use super::*;

    #[test]
    fn rounds_down_and_clamps() {
        let cases = [
            (0.0, 0),
            (1.0, ONE),
            (-1.5, -98_304),
            (0.1, 6_553),
            (-0.1, -6_554),
            (32_767.0, 32_767 * ONE),
            (32_768.0, i32::MAX),
            (f64::INFINITY, i32::MAX),
            (-32_768.0, -i32::MAX),
            (f64::NEG_INFINITY, -i32::MAX),
        ];
        for (number, value) in cases {
            assert_eq!(fixed(number), value, "{number}");
        }
    }

    #[test]
    #[should_panic(expected = "NaN")]
    fn nan_is_no_value() {
        fixed(f64::NAN);
    }
}
