//! Fixed-point arithmetic, on values and over ranges.

const M: i64 = 2_147_483_647;

fn clamp(v: i64) -> i32 {
    v.clamp(-M, M) as i32
}

pub fn add(a: i32, b: i32) -> i32 {
    clamp(a as i64 + b as i64)
}

pub fn subtract(a: i32, b: i32) -> i32 {
    clamp(a as i64 - b as i64)
}

fn product(a: i32, b: i32) -> i64 {
    a as i64 * b as i64
}

pub fn multiply(a: i32, b: i32) -> i32 {
    clamp(product(a, b) >> 16)
}

/// Rounded toward minus infinity, where the machine's own division goes toward zero.
pub fn divide(a: i32, b: i32) -> i32 {
    if b == 0 {
        return a.signum() * i32::MAX;
    }
    let (above, below) = ((a as i64) << 16, b as i64);
    let past = above % below != 0 && (above < 0) != (below < 0);
    clamp(above / below - past as i64)
}

/// The number under the root is below 2^47. With a half more it has the same whole part of its root and is never square,
/// so its root lies further from a whole number than rounding to 53 bits can move it. Adding 2^52 less a half leaves that
/// whole part in the lowest bits: the machine does all of it on several at once, where it converts to whole numbers one by
/// one.
#[cfg(not(feature = "core-root"))]
pub fn root(a: i32) -> i32 {
    const HALF_BELOW: f64 = 4_503_599_627_370_495.5;
    let under = a.max(0) as f64 * 65536.0 + 0.5;
    (under.sqrt() + HALF_BELOW).to_bits() as i32
}

/// The core's root, which is not the machine's: an estimate by two steps of Heron's with one division,
/// rounded to 256ths by adding 2^44, which is the root or one more, and one step down.
#[cfg(feature = "core-root")]
pub fn root(a: i32) -> i32 {
    const LIFT: f64 = 17_592_186_044_416.0;
    let x = a.max(0) as f64 + 1.0 / 131_072.0;
    let near = f64::from_bits(x.to_bits() / 2 + 0x1FF7_6C00_0000_0000);
    let square = near * near;
    let sum = square + x;
    let over = sum * sum * (8_187.0 / 32_768.0) + square * x;
    let estimate = over * (8_391_169.0 / 8_388_608.0 / (near * sum)) + LIFT;
    let (steps, whole) = ((estimate.to_bits() & 0xFF_FFFF) as i32, estimate - LIFT);
    if x < whole * whole { steps - 1 } else { steps }
}

/// The square, clamped where the number and not its product of 64 bits is too large, which the machine compares on several
/// at once.
pub fn square(a: i32) -> i32 {
    const LAST: i32 = 11_863_283;
    let size = a.wrapping_abs();
    let whole = (size as u32 as u64 * size as u32 as u64) >> 16;
    if size > LAST { i32::MAX } else { whole as i32 }
}

/// A range of values, by its ends.
#[derive(Clone, Copy)]
pub struct Span {
    pub low: i32,
    pub high: i32,
}

impl Span {
    pub fn new(low: i32, high: i32) -> Span {
        Span { low, high }
    }

    pub fn negate(self) -> Span {
        Span::new(-self.high, -self.low)
    }

    pub fn absolute(self) -> Span {
        let (first, last) = (self.low.abs(), self.high.abs());
        let holds_zero = self.low <= 0 && self.high >= 0;
        Span::new(if holds_zero { 0 } else { first.min(last) }, first.max(last))
    }

    pub fn square(self) -> Span {
        let size = self.absolute();
        Span::new(square(size.low), square(size.high))
    }

    pub fn root(self) -> Span {
        Span::new(root(self.low), root(self.high))
    }

    pub fn add(self, b: Span) -> Span {
        Span::new(add(self.low, b.low), add(self.high, b.high))
    }

    pub fn subtract(self, b: Span) -> Span {
        Span::new(subtract(self.low, b.high), subtract(self.high, b.low))
    }

    /// Rounding and clamping keep the order, so that two of the four products are rounded.
    pub fn multiply(self, b: Span) -> Span {
        let (p, q) = (product(self.low, b.low), product(self.low, b.high));
        let (s, t) = (product(self.high, b.low), product(self.high, b.high));
        Span::new(clamp(p.min(q).min(s.min(t)) >> 16), clamp(p.max(q).max(s.max(t)) >> 16))
    }

    /// Over a divisor above 0 a quotient grows with its numerator, and with its divisor where the numerator is below 0,
    /// so that two of the four quotients are made. A divisor below 0 is turned round with its numerator.
    pub fn divide(self, b: Span) -> Span {
        if b.high < 0 {
            return self.negate().divide(b.negate());
        }
        if b.low <= 0 {
            return Span::new(-i32::MAX, i32::MAX);
        }
        let least = divide(self.low, if self.low < 0 { b.low } else { b.high });
        let greatest = divide(self.high, if self.high < 0 { b.high } else { b.low });
        Span::new(least, greatest)
    }

    pub fn minimum(self, b: Span) -> Span {
        Span::new(self.low.min(b.low), self.high.min(b.high))
    }

    pub fn maximum(self, b: Span) -> Span {
        Span::new(self.low.max(b.low), self.high.max(b.high))
    }

    /// Whether every number of this range is below every one of the other.
    pub fn below(self, b: Span) -> bool {
        self.high < b.low
    }
}

#[cfg(test)]
mod tests {
    use super::*;

    /// Both ends, against all four quotients where the divisor is free of 0.
    #[test]
    fn two_quotients_are_the_least_and_the_greatest_of_four() {
        let ends = [-i32::MAX, -200_000, -65_536, -7, -2, -1, 0, 1, 2, 7, 65_536, 200_000, i32::MAX];
        let spans = || (0..ends.len()).flat_map(|i| ends[i..].iter().map(move |&high| Span::new(ends[i], high)));
        for (a, b) in spans().flat_map(|a| spans().map(move |b| (a, b))) {
            let four = [a.low, a.high].map(|v| [b.low, b.high].map(|w| divide(v, w))).concat();
            let held = b.low <= 0 && b.high >= 0;
            let expected = if held { vec![-i32::MAX, i32::MAX] } else { four };
            let found = a.divide(b);
            assert_eq!(Some(found.low), expected.iter().copied().min());
            assert_eq!(Some(found.high), expected.iter().copied().max());
        }
    }

    /// On both sides of where a root grows by one, for many roots and for the last ones, which are those of squares that are
    /// clamped.
    #[test]
    fn roots_and_squares_are_exact() {
        let roots = (0..=11_863_283u64).step_by(97).chain(11_863_000..=11_863_283);
        for r in roots {
            let grows = ((r * r).div_ceil(65_536)).min(i32::MAX as u64) as i32;
            for a in [grows.saturating_sub(1), grows, grows.saturating_add(1), r as i32, r as i32 + 1] {
                let (found, under) = (root(a) as u64, (a.max(0) as u64) << 16);
                assert!(found * found <= under && under < (found + 1) * (found + 1), "the root of {a}");
                assert_eq!([square(a), square(-a)], [multiply(a, a); 2], "the square of {a}");
            }
        }
        assert_eq!([root(-1), root(-i32::MAX), square(i32::MAX)], [0, 0, i32::MAX]);
    }

    #[test]
    fn quotients_round_down() {
        let three = 3 << 16;
        let quotients = [(-1, three), (1, -three), (-1, -three), (5, 0), (0, 0), (-5, 0), (i32::MAX, -1), (65_536, 3)];
        let expected = [-1, -1, 0, i32::MAX, 0, -i32::MAX, -i32::MAX, 1_431_655_765];
        assert_eq!(quotients.map(|(a, b)| divide(a, b)), expected);
    }
}
