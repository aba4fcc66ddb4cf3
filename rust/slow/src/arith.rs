//! Fixed-point arithmetic: a value is a whole number from −M to M, meaning v/65,536.

use crate::fault::{Fault, planted};

/// The greatest value.
pub const M: i128 = 2_147_483_647;
const UNIT: i128 = 65_536;

/// The nearest number from −M to M.
pub fn clamp(v: i128) -> i128 {
    v.clamp(-M, M)
}

/// v/65,536 toward minus infinity.
pub fn floor_unit(v: i128) -> i128 {
    if planted(Fault::RoundsTowardZero) {
        return v / UNIT;
    }
    v.div_euclid(UNIT)
}

/// The rounded, clamped product.
pub fn multiply(a: i128, b: i128) -> i128 {
    clamp(floor_unit(a * b))
}

/// The exact fraction 65,536·a/b toward minus infinity, clamped; for b = 0 M, 0 or −M by the sign of a.
pub fn divide(a: i128, b: i128) -> i128 {
    if b == 0 {
        return if planted(Fault::ByZeroIsZero) { 0 } else { a.signum() * M };
    }
    if planted(Fault::DividesTowardZero) {
        return clamp(UNIT * a / b);
    }
    // the same fraction over a divisor above 0
    let (above, below) = if b < 0 { (-UNIT * a, -b) } else { (UNIT * a, b) };
    clamp(above.div_euclid(below))
}

/// The sum; with the fault that clamps only at the end, not clamped.
pub fn add(a: i128, b: i128) -> i128 {
    if planted(Fault::ClampsAtTheEnd) {
        return a + b;
    }
    clamp(a + b)
}

/// The difference.
pub fn subtract(a: i128, b: i128) -> i128 {
    if planted(Fault::ClampsAtTheEnd) {
        return a - b;
    }
    clamp(a - b)
}

/// The whole part of the square root of 65,536·a; 0 below 0.
pub fn root(a: i128) -> i128 {
    if a < 0 {
        return 0;
    }
    let n = UNIT * a;
    let (mut low, mut high) = (0i128, 1i128 << 40);
    // low·low <= n < high·high
    while high - low > 1 {
        let middle = (low + high) / 2;
        if middle * middle <= n {
            low = middle;
        } else {
            high = middle;
        }
    }
    low
}

/// A range of values, by its ends.
#[derive(Clone, Copy, Debug, PartialEq, Eq)]
pub struct Range {
    pub low: i128,
    pub high: i128,
}

impl Range {
    pub fn new(low: i128, high: i128) -> Self {
        Range { low, high }
    }

    /// Runs from 0 where the range holds 0.
    pub fn absolute(self) -> Self {
        let (a, b) = (self.low.abs(), self.high.abs());
        Range::new(if self.holds_zero() { 0 } else { a.min(b) }, a.max(b))
    }

    /// The least and the greatest of the four results of an operation on an end of each.
    fn of_ends(self, other: Self, operation: fn(i128, i128) -> i128) -> Self {
        let ends = [
            operation(self.low, other.low),
            operation(self.low, other.high),
            operation(self.high, other.low),
            operation(self.high, other.high),
        ];
        Range::new(*ends.iter().min().unwrap(), *ends.iter().max().unwrap())
    }

    pub fn multiply(self, other: Self) -> Self {
        self.of_ends(other, multiply)
    }

    /// Whether 0 is in the range, or one of its ends.
    pub fn holds_zero(self) -> bool {
        self.low <= 0 && 0 <= self.high
    }

    /// From −M to M where the divisor's range holds 0.
    pub fn divide(self, other: Self) -> Self {
        let free = planted(Fault::EndAtZeroIsFree) && (other.low == 0 || other.high == 0);
        if other.holds_zero() && !free {
            return Range::new(-M, M);
        }
        if planted(Fault::ThreeQuotients) {
            let ends = [divide(self.low, other.low), divide(self.low, other.high), divide(self.high, other.low)];
            return Range::new(*ends.iter().min().unwrap(), *ends.iter().max().unwrap());
        }
        self.of_ends(other, divide)
    }
}

/// Which side a minimum or a maximum chooses.
#[derive(Clone, Copy, Debug, PartialEq, Eq)]
pub enum Choice {
    Both,
    Left,
    Right,
}

/// The choice of a clause with the opcode, given its two sides' ranges.
pub fn choice(opcode: u8, left: Range, right: Range) -> Choice {
    match opcode {
        12 if left.high < right.low => Choice::Left,
        12 if right.high < left.low => Choice::Right,
        13 if left.low > right.high => Choice::Left,
        13 if right.low > left.high => Choice::Right,
        _ => Choice::Both,
    }
}

/// A clause's result on values.
pub fn value(opcode: u8, constant: i32, sample: [i128; 3], a: i128, b: i128) -> i128 {
    match opcode {
        0 => constant as i128,
        1 => sample[0],
        2 => sample[1],
        3 => sample[2],
        4 => a,
        5 => -a,
        6 => a.abs(),
        7 => multiply(a, a),
        8 => root(a),
        9 => add(a, b),
        10 => subtract(a, b),
        11 => multiply(a, b),
        12 => a.min(b),
        13 => a.max(b),
        14 => divide(a, b),
        _ => unreachable!("opcode {opcode}"),
    }
}

/// A clause's result over ranges.
pub fn range(opcode: u8, constant: i32, axes: [Range; 3], a: Range, b: Range) -> Range {
    match opcode {
        0 => Range::new(constant as i128, constant as i128),
        1 => axes[0],
        2 => axes[1],
        3 => axes[2],
        4 => a,
        5 => Range::new(-a.high, -a.low),
        6 => a.absolute(),
        7 => {
            let s = a.absolute();
            Range::new(multiply(s.low, s.low), multiply(s.high, s.high))
        }
        8 => Range::new(root(a.low), root(a.high)),
        9 => Range::new(add(a.low, b.low), add(a.high, b.high)),
        10 => Range::new(subtract(a.low, b.high), subtract(a.high, b.low)),
        11 => a.multiply(b),
        12 => Range::new(a.low.min(b.low), a.high.min(b.high)),
        13 => Range::new(a.low.max(b.low), a.high.max(b.high)),
        14 => a.divide(b),
        _ => unreachable!("opcode {opcode}"),
    }
}

/// The scope paper's marked figures, so that what the tests compare with holds them too.
#[cfg(test)]
mod tests {
    use super::*;

    #[test]
    fn values() {
        let products = [(-1, 1), (1, 1), (M, M), (-M, M)].map(|(a, b)| multiply(a, b));
        assert_eq!(products, [-1, 0, M, -M]);
        assert_eq!([add(M, 1), subtract(-M, 1)], [M, -M]);
        assert_eq!([-5, 1, 2, 65_536].map(root), [0, 256, 362, 65_536]);
        assert_eq!([255, 256, -98_304].map(|a| multiply(a, a)), [0, 1, 147_456]);
    }

    #[test]
    fn ranges() {
        let unit = Range::new(-1, 1);
        assert_eq!(unit.multiply(unit), Range::new(-1, 0));
        assert_eq!(choice(12, Range::new(0, 4), Range::new(5, 9)), Choice::Left);
        assert_eq!(choice(12, Range::new(0, 5), Range::new(5, 9)), Choice::Both);
    }

    /// Figures of the request for quotients.
    #[test]
    fn quotients() {
        let (three, ten) = (3 * UNIT, 10 * UNIT);
        let signs = [(-1, three), (1, -three), (-1, -three), (1, three)].map(|(a, b)| divide(a, b));
        assert_eq!(signs, [-1, -1, 0, 0]);
        let thirds = [(ten, three), (-ten, three), (ten, -three), (-ten, -three)].map(|(a, b)| divide(a, b));
        assert_eq!(thirds, [218_453, -218_454, -218_454, 218_453]);
        assert_eq!([5, 0, -5].map(|a| divide(a, 0)), [M, 0, -M]);
        let clamped = [(M, -1), (M, 1), (-M, 1), (-M, -1), (M, M), (M, -M)].map(|(a, b)| divide(a, b));
        assert_eq!(clamped, [-M, M, -M, M, UNIT, -UNIT]);
        assert_eq!([divide(65_536, 3), divide(98_303, 3), divide(98_304, 3)], [1_431_655_765, 2_147_461_802, M]);
        assert_eq!([divide(0, 7), divide(0, -7)], [0, 0]);
    }

    #[test]
    fn ranges_of_quotients() {
        let over = |a: (i128, i128), b: (i128, i128)| {
            let range = Range::new(a.0, a.1).divide(Range::new(b.0, b.1));
            (range.low, range.high)
        };
        assert_eq!(over((-131_072, 196_608), (-131_072, -65_536)), (-196_608, 131_072));
        assert_eq!(over((-3, 5), (2, 7)), (-98_304, 163_840));
        for holds_zero in [(0, 5), (-5, 0), (-1, 1), (0, 0), (-M, M)] {
            assert_eq!(over((-3, 5), holds_zero), (-M, M));
            assert_eq!(over((0, 0), holds_zero), (-M, M));
        }
        assert_eq!(over((1, 2), (1, 1)), (65_536, 131_072));
        assert_eq!(over((-5, -3), (-7, -2)), (28_086, 163_840));
        // equal slots get no case of their own: 2 over 4 to 4 over 2
        assert_eq!(over((2, 4), (2, 4)), (32_768, 131_072));
    }

    /// Every value of a small range by every one of another lies in the range.
    #[test]
    fn ranges_hold_their_quotients() {
        let ranges = || (-6..=6).flat_map(|low| (low..=6).map(move |high| Range::new(low, high)));
        for (a, b) in ranges().flat_map(|a| ranges().map(move |b| (a, b))) {
            let all = a.divide(b);
            for (v, w) in (a.low..=a.high).flat_map(|v| (b.low..=b.high).map(move |w| (v, w))) {
                let q = divide(v, w);
                assert!(all.low <= q && q <= all.high, "{v} by {w} in {a:?} by {b:?}");
            }
        }
    }
}
