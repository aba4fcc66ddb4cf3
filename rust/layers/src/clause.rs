//! The steps of a tape.

/// What a clause computes. Its number is its place in this list, from 0.
#[derive(Clone, Copy, Debug, PartialEq, Eq, Hash)]
#[repr(u8)]
#[non_exhaustive]
pub enum Opcode {
    /// The clause's constant.
    Constant,
    /// x of the sample.
    X,
    /// y of the sample.
    Y,
    /// z of the sample.
    Z,
    /// The left slot.
    Copy,
    /// The left slot, with the other sign.
    Negate,
    /// The left slot, without sign.
    Absolute,
    /// The left slot times itself, rounded down and clamped.
    Square,
    /// The square root of the left slot, rounded down; 0 if the slot is below 0.
    Root,
    /// Left plus right, clamped.
    Add,
    /// Left minus right, clamped.
    Subtract,
    /// Left times right, rounded down and clamped.
    Multiply,
    /// The smaller of left and right: the union of two parts.
    Minimum,
    /// The larger of left and right: what two parts have in common.
    Maximum,
    /// Left divided by right, rounded down and clamped; by 0 the greatest value, 0 or the least, by left's sign.
    Divide,
}

impl Opcode {
    /// All opcodes, in the order of their numbers.
    pub const ALL: [Opcode; 15] = [
        Opcode::Constant,
        Opcode::X,
        Opcode::Y,
        Opcode::Z,
        Opcode::Copy,
        Opcode::Negate,
        Opcode::Absolute,
        Opcode::Square,
        Opcode::Root,
        Opcode::Add,
        Opcode::Subtract,
        Opcode::Multiply,
        Opcode::Minimum,
        Opcode::Maximum,
        Opcode::Divide,
    ];

    /// The opcode's number, as tapes and lists have it.
    pub const fn number(self) -> u8 {
        self as u8
    }

    /// How many slots a clause with this opcode reads: none, the left one, or both.
    pub const fn reads(self) -> usize {
        match self {
            Opcode::Constant | Opcode::X | Opcode::Y | Opcode::Z => 0,
            Opcode::Copy | Opcode::Negate | Opcode::Absolute | Opcode::Square | Opcode::Root => 1,
            Opcode::Add | Opcode::Subtract | Opcode::Multiply | Opcode::Minimum | Opcode::Maximum | Opcode::Divide => 2,
        }
    }
}

/// One step of a tape: what it computes, the slot that it writes, the slots that it reads, and its constant.
///
/// Fields that the opcode does not use are 0; the functions that make a clause see to that.
///
/// ```
/// use layers::{Clause, Opcode};
///
/// let union = Clause::minimum(2, 0, 1);
/// assert_eq!(union, Clause { opcode: Opcode::Minimum, out: 2, left: 0, right: 1, constant: 0 });
/// ```
#[derive(Clone, Copy, Debug, PartialEq, Eq, Hash)]
pub struct Clause {
    /// What is computed.
    pub opcode: Opcode,
    /// The slot that is written.
    pub out: u8,
    /// The slot that is read by all opcodes but the constant and the axes.
    pub left: u8,
    /// The second slot that is read, by opcodes that have two.
    pub right: u8,
    /// The value of a constant, in units of 1/65,536: see [`fixed`](crate::fixed).
    pub constant: i32,
}

impl Clause {
    const fn leaf(opcode: Opcode, out: u8, constant: i32) -> Clause {
        Clause { opcode, out, left: 0, right: 0, constant }
    }

    const fn unary(opcode: Opcode, out: u8, left: u8) -> Clause {
        Clause { opcode, out, left, right: 0, constant: 0 }
    }

    const fn binary(opcode: Opcode, out: u8, left: u8, right: u8) -> Clause {
        Clause { opcode, out, left, right, constant: 0 }
    }

    /// Writes `value` to `out`.
    pub const fn constant(out: u8, value: i32) -> Clause {
        Clause::leaf(Opcode::Constant, out, value)
    }

    /// Writes x of the sample to `out`.
    pub const fn x(out: u8) -> Clause {
        Clause::leaf(Opcode::X, out, 0)
    }

    /// Writes y of the sample to `out`.
    pub const fn y(out: u8) -> Clause {
        Clause::leaf(Opcode::Y, out, 0)
    }

    /// Writes z of the sample to `out`.
    pub const fn z(out: u8) -> Clause {
        Clause::leaf(Opcode::Z, out, 0)
    }

    /// Writes `left` to `out`.
    pub const fn copy(out: u8, left: u8) -> Clause {
        Clause::unary(Opcode::Copy, out, left)
    }

    /// Writes −`left` to `out`: what is outside the part.
    pub const fn negate(out: u8, left: u8) -> Clause {
        Clause::unary(Opcode::Negate, out, left)
    }

    /// Writes `left` without sign to `out`.
    pub const fn absolute(out: u8, left: u8) -> Clause {
        Clause::unary(Opcode::Absolute, out, left)
    }

    /// Writes `left` times itself to `out`.
    pub const fn square(out: u8, left: u8) -> Clause {
        Clause::unary(Opcode::Square, out, left)
    }

    /// Writes the square root of `left` to `out`, or 0 if `left` is below 0.
    pub const fn root(out: u8, left: u8) -> Clause {
        Clause::unary(Opcode::Root, out, left)
    }

    /// Writes `left` + `right` to `out`.
    pub const fn add(out: u8, left: u8, right: u8) -> Clause {
        Clause::binary(Opcode::Add, out, left, right)
    }

    /// Writes `left` − `right` to `out`.
    pub const fn subtract(out: u8, left: u8, right: u8) -> Clause {
        Clause::binary(Opcode::Subtract, out, left, right)
    }

    /// Writes `left` times `right` to `out`. A slot times itself is bounded as tightly as its square.
    pub const fn multiply(out: u8, left: u8, right: u8) -> Clause {
        Clause::binary(Opcode::Multiply, out, left, right)
    }

    /// Writes the smaller of `left` and `right` to `out`: the union of two parts.
    pub const fn minimum(out: u8, left: u8, right: u8) -> Clause {
        Clause::binary(Opcode::Minimum, out, left, right)
    }

    /// Writes the larger of `left` and `right` to `out`: what two parts have in common.
    pub const fn maximum(out: u8, left: u8, right: u8) -> Clause {
        Clause::binary(Opcode::Maximum, out, left, right)
    }

    /// Writes `left` divided by `right` to `out`: tapers and cones. By 0 it is the greatest value, 0 or the least, by
    /// the sign of `left`. Where 0 is among a region's divisors the quotient has no bounds there.
    ///
    /// ```
    /// use layers::{fixed, Bitmap, Clause, Grid, Tape};
    ///
    /// // a cone with its tip at the height 8: the distance from the z axis by what is left to the tip, less a slope
    /// let cone = Tape::from_clauses(3, &[
    ///     Clause::x(0),
    ///     Clause::square(0, 0),
    ///     Clause::y(1),
    ///     Clause::square(1, 1),
    ///     Clause::add(0, 0, 1),
    ///     Clause::root(0, 0),
    ///     Clause::constant(1, fixed(8.0)),
    ///     Clause::z(2),
    ///     Clause::subtract(1, 1, 2),
    ///     Clause::divide(0, 0, 1),
    ///     Clause::constant(1, fixed(0.5)),
    ///     Clause::subtract(0, 0, 1),
    /// ])?;
    /// let wide = |z: f64| -> Result<usize, layers::Refusal> {
    ///     let grid = Grid::flat(8, 1).origin(fixed(-4.0), fixed(-0.5), fixed(z));
    ///     let bitmap = Bitmap::draw(&cone, grid)?.picture;
    ///     Ok((0..8).filter(|&x| bitmap.pixel(x, 0)).count())
    /// };
    /// assert_eq!([wide(0.0)?, wide(4.0)?, wide(6.0)?, wide(8.0)?], [8, 4, 2, 0]);
    /// # Ok::<(), layers::Refusal>(())
    /// ```
    pub const fn divide(out: u8, left: u8, right: u8) -> Clause {
        Clause::binary(Opcode::Divide, out, left, right)
    }

    /// The clause in a list: opcode, out, left, right, constant.
    pub const fn numbers(self) -> [i32; 5] {
        [self.opcode.number() as i32, self.out as i32, self.left as i32, self.right as i32, self.constant]
    }

    /// The clause of five numbers that the core has accepted, so that the opcode is one and each slot fits a byte.
    pub(crate) fn from_accepted(numbers: &[i32]) -> Clause {
        let opcode = Opcode::ALL[numbers[0] as usize];
        Clause { opcode, out: numbers[1] as u8, left: numbers[2] as u8, right: numbers[3] as u8, constant: numbers[4] }
    }
}

#[cfg(test)]
mod tests {
    use super::*;

    #[test]
    fn clauses_have_the_numbers_of_the_table() {
        let table = [
            (Clause::constant(9, -7), [0, 9, 0, 0, -7]),
            (Clause::x(9), [1, 9, 0, 0, 0]),
            (Clause::y(9), [2, 9, 0, 0, 0]),
            (Clause::z(9), [3, 9, 0, 0, 0]),
            (Clause::copy(9, 8), [4, 9, 8, 0, 0]),
            (Clause::negate(9, 8), [5, 9, 8, 0, 0]),
            (Clause::absolute(9, 8), [6, 9, 8, 0, 0]),
            (Clause::square(9, 8), [7, 9, 8, 0, 0]),
            (Clause::root(9, 8), [8, 9, 8, 0, 0]),
            (Clause::add(9, 8, 7), [9, 9, 8, 7, 0]),
            (Clause::subtract(9, 8, 7), [10, 9, 8, 7, 0]),
            (Clause::multiply(9, 8, 7), [11, 9, 8, 7, 0]),
            (Clause::minimum(9, 8, 7), [12, 9, 8, 7, 0]),
            (Clause::maximum(9, 8, 7), [13, 9, 8, 7, 0]),
            (Clause::divide(9, 8, 7), [14, 9, 8, 7, 0]),
        ];
        for (number, (clause, numbers)) in table.into_iter().enumerate() {
            assert_eq!(clause.opcode, Opcode::ALL[number]);
            assert_eq!(clause.numbers(), numbers);
            assert_eq!(Clause::from_accepted(&numbers), clause);
            // the table's clauses read slots other than 0
            assert_eq!(clause.opcode.reads(), numbers[2..4].iter().filter(|&&slot| slot != 0).count());
        }
        assert_eq!(Opcode::ALL.len(), 15);
    }
}
