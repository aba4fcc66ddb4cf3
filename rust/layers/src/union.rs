//! Tapes made into one.

use crate::lend::filled;
use crate::{Clause, Refusal, Tape, raw};
use std::error::Error;
use std::fmt;

/// Why tapes don't go into one: what it would have. The most are [`MAX_CLAUSES`](crate::MAX_CLAUSES) and
/// [`MAX_SLOTS`](crate::MAX_SLOTS).
///
/// ```
/// use layers::{Clause, Refusal, Tape};
///
/// let wide = Tape::from_clauses(100, &[Clause::x(0)])?;
/// let error = wide.union(&wide).unwrap_err();
/// assert_eq!((error.refusal(), error.clauses(), error.slots()), (Refusal::LargeUnion, 3, 200));
/// assert!(error.to_string().starts_with("the union has 3 clauses and 200 slots: "));
/// # Ok::<(), Refusal>(())
/// ```
#[derive(Clone, Copy, Debug, PartialEq, Eq, Hash)]
pub struct UnionError {
    refusal: Refusal,
    clauses: usize,
    slots: usize,
}

impl UnionError {
    fn new(refusal: Refusal, tapes: &[&Tape]) -> UnionError {
        let minima = tapes.len() - 1;
        let clauses = minima + tapes.iter().map(|tape| tape.clause_count()).sum::<usize>();
        UnionError { refusal, clauses, slots: tapes.iter().map(|tape| usize::from(tape.slots())).sum() }
    }

    /// The line of the table: 21.
    pub fn refusal(&self) -> Refusal {
        self.refusal
    }

    /// The clauses that the union would take: those of all tapes, and a minimum between each two.
    pub fn clauses(&self) -> usize {
        self.clauses
    }

    /// The slots that the union would take: those of all tapes.
    pub fn slots(&self) -> usize {
        self.slots
    }
}

impl fmt::Display for UnionError {
    fn fmt(&self, f: &mut fmt::Formatter) -> fmt::Result {
        write!(f, "the union has {} clauses and {} slots: {}", self.clauses, self.slots, self.refusal)
    }
}

impl Error for UnionError {
    fn source(&self) -> Option<&(dyn Error + 'static)> {
        Some(&self.refusal)
    }
}

impl Tape {
    /// This part and another as one: the smaller of the two values at every sample, and so material where either has
    /// it. The clauses of both, then a minimum; the slots of both.
    ///
    /// ```
    /// use layers::{Bitmap, Grid, Tape};
    ///
    /// let (left, top) = (Tape::from_text("x - 2")?, Tape::from_text("y - 1")?);
    /// let corner = left.union(&top)?;
    /// assert_eq!((corner.slots(), corner.clause_count()), (4, 7));
    /// let drawn = Bitmap::draw(&corner, Grid::flat(3, 2))?;
    /// assert_eq!((drawn.picture.as_bytes(), drawn.count), (&[0xE0, 0xC0][..], 56));
    /// # Ok::<(), Box<dyn std::error::Error>>(())
    /// ```
    pub fn union(&self, other: &Tape) -> Result<Tape, UnionError> {
        self.merged(other).map_err(|refusal| UnionError::new(refusal, &[self, other]))
    }

    /// All parts as one. Their order decides the order of the clauses alone, and the minima between them are a balanced
    /// tree. Of no parts it is one without material, the greatest value everywhere.
    ///
    /// ```
    /// use layers::{Probe, Tape};
    ///
    /// let posts = ["x + 20", "x + 10", "x", "x - 10", "x - 20"].map(|at| {
    ///     Tape::from_text(&format!("root(sqr({at}) + sqr(y)) - 3")).unwrap()
    /// });
    /// let row = Tape::union_all(&posts)?;
    /// assert_eq!(row.clause_count(), posts.iter().map(|post| post.clause_count() + 1).sum::<usize>() - 1);
    /// assert_eq!(row.probe(11.0, 0.0, 0.0)?, Probe::Inside(-2.0));
    /// assert_eq!(row.probe(5.0, 0.0, 0.0)?, Probe::Outside(2.0));
    ///
    /// let error = Tape::union_all(&vec![row; 13]).unwrap_err();
    /// assert_eq!((error.clauses(), error.slots()), (688, 130));
    /// # Ok::<(), Box<dyn std::error::Error>>(())
    /// ```
    pub fn union_all(tapes: &[Tape]) -> Result<Tape, UnionError> {
        let tapes: Vec<&Tape> = tapes.iter().collect();
        balanced(&tapes).map_err(|refusal| UnionError::new(refusal, &tapes))
    }

    fn merged(&self, other: &Tape) -> Result<Tape, Refusal> {
        let len = Tape::byte_count(self.clause_count() + other.clause_count() + 1);
        let (bytes, _) = filled(len, |out| raw::merge_tapes(self.as_bytes(), other.as_bytes(), out))?;
        Ok(Tape::written(bytes))
    }
}

fn balanced(tapes: &[&Tape]) -> Result<Tape, Refusal> {
    match tapes {
        [] => Tape::from_clauses(1, &[Clause::constant(0, i32::MAX)]),
        [tape] => Ok((*tape).clone()),
        _ => {
            let (first, second) = tapes.split_at(tapes.len() / 2);
            balanced(first)?.merged(&balanced(second)?)
        }
    }
}

#[cfg(test)]
mod tests {
    use super::*;
    use crate::{MAX_CLAUSES, MAX_SLOTS, Probe};

    /// So many constants in slot 0.
    fn constants(slots: u8, clauses: usize, value: i32) -> Tape {
        Tape::from_clauses(slots, &vec![Clause::constant(0, value); clauses]).unwrap()
    }

    #[test]
    fn the_first_then_the_second_then_a_minimum() {
        let (first, second) = (Tape::from_text("x - 2").unwrap(), Tape::from_text("abs(y)").unwrap());
        let union = first.union(&second).unwrap();
        let raised = [Clause::y(2), Clause::absolute(2, 2), Clause::minimum(0, 0, 2)];
        assert_eq!(union.clauses(), [&first.clauses()[..], &raised].concat());
        assert_eq!(union.slots(), first.slots() + second.slots());
    }

    /// One tape lent twice.
    #[test]
    fn a_part_with_itself() {
        let part = Tape::from_text("max(x - 2, y)").unwrap();
        let twice = part.union(&part).unwrap();
        for (x, y) in [(0.0, 0.5), (3.0, -1.0), (-1.0, -7.25)] {
            assert_eq!(twice.probe(x, y, 0.0), part.probe(x, y, 0.0));
        }
    }

    #[test]
    fn two_of_edition_1_may_give_one_of_edition_2() {
        let half = constants(33, 1, 5);
        assert_eq!([half.edition(), half.union(&half).unwrap().edition()], [1, 2]);
        assert_eq!(constants(32, 511, 5).union(&constants(32, 512, 5)).unwrap().edition(), 1);
        assert_eq!(constants(32, 512, 5).union(&constants(32, 512, 5)).unwrap().edition(), 2);
    }

    /// The limits, the minimum counted.
    #[test]
    fn too_large() {
        let most = constants(MAX_SLOTS - 1, MAX_CLAUSES - 2, 5);
        assert_eq!(most.union(&constants(1, 1, 6)).unwrap().clause_count(), MAX_CLAUSES);
        let error = most.union(&constants(1, 2, 6)).unwrap_err();
        assert_eq!((error.clauses(), error.slots()), (MAX_CLAUSES + 1, 128));
        let error = most.union(&constants(2, 1, 6)).unwrap_err();
        assert_eq!((error.clauses(), error.slots()), (MAX_CLAUSES, 129));
        assert_eq!(error.source().expect("a source").to_string(), Refusal::LargeUnion.to_string());
    }

    #[test]
    fn any_number_of_parts() {
        assert_eq!(Tape::union_all(&[]).unwrap().probe(0.0, 0.0, 0.0), Ok(Probe::Outside(i32::MAX as f64 / 65_536.0)));
        let parts: Vec<Tape> = (1..=9).map(|i| constants(1, 1, if i == 6 { -3 } else { 65_536 * i })).collect();
        for n in 1..=9 {
            let union = Tape::union_all(&parts[..n]).unwrap();
            assert_eq!((usize::from(union.slots()), union.clause_count()), (n, 2 * n - 1));
            let least = if n < 6 { Probe::Outside(1.0) } else { Probe::Inside(-3.0 / 65_536.0) };
            assert_eq!(union.probe(0.0, 0.0, 0.0), Ok(least));
        }
        assert_eq!(Tape::union_all(&parts[..1]).unwrap(), parts[0]);
    }

    /// No path from a part to the result is longer than a balanced tree has it.
    #[test]
    fn the_minima_are_a_balanced_tree() {
        let union = Tape::union_all(&vec![constants(1, 1, 7); 13]).unwrap();
        let mut depth = [0; 13];
        for clause in union.clauses().iter().map(|clause| clause.numbers()).filter(|clause| clause[0] == 12) {
            let [_, out, left, right, _] = clause.map(|n| n as usize);
            depth[out] = 1 + depth[left].max(depth[right]);
        }
        assert_eq!(depth[0], 4);
    }
}
