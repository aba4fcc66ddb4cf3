//! Two tapes into one, which has the smaller of their two values at every sample.

use crate::call::{Answer, answer, exact_len};
use crate::edition::{MAX_CLAUSES, MAX_SLOTS};
use crate::fault::planted;
use crate::tape::{Clause, Refused, Tape, refuse, uses_left, uses_right};

faults! {
    /// Faults that can be planted, one at a time.
    Fault {
        /// Slot fields that the opcode doesn't use are raised too.
        UnusedRaised,
        /// The second's result is at left.
        SidesSwapped,
        /// The minimum goes into the second's result slot.
        IntoTheSecond,
        /// Line 21 counts the clauses of the two tapes alone.
        MinimumNotCounted,
    }
}

/// Lines 1 to 9 for the first tape, then for the second, then 21, then 14.
pub fn merge_tapes(first: &[u8], second: &[u8], out: &mut [u8]) -> Answer {
    answer((|| {
        let bytes = merged(&Tape::from_bytes(first)?, &Tape::from_bytes(second)?)?.to_bytes();
        exact_len(out, bytes.len(), 14)?;
        out.copy_from_slice(&bytes);
        Ok(0)
    })())
}

/// The first's clauses, the second's with each used slot raised by the first's slot count, then a minimum of both
/// results, the first's at left, into the first's result slot; or line 21.
pub fn merged(first: &Tape, second: &Tape) -> Result<Tape, Refused> {
    let slots = first.slots as usize + second.slots as usize;
    let clauses = first.clauses.len() + second.clauses.len();
    let counted = clauses + !planted(Fault::MinimumNotCounted) as usize;
    if counted > MAX_CLAUSES || slots > MAX_SLOTS {
        return refuse(21);
    }
    let raised = second.clauses.iter().map(|c| raised(c, first.slots));
    let mut clauses: Vec<Clause> = first.clauses.iter().copied().chain(raised).collect();
    clauses.push(minimum(first.result(), first.slots + second.result()));
    Ok(Tape::new(slots as u8, clauses))
}

/// The clause with each used slot raised.
fn raised(c: &Clause, by: u8) -> Clause {
    let raise = |used: bool, slot: u8| if used || planted(Fault::UnusedRaised) { slot + by } else { slot };
    let opcode = c.opcode as i64;
    let (left, right) = (raise(uses_left(opcode), c.left), raise(uses_right(opcode), c.right));
    Clause { out: c.out + by, left, right, ..*c }
}

fn minimum(first: u8, second: u8) -> Clause {
    let (left, right) = if planted(Fault::SidesSwapped) { (second, first) } else { (first, second) };
    let out = if planted(Fault::IntoTheSecond) { second } else { first };
    Clause { opcode: 12, out, left, right, constant: 0 }
}

#[cfg(test)]
mod tests {
    use super::*;
    use crate::call::tile;
    use crate::examples::{axis_less, constants, done, plain, refused, refused_tapes, tape};
    use crate::fault;

    /// The answer, and what becomes of an output of so many bytes.
    fn merge(first: &[u8], second: &[u8], len: usize) -> (Answer, Vec<u8>) {
        let mut out = vec![9; len];
        (merge_tapes(first, second, &mut out), out)
    }

    /// The same of tapes, into an output that fits.
    fn fitted(first: &Tape, second: &Tape) -> (Answer, Vec<u8>) {
        let len = 8 + 10 * (first.clauses.len() + second.clauses.len() + 1);
        merge(&first.to_bytes(), &second.to_bytes(), len)
    }

    /// The figure of the request: x − 2 with y − 1.
    #[test]
    fn two_half_planes() {
        let (said, out) = fitted(&axis_less(1, 2), &axis_less(2, 1));
        assert_eq!((said, out.len()), (done(0), 78));
        assert_eq!(out[..8], [0x54, 0x50, 1, 4, 7, 0, 0, 0]);
        assert_eq!(out[8..38], axis_less(1, 2).to_bytes()[8..]);
        let second = [[0x43, 0x4C, 2, 2, 0, 0, 0, 0, 0, 0], [0x43, 0x4C, 0, 3, 0, 0, 0, 0, 1, 0]];
        assert_eq!(out[38..58], second.concat());
        assert_eq!(out[58..68], [0x43, 0x4C, 0x0A, 2, 2, 3, 0, 0, 0, 0]);
        assert_eq!(out[68..], [0x43, 0x4C, 0x0C, 0, 0, 2, 0, 0, 0, 0]);
        let (mut picture, mut work) = ([9u8; 2], [9; 32_768]);
        assert_eq!(tile(&out, &plain(3, 2, 0), &mut picture, &mut work), done(56));
        assert_eq!(picture, [0xE0, 0xC0]);
    }

    /// A tape with every opcode, whose result is not in its highest slot.
    fn every_opcode() -> Tape {
        let mut list = vec![[0, 2, 0, 0, -70_000], [1, 0, 0, 0, 0], [2, 1, 0, 0, 0], [3, 3, 0, 0, 0]];
        list.extend((4..=8).map(|opcode| [opcode, 3, 3, 0, 0]));
        list.extend((9..=14).map(|opcode| [opcode, 1, 3, 1, 0]));
        list.push([10, 1, 2, 1, 0]);
        tape(4, &list)
    }

    /// At every sample it has the smaller of the two values, and it is accepted.
    #[test]
    fn the_smaller_value() {
        let tapes = [every_opcode(), axis_less(1, 2), axis_less(3, -1), constants(1, 1, -3), constants(64, 1024, 5)];
        let places = [-70_000, -3, -1, 0, 1, 65_536, 131_072, 1 << 30];
        for (first, second) in tapes.iter().flat_map(|a| tapes.iter().map(move |b| (a, b))) {
            let (said, out) = fitted(first, second);
            let both = Tape::from_bytes(&out).expect("an accepted tape");
            assert_eq!((said, &out), (done(0), &both.to_bytes()));
            for (x, y) in places.iter().flat_map(|&x| places.iter().map(move |&y| (x, y))) {
                let at = [x, y, x - y];
                assert_eq!(both.value_at(at), first.value_at(at).min(second.value_at(at)));
            }
        }
    }

    #[test]
    fn used_fields_are_raised() {
        let (said, out) = fitted(&constants(10, 1, 7), &every_opcode());
        let list = Tape::from_bytes(&out).expect("an accepted tape").to_list();
        let second: Vec<i32> = every_opcode().to_list();
        let expected = second.chunks(5).flat_map(|c| {
            let left = if c[0] >= 4 { c[2] + 10 } else { 0 };
            let right = if c[0] >= 9 { c[3] + 10 } else { 0 };
            [c[0], c[1] + 10, left, right, c[4]]
        });
        assert_eq!((said, &list[..5]), (done(0), &[0, 0, 0, 0, 7][..]));
        assert_eq!(list[5..list.len() - 5], expected.collect::<Vec<_>>());
        assert_eq!(list[list.len() - 5..], [12, 0, 0, 11, 0]);
    }

    /// Two tapes of edition 01 may give one of 02; one of 02 with any other does.
    #[test]
    fn the_edition_is_that_of_the_counts() {
        let edition = |slots: [u32; 2], clauses: [usize; 2]| {
            let (said, out) = fitted(&constants(slots[0], clauses[0], 1), &constants(slots[1], clauses[1], 2));
            assert_eq!(said, done(0));
            assert!(Tape::from_bytes(&out).is_ok());
            out[2]
        };
        assert_eq!([edition([32, 32], [1, 1]), edition([32, 33], [1, 1])], [1, 2]);
        assert_eq!([edition([1, 1], [512, 511]), edition([1, 1], [512, 512])], [1, 2]);
        assert_eq!([edition([100, 1], [1, 1]), edition([1, 1], [1, 1025])], [2, 2]);
        assert_eq!([edition([64, 64], [3_072, 3_071]), edition([127, 1], [1, 6_142])], [2, 2]);
    }

    /// The number where the output has the length that the result would have.
    fn number(slots: [u32; 2], clauses: [usize; 2]) -> u8 {
        fitted(&constants(slots[0], clauses[0], 1), &constants(slots[1], clauses[1], 2)).0.number
    }

    #[test]
    fn line_21() {
        assert_eq!([number([64, 64], [1, 1]), number([64, 65], [1, 1]), number([128, 1], [1, 1])], [0, 21, 21]);
        // 256 slots are 0 in a byte
        assert_eq!([number([128, 128], [1, 1]), number([1, 127], [1, 1])], [21, 0]);
        assert_eq!([number([1, 1], [6_142, 1]), number([1, 1], [6_143, 1]), number([1, 1], [1, 6_143])], [0, 21, 21]);
        assert_eq!([number([1, 1], [6_144, 6_144]), number([128, 128], [6_144, 6_144])], [21, 21]);
    }

    /// Each line alone, with the next ones of the order and with all of them.
    #[test]
    fn the_order_of_lines() {
        let (good, large) = (axis_less(1, 2).to_bytes(), constants(127, 1, 1).to_bytes());
        for (bad, said) in refused_tapes() {
            for (worse, _) in refused_tapes() {
                assert_eq!(merge(&bad, &worse, 3), (said, vec![9; 3]));
            }
            for len in [78, 0] {
                assert_eq!(merge(&bad, &good, len), (said, vec![9; len]));
                assert_eq!(merge(&good, &bad, len), (said, vec![9; len]));
                assert_eq!(merge(&large, &bad, len), (said, vec![9; len]));
            }
        }
        assert_eq!(merge(&large, &good, 58), (refused(21, 0), vec![9; 58]));
        assert_eq!(merge(&large, &good, 57), (refused(21, 0), vec![9; 57]));
        for len in [0, 77, 79, 78 - 10, 78 + 10] {
            assert_eq!(merge(&good, &good, len), (refused(14, 0), vec![9; len]));
        }
        assert_eq!(merge(&good, &good, 78).0, done(0));
    }

    #[test]
    fn faults_show() {
        let cases = || {
            let number = number([1, 1], [6_143, 1]);
            (fitted(&axis_less(1, 2), &axis_less(2, 1)), number)
        };
        let right = cases();
        assert!(Fault::ALL.iter().all(|&f| fault::with(f, cases) != right));
    }
}
