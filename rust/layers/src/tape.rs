//! Tapes that the core accepts.

use crate::lend::filled;
use crate::{Clause, Refusal, raw};

/// The most slots of a tape.
pub const MAX_SLOTS: u8 = 128;

/// The most clauses of a tape.
pub const MAX_CLAUSES: usize = 6144;

/// The most slots of a tape of edition 1.
pub const FIRST_EDITION_SLOTS: u8 = 64;

/// The most clauses of a tape of edition 1.
pub const FIRST_EDITION_CLAUSES: usize = 1024;

const HEAD_BYTES: usize = 8;
const CLAUSE_BYTES: usize = 10;
const LIST_NUMBERS: usize = 5;

/// A formula as a list of clauses, in the bytes that the core reads and files hold. Clauses run in order; the result is
/// the slot that the last one writes. The core accepts every tape of this type.
///
/// ```
/// use layers::{fixed, Clause, Refusal, Tape};
///
/// // a disc: the distance from the middle, less the radius
/// let disc = [
///     Clause::x(0),
///     Clause::square(0, 0),
///     Clause::y(1),
///     Clause::square(1, 1),
///     Clause::add(0, 0, 1),
///     Clause::root(0, 0),
///     Clause::constant(1, fixed(12.5)),
///     Clause::subtract(0, 0, 1),
/// ];
/// let tape = Tape::from_clauses(2, &disc)?;
/// assert_eq!((tape.clause_count(), tape.slots()), (8, 2));
/// assert_eq!(tape.clauses(), disc);
///
/// let mut bytes = tape.as_bytes().to_vec();
/// assert_eq!(Tape::from_bytes(&bytes[..])?, tape);
/// bytes[8 + 10 * 3 + 2] = 99; // the opcode of clause 3
/// assert_eq!(Tape::from_bytes(bytes), Err(Refusal::UnknownClause { clause: 3 }));
/// # Ok::<(), Refusal>(())
/// ```
///
/// A tape of at most 64 slots and 1,024 clauses is of edition 1, as all were before there was another: cores of every
/// age read it. A larger one, up to 128 slots and 6,144 clauses, is of edition 2, and only such a one is:
///
/// ```
/// use layers::{Clause, Refusal, Tape};
///
/// // more slots than edition 1 has
/// let tape = Tape::from_clauses(65, &[Clause::x(0)])?;
/// assert_eq!(tape.edition(), 2);
/// assert_eq!(Tape::from_clauses(64, &[Clause::x(0)])?.edition(), 1);
///
/// let mut bytes = tape.as_bytes().to_vec();
/// bytes[3] = 64; // edition 1 can hold it now
/// assert_eq!(Tape::from_bytes(bytes), Err(Refusal::CountOutOfRange));
/// # Ok::<(), Refusal>(())
/// ```
#[derive(Clone, Debug, PartialEq, Eq, Hash)]
pub struct Tape {
    bytes: Vec<u8>,
}

impl Tape {
    /// The tape of these bytes, unless a line from 1 to 9 of the table of refusals turns them down.
    pub fn from_bytes(bytes: impl Into<Vec<u8>>) -> Result<Tape, Refusal> {
        let bytes = bytes.into();
        unpacked(&bytes)?;
        Ok(Tape { bytes })
    }

    /// The tape of a list, five numbers to a clause: opcode, out, left, right, constant.
    pub fn from_list(slots: u8, list: &[i32]) -> Result<Tape, Refusal> {
        let len = Tape::byte_count(list.len() / LIST_NUMBERS);
        let (bytes, _) = filled(len, |out| raw::pack_tape(slots.into(), list, out))?;
        Ok(Tape { bytes })
    }

    /// The tape of these clauses.
    pub fn from_clauses(slots: u8, clauses: &[Clause]) -> Result<Tape, Refusal> {
        let list: Vec<i32> = clauses.iter().flat_map(|clause| clause.numbers()).collect();
        Tape::from_list(slots, &list)
    }

    /// The tape that the core has written to the front of these bytes.
    pub(crate) fn written(mut bytes: Vec<u8>) -> Tape {
        bytes.truncate(Tape::byte_count(counted(&bytes)));
        Tape { bytes }
    }

    /// The bytes of a tape of so many clauses.
    pub(crate) fn byte_count(clauses: usize) -> usize {
        HEAD_BYTES + CLAUSE_BYTES * clauses
    }

    /// The list, five numbers to a clause.
    pub fn to_list(&self) -> Vec<i32> {
        unpacked(&self.bytes).expect("the tape was accepted")
    }

    /// The clauses, in order.
    pub fn clauses(&self) -> Vec<Clause> {
        self.to_list().chunks(LIST_NUMBERS).map(Clause::from_accepted).collect()
    }

    /// The clause count. It stands in the head, so nothing is unpacked for it.
    pub fn clause_count(&self) -> usize {
        counted(&self.bytes)
    }

    /// The slot count, of the head too.
    pub fn slots(&self) -> u8 {
        self.bytes[3]
    }

    /// The edition of its head: 1 if the tape has at most [`FIRST_EDITION_SLOTS`] slots and
    /// [`FIRST_EDITION_CLAUSES`] clauses, otherwise 2.
    pub fn edition(&self) -> u8 {
        self.bytes[2]
    }

    /// The tape's bytes: a head of 8, then 10 for each clause.
    pub fn as_bytes(&self) -> &[u8] {
        &self.bytes
    }
}

impl TryFrom<&[u8]> for Tape {
    type Error = Refusal;

    /// [`Tape::from_bytes`].
    fn try_from(bytes: &[u8]) -> Result<Tape, Refusal> {
        Tape::from_bytes(bytes)
    }
}

impl AsRef<[u8]> for Tape {
    fn as_ref(&self) -> &[u8] {
        self.as_bytes()
    }
}

/// The list of a tape. The output has the length that the head asks for, so line 14 never holds, and lines 1 to 9 alone
/// turn bytes down.
fn unpacked(bytes: &[u8]) -> Result<Vec<i32>, Refusal> {
    let (list, _) = filled(LIST_NUMBERS * counted(bytes), |out| raw::unpack_tape(bytes, out).answer)?;
    Ok(list)
}

/// The clauses that a head counts.
fn counted(bytes: &[u8]) -> usize {
    match bytes {
        [_, _, _, _, low, high, ..] => u16::from_le_bytes([*low, *high]).into(),
        _ => 0,
    }
}

#[cfg(test)]
mod tests {
    use super::*;

    /// The bytes of the paper's drawn figure: x − 2.
    const FIGURE: [u8; 38] = [
        0x54, 0x50, 0x01, 0x02, 0x03, 0x00, 0x00, 0x00, //
        0x43, 0x4C, 0x01, 0x00, 0x00, 0x00, 0x00, 0x00, 0x00, 0x00, //
        0x43, 0x4C, 0x00, 0x01, 0x00, 0x00, 0x00, 0x00, 0x02, 0x00, //
        0x43, 0x4C, 0x0A, 0x00, 0x00, 0x01, 0x00, 0x00, 0x00, 0x00,
    ];

    #[test]
    fn bytes_list_and_clauses_are_one_tape() {
        let list = [1, 0, 0, 0, 0, 0, 1, 0, 0, 131_072, 10, 0, 0, 1, 0];
        let clauses = [Clause::x(0), Clause::constant(1, 131_072), Clause::subtract(0, 0, 1)];
        let tape = Tape::from_bytes(FIGURE).unwrap();
        assert_eq!(tape.as_bytes(), FIGURE);
        assert_eq!(tape.as_ref(), FIGURE);
        assert_eq!(Tape::try_from(&FIGURE[..]).unwrap(), tape);
        assert_eq!(Tape::try_from(&FIGURE[1..]), Err(Refusal::WrongHead));
        assert_eq!((tape.slots(), tape.clause_count()), (2, 3));
        assert_eq!(tape.to_list(), list);
        assert_eq!(tape.clauses(), clauses);
        assert_eq!(Tape::from_list(2, &list).unwrap(), tape);
        assert_eq!(Tape::from_clauses(2, &clauses).unwrap(), tape);
    }

    #[test]
    fn damaged_bytes_are_refused_by_number_and_place() {
        let damages: [(usize, u8, u8, Option<u32>); 14] = [
            (0, 0x55, 2, None),
            (2, 0, 2, None),
            (2, 3, 2, None),
            (2, 2, 3, None),
            (7, 1, 2, None),
            (3, 0, 3, None),
            (3, 65, 3, None),
            (5, 0xFF, 3, None),
            (4, 2, 4, None),
            (9, 0, 5, Some(0)),
            (20, 15, 5, Some(1)),
            (33, 2, 6, Some(2)),
            (23, 1, 7, Some(1)),
            (21, 0, 9, Some(2)),
        ];
        for (at, byte, number, place) in damages {
            let mut bytes = FIGURE;
            assert_ne!(bytes[at], byte);
            bytes[at] = byte;
            let refusal = Tape::from_bytes(bytes).unwrap_err();
            assert_eq!((refusal.number(), refusal.place()), (number, place), "byte {at}");
        }
    }

    #[test]
    fn lengths_that_do_not_fit_are_refused() {
        for len in 0..8 {
            assert_eq!(Tape::from_bytes(&FIGURE[..len]), Err(Refusal::ShortTape), "{len} bytes");
        }
        for len in 8..38 {
            assert_eq!(Tape::from_bytes(&FIGURE[..len]), Err(Refusal::WrongLength), "{len} bytes");
        }
        assert_eq!(Tape::from_bytes([&FIGURE[..], &[0]].concat()), Err(Refusal::WrongLength));
        assert_eq!(Tape::from_list(2, &[1, 0, 0, 0]), Err(Refusal::WrongLength));
    }

    #[test]
    fn the_least_constant_is_refused() {
        let clauses = [Clause::x(0), Clause::constant(0, i32::MIN)];
        assert_eq!(Tape::from_clauses(1, &clauses), Err(Refusal::ConstantOutOfRange { clause: 1 }));
        assert!(Tape::from_clauses(1, &[Clause::constant(0, i32::MIN + 1)]).is_ok());
        let mut bytes = FIGURE;
        bytes[24..28].copy_from_slice(&i32::MIN.to_le_bytes());
        assert_eq!(Tape::from_bytes(bytes), Err(Refusal::ConstantOutOfRange { clause: 1 }));
    }

    #[test]
    fn counts_pass_up_to_their_limits() {
        let clauses = [Clause::x(0); MAX_CLAUSES + 1];
        let tape = Tape::from_clauses(MAX_SLOTS, &clauses[1..]).unwrap();
        assert_eq!((tape.edition(), tape.slots(), tape.clause_count(), tape.clauses().len()), (2, 128, 6144, 6144));
        assert_eq!(Tape::from_bytes(tape.as_bytes()), Ok(tape));
        assert_eq!(Tape::from_clauses(MAX_SLOTS, &clauses), Err(Refusal::CountOutOfRange));
        assert_eq!(Tape::from_clauses(MAX_SLOTS + 1, &clauses[1..]), Err(Refusal::CountOutOfRange));
        assert_eq!(Tape::from_clauses(0, &clauses[1..]), Err(Refusal::CountOutOfRange));
        assert_eq!(Tape::from_clauses(1, &[]), Err(Refusal::CountOutOfRange));
    }

    /// The edition is 1 as long as that can hold the tape, and no other edition of the same counts is accepted.
    #[test]
    fn the_edition_follows_the_counts() {
        let clauses = [Clause::x(0); FIRST_EDITION_CLAUSES + 1];
        let (slots, count) = (FIRST_EDITION_SLOTS, FIRST_EDITION_CLAUSES);
        for (slots, count, edition) in [(slots, count, 1), (slots + 1, count, 2), (slots, count + 1, 2), (1, 1, 1)] {
            let tape = Tape::from_clauses(slots, &clauses[..count]).unwrap();
            assert_eq!((tape.edition(), tape.slots(), tape.clause_count()), (edition, slots, count));
            assert_eq!(Tape::from_bytes(tape.as_bytes()), Ok(tape.clone()));
            let mut other = tape.as_bytes().to_vec();
            other[2] = 3 - edition;
            assert_eq!(Tape::from_bytes(other), Err(Refusal::CountOutOfRange));
        }
    }
}
