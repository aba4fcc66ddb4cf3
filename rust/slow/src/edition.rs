//! Editions of a tape's head, and the limits of a tape.

use crate::fault::{Fault, planted};

pub const MAX_SLOTS: usize = 128;
pub const MAX_CLAUSES: usize = 6_144;

/// What edition 01 can hold.
const FIRST_SLOTS: u32 = 64;
const FIRST_CLAUSES: usize = 1_024;

/// The edition of a tape with so many slots and clauses: 02 is used only for a tape that 01 can't hold.
pub fn edition(slots: u32, clauses: usize) -> u8 {
    if slots <= FIRST_SLOTS && clauses <= FIRST_CLAUSES { 1 } else { 2 }
}

/// Line 3: the counts.
pub fn counts_ok(slots: u32, clauses: usize) -> bool {
    (1..=MAX_SLOTS as u32).contains(&slots) && (1..=MAX_CLAUSES).contains(&clauses)
}

/// Line 3 of a head: its edition, 01 or 02, is the one of its counts.
pub fn edition_ok(found: u8, slots: u32, clauses: usize) -> bool {
    if planted(Fault::OneClauseFewer) && clauses == MAX_CLAUSES {
        return false;
    }
    found == edition(slots, clauses) || planted(Fault::SecondForSmall) && found == 2
}

/// The figures of the request for lettering.
#[cfg(test)]
mod tests {
    use crate::tape::Tape;

    /// The number for a tape of so many constants in slot 0.
    fn number(edition: u8, slots: u8, clauses: u16) -> u8 {
        let [low, high] = clauses.to_le_bytes();
        let mut bytes = vec![0x54, 0x50, edition, slots, low, high, 0, 0];
        bytes.extend([0x43, 0x4C, 0, 0, 0, 0, 7, 0, 0, 0].repeat(clauses.into()));
        Tape::from_bytes(&bytes).map_or_else(|refused| refused.number, |_| 0)
    }

    #[test]
    fn the_edition_is_that_of_the_counts() {
        let accepted = [(1, 64, 1024), (1, 1, 1), (2, 1, 1025), (2, 65, 1), (2, 65, 1025), (2, 128, 6144)];
        let refused = [(1, 1, 1025), (1, 65, 1), (2, 1, 1024), (2, 64, 1), (2, 129, 1), (2, 128, 6145), (2, 65, 0)];
        assert!(accepted.iter().all(|&(edition, slots, clauses)| number(edition, slots, clauses) == 0));
        assert!(refused.iter().all(|&(edition, slots, clauses)| number(edition, slots, clauses) == 3));
        assert!([0, 3, 255].iter().all(|&edition| number(edition, 65, 1) == 2));
    }

    /// Lists are bound by the counts alone, and packing writes the edition of the counts.
    #[test]
    fn packing_writes_the_edition() {
        let packed = |slots: u32, clauses: usize| {
            let bytes = Tape::from_list(slots, &[0, 0, 0, 0, 7].repeat(clauses)).map(|tape| tape.to_bytes());
            bytes.map(|bytes| bytes[2]).map_err(|refused| refused.number)
        };
        let counts = [(64, 1024), (64, 1025), (65, 1024), (128, 6144), (129, 1), (1, 6145), (65, 0), (0, 1)];
        let expected = [Ok(1), Ok(2), Ok(2), Ok(2), Err(3), Err(3), Err(3), Err(3)];
        assert_eq!(counts.map(|(slots, clauses)| packed(slots, clauses)), expected);
    }

    /// 1,100 constants in slot 100, of which none is needed, before the paper's tape of three clauses.
    #[test]
    fn a_tape_that_edition_01_cannot_hold() {
        let mut list = [0, 100, 0, 0, 5].repeat(1100);
        list.extend([1, 0, 0, 0, 0, 0, 1, 0, 0, 131_072, 10, 0, 0, 1, 0]);
        let tape = Tape::from_list(101, &list).expect("an accepted list");
        assert_eq!(tape.to_bytes()[..8], [0x54, 0x50, 0x02, 0x65, 0x4F, 0x04, 0x00, 0x00]);
        assert_eq!(Tape::from_bytes(&tape.to_bytes()), Ok(tape.clone()));
        let grid = crate::draw::Grid { sizes: [3, 2, 1], origins: [0; 3], steps: [65_536; 3] };
        assert_eq!(crate::walk::walk(&tape, &grid, false), (vec![1, 1, 0, 1, 1, 0], 1_124));
    }
}
