//! Faults that can be planted, one at a time, to see that the tests catch each.

use std::cell::Cell;
use std::thread::LocalKey;

faults! {
    /// The first ten are those of the scope paper's list "Faults that draw a good-looking picture".
    Fault {
        /// A dropped minimum leaves its choice to be taken by another clause.
        ChoiceSlips,
        /// Out is cleared after the slots read were added.
        OutClearedLast,
        /// A region's children have the tape shortened for its sibling.
        SiblingTape,
        RoundsTowardZero,
        ClampsAtTheEnd,
        ZeroIsMaterial,
        /// The first 64-tile is drawn truly, the rest is left blank.
        FirstTileOnly,
        /// Regions are passed over as hidden before any height is set.
        HiddenTooEarly,
        BufferAsFound,
        EmptyPicture,
        /// A region's children have the tape that the region has: the right picture, the wrong count.
        GrandparentTape,
        /// The least z first: the right picture, the wrong count.
        LeastZFirst,
        WorkNotCleared,
        /// The picture is written before the work buffer is measured.
        WrittenWhenRefused,
        /// A spare bit of the picture comes out in the bitmap file.
        SpareBitsKept,
        PlaceFromOne,
        /// An unused field that is not 0 is found before a slot out of range.
        SevenBeforeSix,
        GridBeforeTape,
        WorkBeforePicture,
        SixteenBeforeFifteen,
        SixteenAfterTape,
        /// The program refuses a flat picture for its third step.
        ThirdStepRead,
        /// A refused input leaves a count on descriptor 2.
        CountWhenRefused,
        /// A multiply of a slot by itself has the range of any product: the right picture, the wrong count.
        NoSquare,
        /// The same, in short tapes alone.
        NoSquareInShort,
        /// A multiply of any two slots has the range of the left one's square.
        SquareOfTwoSlots,
        /// Two slots count as one where their ranges are equal.
        SquareByRanges,
        /// A sample lies where the next cell begins.
        WholeStepAdded,
        /// Half of an odd step is rounded up.
        HalfRoundedUp,
        /// The one z of a flat picture is half a step higher.
        HalfOnFlatZ,
        /// Line 11 tests where the last cell begins.
        LastWithoutHalf,
        /// Line 11 tests the first sample in place of the origin.
        OriginNotTested,
        DividesTowardZero,
        /// A quotient by 0 is 0.
        ByZeroIsZero,
        /// A divisor's range that ends at 0 counts as free of it.
        EndAtZeroIsFree,
        /// The quotient of the two high ends is left out of a range.
        ThreeQuotients,
        /// A clause that reads slot 64 or one above it has what lies 64 lower.
        Slot64ReadAs0,
        /// In the set of needed slots 64 is 0.
        NeededIsOneWord,
        /// Packing writes edition 01 whatever the counts.
        AlwaysFirst,
        /// Edition 02 is accepted for a tape that 01 can hold.
        SecondForSmall,
        /// A tape's head counts at most 6,143 clauses.
        OneClauseFewer,
    }
}

/// A list of faults: the drawings' here, those of a later call in its module.
pub trait Plant: Copy + PartialEq + 'static {
    /// The one that is planted in this thread.
    fn cell() -> &'static LocalKey<Cell<Option<Self>>>;
}

/// Whether the fault is planted in this thread.
pub fn planted<F: Plant>(fault: F) -> bool {
    F::cell().get() == Some(fault)
}

/// Plants the fault in this thread for as long as `run` runs.
pub fn with<F: Plant, T>(fault: F, run: impl FnOnce() -> T) -> T {
    F::cell().set(Some(fault));
    let result = run();
    F::cell().set(None);
    result
}
