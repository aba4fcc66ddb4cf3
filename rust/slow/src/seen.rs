//! What the walks of a thread met, so that a test can tell whether its cases reach every turn of the walk.

use std::cell::Cell;

listed! {
    Event {
        /// A region larger than a sample was filled.
        Filled,
        Skipped,
        Hidden,
        /// A 64-tile after the first was shortened and cut.
        LaterTileCut,
        /// A sample was run, so regions of every side above it were cut.
        FlatSample,
        SolidSample,
        /// Shortening dropped a clause.
        Dropped,
        /// Shortening dropped a clause of a tape that was short already.
        DroppedAgain,
        /// Shortening dropped a minimum or maximum that had chosen a side: a dropped part inside a dropped part.
        ChoiceDropped,
        /// A minimum or maximum became a copy.
        Copied,
        /// The chosen side's slot was out itself.
        ChoseItself,
        /// A clause that reads the slot it writes was kept.
        ReadsItsOut,
        /// A multiply of a slot by itself was run over a range with both signs.
        Squared,
        /// A quotient was run over a divisor's range that holds 0.
        DivisorHoldsZero,
        /// A quotient was run over a divisor's range without 0.
        DivisorFree,
        /// A quotient was run on a divisor of 0.
        DividedByZero,
    }
}

thread_local! {
    static SEEN: Cell<[bool; Event::ALL.len()]> = const { Cell::new([false; Event::ALL.len()]) };
}

pub(crate) fn note(event: Event) {
    let mut seen = SEEN.get();
    seen[event as usize] = true;
    SEEN.set(seen);
}

/// What was met since this was last asked, in the order of `Event::ALL`.
pub fn take() -> [bool; Event::ALL.len()] {
    SEEN.take()
}
