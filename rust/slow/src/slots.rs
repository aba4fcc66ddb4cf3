//! What a run and a shortening keep for each slot.

use crate::edition::MAX_SLOTS;
use crate::fault::{Fault, planted};
use std::ops::{Index, IndexMut};

/// The slots of a run.
pub struct Slots<T>([T; MAX_SLOTS]);

impl<T: Copy> Slots<T> {
    pub fn all(value: T) -> Self {
        Slots([value; MAX_SLOTS])
    }
}

impl<T> Index<usize> for Slots<T> {
    type Output = T;

    fn index(&self, slot: usize) -> &T {
        &self.0[if planted(Fault::Slot64ReadAs0) { slot % 64 } else { slot }]
    }
}

impl<T> IndexMut<usize> for Slots<T> {
    fn index_mut(&mut self, slot: usize) -> &mut T {
        &mut self.0[slot]
    }
}

/// The set of needed slots.
pub struct Needed([bool; MAX_SLOTS]);

impl Needed {
    pub fn none() -> Self {
        Needed([false; MAX_SLOTS])
    }

    fn place(slot: usize) -> usize {
        if planted(Fault::NeededIsOneWord) { slot % 64 } else { slot }
    }
}

impl Index<usize> for Needed {
    type Output = bool;

    fn index(&self, slot: usize) -> &bool {
        &self.0[Self::place(slot)]
    }
}

impl IndexMut<usize> for Needed {
    fn index_mut(&mut self, slot: usize) -> &mut bool {
        &mut self.0[Self::place(slot)]
    }
}
