//! Input of the two Netpbm writers.

use crate::compare::both;
use crate::random::Random;
use layers::raw;
use slow::call::{self, Answer};

/// Sizes, and how much longer than they ask for the picture and the output are.
#[derive(Clone, Copy, Debug)]
pub struct File {
    pub width: u32,
    pub height: u32,
    pub picture: isize,
    pub out: isize,
}

impl File {
    /// With buffers that fit.
    pub fn new(width: u32, height: u32) -> Self {
        File { width, height, picture: 0, out: 0 }
    }

    pub fn random(r: &mut Random) -> Self {
        let (most_width, most_height) = if r.one_in(10) { (600, 40) } else { (70, 40) };
        let mut off = || if r.one_in(6) { r.within(-1, 1) as isize } else { 0 };
        let (picture, out) = (off(), off());
        File { picture, out, ..File::new(r.below(most_width) as u32, r.below(most_height) as u32) }
    }

    fn len(exact: usize, off: isize) -> usize {
        exact.saturating_add_signed(off)
    }

    pub fn compare_bitmap(&self, r: &mut Random) -> Result<Answer, String> {
        let File { width, height, .. } = *self;
        let picture = r.bytes(Self::len(height as usize * (width as usize).div_ceil(8), self.picture));
        let head = format!("P4\n{width} {height}\n").len();
        let noise = r.bytes(Self::len(head + picture.len(), self.out));
        let core = |out: &mut Vec<u8>| raw::write_bitmap(width, height, &picture, out);
        let slow = |out: &mut Vec<u8>| call::write_bitmap(width, height, &picture, out);
        both("write_bitmap", &noise, core, slow).map_err(|e| format!("{e}: {self:?}"))
    }

    pub fn compare_heights(&self, r: &mut Random) -> Result<Answer, String> {
        let File { width, height, .. } = *self;
        let picture = r.noise(Self::len(width as usize * height as usize, self.picture), |v| (v >> 32) as u16);
        let head = format!("P5\n{width} {height}\n65535\n").len();
        let noise = r.bytes(Self::len(head + 2 * picture.len(), self.out));
        let core = |out: &mut Vec<u8>| raw::write_heights(width, height, &picture, out);
        let slow = |out: &mut Vec<u8>| call::write_heights(width, height, &picture, out);
        both("write_heights", &noise, core, slow).map_err(|e| format!("{e}: {self:?}"))
    }
}
