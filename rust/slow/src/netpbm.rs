//! Netpbm files.

use crate::fault::{Fault, planted};

/// The bitmap file of a flat picture; spare bits come out as 0.
pub fn bitmap_file(width: u32, height: u32, picture: &[u8]) -> Vec<u8> {
    let mut file = format!("P4\n{width} {height}\n").into_bytes();
    for row in picture.chunks((width as usize).div_ceil(8)) {
        for (c, &byte) in row.iter().enumerate() {
            let here = (width as usize - 8 * c).min(8) as u32;
            let spare = if planted(Fault::SpareBitsKept) { 0 } else { (1u32 << (8 - here)) - 1 };
            file.push(byte & !(spare as u8));
        }
    }
    file
}

/// The height file: each height with its high byte first.
pub fn height_file(width: u32, height: u32, heights: &[u16]) -> Vec<u8> {
    let mut file = format!("P5\n{width} {height}\n65535\n").into_bytes();
    for h in heights {
        file.extend(h.to_be_bytes());
    }
    file
}
