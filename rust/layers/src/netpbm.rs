//! Netpbm files of drawn pictures. A drawn picture has sizes and a length that file making accepts, and the output has
//! the file's exact length, so nothing is left to be refused.

use crate::lend::filled;
use crate::raw;

const ACCEPTED: &str = "a drawn picture makes a file";

/// The bitmap file: `P4`, a line with the sizes, the rows.
pub fn bitmap(width: u32, height: u32, rows: &[u8]) -> Vec<u8> {
    let len = "P4\n".len() + sizes_line(width, height) + rows.len();
    filled(len, |out| raw::write_bitmap(width, height, rows, out)).expect(ACCEPTED).0
}

/// The height file: `P5`, a line with the sizes, one with the greatest height, two bytes for each height.
pub fn heights(width: u32, height: u32, heights: &[u16]) -> Vec<u8> {
    let len = "P5\n".len() + sizes_line(width, height) + "65535\n".len() + 2 * heights.len();
    filled(len, |out| raw::write_heights(width, height, heights, out)).expect(ACCEPTED).0
}

/// The length of the line with width and height.
fn sizes_line(width: u32, height: u32) -> usize {
    format!("{width} {height}\n").len()
}
