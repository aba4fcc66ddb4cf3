//! PNG files have the pixels that were put into them.

use crate::decoder::{Decoded, decode, decode_colour};
use preview::png::{colour_png, png};

/// Numbers that look random and are the same in every run.
fn noise(count: usize) -> Vec<u8> {
    let mut state = 7u32;
    let next = || {
        state = state.wrapping_mul(1_664_525).wrapping_add(1_013_904_223);
        (state >> 24) as u8
    };
    std::iter::repeat_with(next).take(count).collect()
}

fn comes_back(width: usize, height: usize, bits: u8, rows: Vec<u8>) {
    let file = png(width as u32, height as u32, bits, &rows);
    assert_eq!(decode(&file), Ok(Decoded { width, height, bits, rows }));
}

#[test]
fn noise_comes_back() {
    comes_back(1, 1, 8, vec![200]);
    comes_back(301, 97, 8, noise(301 * 97));
    comes_back(13, 50, 1, noise(2 * 50));
}

#[test]
fn colours_come_back() {
    for (width, height) in [(1, 1), (97, 31), (512, 3)] {
        let (bits, rows) = (8, noise(3 * width * height));
        let file = colour_png(width as u32, height as u32, &rows);
        assert!(decode(&file).is_err());
        assert_eq!(decode_colour(&file), Ok(Decoded { width, height, bits, rows }));
    }
}

#[test]
fn repeats_of_every_length_and_distance_come_back() {
    comes_back(512, 512, 8, vec![255; 512 * 512]);
    for length in 3..600 {
        let some = noise(length);
        comes_back(2 * length + 1, 1, 8, [&some[..], &[0], &some].concat());
    }
    for distance in [1_000, 5_000, 10_000, 20_000, 32_767, 32_768, 32_769, 40_000] {
        let some = noise(distance);
        comes_back(2 * distance, 1, 8, some.repeat(2));
    }
}

/// The decoder of these tests is no rubber stamp.
#[test]
fn every_damaged_byte_is_seen() {
    let file = png(16, 16, 8, &noise(256));
    for at in 0..file.len() {
        let mut damaged = file.clone();
        damaged[at] ^= 0x10;
        assert!(decode(&damaged).is_err(), "byte {at}");
        assert!(decode(&file[..at]).is_err(), "cut at {at}");
    }
}
