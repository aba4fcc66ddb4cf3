//! Pictures in colour, to look at: a scale that the colour-blind tell apart, digits, PNG.

use png::{BitDepth, ColorType, Compression, Encoder, FilterType};
use std::io::{self, Write};

/// Red, green and blue.
pub type Colour = [u8; 3];

/// White.
pub const WHITE: Colour = [255; 3];

/// Black.
pub const BLACK: Colour = [0; 3];

/// A picture of three bytes a pixel, by rows.
#[derive(Clone, Debug, PartialEq, Eq)]
pub struct Picture {
    width: u32,
    height: u32,
    bytes: Vec<u8>,
}

impl Picture {
    /// A picture of one colour.
    pub fn new(width: u32, height: u32, colour: Colour) -> Self {
        Self { width, height, bytes: colour.repeat(width as usize * height as usize) }
    }

    /// The number of columns.
    pub fn width(&self) -> u32 {
        self.width
    }

    /// The number of rows.
    pub fn height(&self) -> u32 {
        self.height
    }

    /// Colours a pixel; one that lies outside is left.
    pub fn put(&mut self, column: u32, row: u32, colour: Colour) {
        if column < self.width && row < self.height {
            let at = 3 * (row as usize * self.width as usize + column as usize);
            self.bytes[at..at + 3].copy_from_slice(&colour);
        }
    }

    /// The colour of a pixel inside.
    pub fn at(&self, column: u32, row: u32) -> Colour {
        let at = 3 * (row as usize * self.width as usize + column as usize);
        [self.bytes[at], self.bytes[at + 1], self.bytes[at + 2]]
    }

    /// Colours a rectangle.
    pub fn fill(&mut self, columns: std::ops::Range<u32>, rows: std::ops::Range<u32>, colour: Colour) {
        for row in rows {
            for column in columns.clone() {
                self.put(column, row, colour);
            }
        }
    }

    /// Writes a number in digits of 3 by 5 squares of a side, its upper left corner here; returned is its width.
    pub fn number(&mut self, column: u32, row: u32, side: u32, number: u64, colour: Colour) -> u32 {
        let digits = number.to_string();
        for (place, digit) in (0..).zip(digits.bytes()) {
            let shape = DIGITS[usize::from(digit - b'0')];
            for square in (0..15).filter(|square| shape >> (14 - square) & 1 == 1) {
                let (x, y) = (column + side * (4 * place + square % 3), row + side * (square / 3));
                self.fill(x..x + side, y..y + side, colour);
            }
        }
        digits.len() as u32 * 4 * side
    }

    /// Writes the picture as a PNG.
    pub fn encode(&self, to: &mut dyn Write) -> io::Result<()> {
        let mut encoder = Encoder::new(to, self.width, self.height);
        encoder.set_color(ColorType::Rgb);
        encoder.set_depth(BitDepth::Eight);
        // as masks are written: Debian's png, 0.17.7, streams filters of the row above wrongly
        encoder.set_filter(FilterType::NoFilter);
        encoder.set_compression(Compression::Default);
        let mut writer = encoder.write_header()?;
        writer.write_image_data(&self.bytes)?;
        Ok(writer.finish()?)
    }
}

/// The digits, each as five rows of three squares, the first in the highest bit.
const DIGITS: [u16; 10] = [
    0b111_101_101_101_111,
    0b010_110_010_010_111,
    0b111_001_111_100_111,
    0b111_001_111_001_111,
    0b101_101_111_001_001,
    0b111_100_111_001_111,
    0b111_100_111_101_111,
    0b111_001_010_010_010,
    0b111_101_111_101_111,
    0b111_101_111_001_111,
];

/// The scale at even steps, from dark violet to bright yellow: lightness rises all along, so that it is told apart with
/// any kind of sight, and on a grey printer.
const STEPS: [Colour; 9] = [
    [68, 1, 84],
    [71, 44, 122],
    [59, 81, 139],
    [44, 113, 142],
    [33, 144, 141],
    [39, 173, 129],
    [92, 200, 99],
    [170, 220, 50],
    [253, 231, 37],
];

/// The colour of a part of the whole, from 0 to 1.
pub fn scale(part: f64) -> Colour {
    let place = part.clamp(0.0, 1.0) * (STEPS.len() - 1) as f64;
    let step = (place as usize).min(STEPS.len() - 2);
    let rest = place - step as f64;
    std::array::from_fn(|i| {
        let [from, to] = [STEPS[step][i], STEPS[step + 1][i]].map(f64::from);
        (from + (to - from) * rest).round() as u8
    })
}

#[cfg(test)]
mod tests {
    use super::*;

    #[test]
    fn lightness_rises_along_the_scale() {
        let light = |colour: Colour| {
            let [red, green, blue] = colour.map(f64::from);
            0.2126 * red + 0.7152 * green + 0.0722 * blue
        };
        let lights: Vec<f64> = (0..=100).map(|part| light(scale(f64::from(part) / 100.0))).collect();
        assert!(lights.windows(2).all(|pair| pair[0] < pair[1]), "{lights:?}");
        assert_eq!([scale(-1.0), scale(2.0)], [STEPS[0], STEPS[8]]);
    }

    #[test]
    fn a_picture_is_read_again() {
        let mut picture = Picture::new(30, 12, WHITE);
        let width = picture.number(2, 3, 1, 107, BLACK);
        picture.put(99, 99, BLACK);
        // a 1, and the upper left corner of a 0
        assert_eq!([picture.at(2, 3), picture.at(3, 3), picture.at(6, 3)], [WHITE, BLACK, BLACK]);
        assert_eq!(width, 12);
        let mut file = Vec::new();
        picture.encode(&mut file).expect("written");
        let mut reader = png::Decoder::new(&file[..]).read_info().expect("a PNG");
        let mut bytes = vec![0; reader.output_buffer_size()];
        let info = reader.next_frame(&mut bytes).expect("a picture");
        assert_eq!((info.width, info.height, info.color_type), (30, 12, ColorType::Rgb));
        assert_eq!(bytes, picture.bytes);
    }
}
