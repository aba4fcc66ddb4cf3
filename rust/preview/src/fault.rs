//! What is wrong with a file.

use std::fmt;

#[derive(Debug, PartialEq, Eq)]
pub enum Fault {
    /// The input does not start with a grid record.
    Record,
    /// The input's solid has a step below 1.
    Step(i32),
    /// The picture has neither mark.
    Mark,
    /// The picture's line of sizes is not there whole.
    Sizes,
    /// The heights' greatest value is not 65535.
    Greatest,
    /// The picture is not of the length that its sizes ask for.
    Length { asked: usize, found: usize },
    /// A bitmap beside a solid's input, or heights beside a layer's.
    Kind,
    /// The picture's sizes are not the input's.
    Size { input: [usize; 2], picture: [usize; 2] },
    /// A height above the input's depth.
    TooHigh { depth: usize, height: u16 },
}

impl fmt::Display for Fault {
    fn fmt(&self, f: &mut fmt::Formatter) -> fmt::Result {
        match self {
            Fault::Record => {
                write!(f, "not an input of the program: it has no grid record of 32 bytes that starts with GR")
            }
            Fault::Step(step) => write!(f, "a step of {step} in the grid record; a solid's steps are 1 and more"),
            Fault::Mark => write!(f, "not a picture of the program: it starts neither with P4 nor with P5"),
            Fault::Sizes => {
                write!(f, "after its mark a picture has a line with width and height; this one is wrong or cut off")
            }
            Fault::Greatest => write!(f, "after their sizes heights have the line 65535; this one is wrong or cut off"),
            Fault::Length { asked, found } if found < asked => {
                write!(f, "cut off: {found} bytes of pixels, and its sizes ask for {asked}")
            }
            Fault::Length { asked, found } => {
                write!(f, "too long: {found} bytes of pixels, and its sizes ask for {asked}")
            }
            Fault::Kind => write!(f, "a depth of 0 gives a bitmap (P4), a depth above 0 gives heights (P5)"),
            Fault::Size { input: [w, h], picture: [width, height] } => {
                write!(f, "the grid record says {w} by {h} pixels, the picture {width} by {height}")
            }
            Fault::TooHigh { depth, height } => {
                write!(f, "the grid record says {depth} layers, the picture has a height of {height}")
            }
        }
    }
}

impl std::error::Error for Fault {}
