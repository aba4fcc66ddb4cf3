//! A plate to print: the bracket and, behind it, the housing. They come as two tapes, from two designers, and are one
//! part by the union of these.

use super::bracket::bracket;
use super::housing::housing;
use crate::{Design, Part};

pub fn plate() -> Part {
    let (bracket, housing) = (on_plate(bracket(), -35.0), on_plate(housing(), 37.0));
    let tape = bracket.tape.union(&housing.tape).unwrap_or_else(|e| panic!("plate: {e}"));
    Part { tape, ..housing }
}

/// A design moved along y, in the plate's box.
fn on_plate(design: Design, y: f64) -> Part {
    let shape = design.shape.translate([0.0, y, 0.0]);
    Design { name: "plate", shape, low: [-70.0, -70.0, 0.0], high: [70.0, 70.0, 40.0], z: 9.0 }.part()
}
