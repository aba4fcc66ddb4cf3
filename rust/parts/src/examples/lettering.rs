//! A name plate with raised letters, close to the greatest number of clauses of edition 01.

use super::font::Font;
use crate::Design;
use crate::shape::*;

const LINES: [&str; 5] = ["LEZANTSIRO", "LAYER CORE", "PARTS AS", "FORMULAS", "NO 1024"];

const FONT: Font = Font { mesh: 1.4, pen: 0.48, gap: 2.0 };
/// From line to line.
const LEADING: f64 = 15.0;

const HALF: f64 = 48.0;
const THICK: f64 = 4.0;
const RAISED: f64 = 7.0;

pub fn lettering() -> Design {
    let border = outline(HALF - 1.5).without(outline(HALF - 3.5));
    let raised = border.and(text()).within(slab(Z, THICK - 1.0, RAISED));
    let plate = outline(HALF).within(slab(Z, 0.0, THICK));
    let holes = rod(Z, 2.5).at_each(&[[-40.0, -40.0, 0.0], [40.0, -40.0, 0.0], [-40.0, 40.0, 0.0], [40.0, 40.0, 0.0]]);
    let shape = raised.and(plate.without(holes));
    Design { name: "lettering", shape, low: [-50.0, -50.0, 0.0], high: [50.0, 50.0, 8.0], z: 6.0 }
}

fn outline(half: f64) -> Shape {
    intersection([slab(X, -half, half), slab(Y, -half, half)]).rounded(half - HALF + 8.0)
}

/// All lines, each in the middle.
fn text() -> Shape {
    let y = |row: usize| LEADING * (row as f64 - (LINES.len() - 1) as f64 / 2.0);
    let lines = LINES.into_iter().enumerate();
    union(lines.map(|(row, line)| union(FONT.centred(line)).translate([0.0, y(row), 0.0])))
}
