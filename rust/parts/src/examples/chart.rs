//! A shop's chart of tapping drills as a plate with raised letters: more clauses and slots than edition 01 has.
//!
//! Its columns begin at the same places in every row, so that letters one below the other have their bounds along x in
//! common. These wait in slots from row to row and are computed once: some hundred at a time.

use super::font::Font;
use crate::Design;
use crate::shape::*;

/// Thread and drill, coarse and fine pitch, in millimetres.
const ROWS: [[&str; 4]; 21] = [
    ["M1.6", "1.25", "M8X1", "7"],
    ["M2", "1.6", "M10X1", "9"],
    ["M2.5", "2.05", "M10X1.25", "8.8"],
    ["M3", "2.5", "M12X1.25", "10.8"],
    ["M4", "3.3", "M12X1.5", "10.5"],
    ["M5", "4.2", "M14X1.5", "12.5"],
    ["M6", "5", "M16X1.5", "14.5"],
    ["M8", "6.8", "M18X1.5", "16.5"],
    ["M10", "8.5", "M20X1.5", "18.5"],
    ["M12", "10.2", "M22X1.5", "20.5"],
    ["M14", "12", "M24X1.5", "22.5"],
    ["M16", "14", "M24X2", "22"],
    ["M18", "15.5", "M27X1.5", "25.5"],
    ["M20", "17.5", "M27X2", "25"],
    ["M22", "19.5", "M30X1.5", "28.5"],
    ["M24", "21", "M30X2", "28"],
    ["M27", "24", "M33X2", "31"],
    ["M30", "26.5", "M36X1.5", "34.5"],
    ["M33", "29.5", "M36X3", "33"],
    ["M36", "32", "M39X1.5", "37.5"],
    ["M39", "35", "M39X3", "36"],
];

const FONT: Font = Font { mesh: 0.46, pen: 0.48, gap: 2.0 };

/// Where each column begins, the first row is, and how far apart rows are.
const COLUMNS: [f64; 4] = [-40.0, -17.0, 4.0, 30.0];
const FIRST: f64 = -30.8;
const LEADING: f64 = 3.7;

const HALF: f64 = 48.0;
const THICK: f64 = 3.0;
const RAISED: f64 = 4.5;

pub fn chart() -> Design {
    let border = outline(HALF - 1.5).without(outline(HALF - 2.5));
    let raised = border.and(heading()).and(table()).within(slab(Z, THICK - 1.0, RAISED));
    let plate = outline(HALF).within(slab(Z, 0.0, THICK));
    let shape = raised.and(plate);
    Design { name: "chart", shape, low: [-50.0, -50.0, 0.0], high: [50.0, 50.0, 8.0], z: 4.0 }
}

fn outline(half: f64) -> Shape {
    intersection([slab(X, -half, half), slab(Y, -half, half)]).rounded(half - HALF + 6.0)
}

fn heading() -> Shape {
    let title = union(FONT.centred("METRIC TAPPING DRILLS IN MM")).translate([0.0, -41.3, 0.0]);
    title.and(union(line(FIRST - 5.0, ["COARSE", "DRILL", "FINE", "DRILL"])))
}

/// Row by row, as it is read.
fn table() -> Shape {
    union(ROWS.into_iter().enumerate().flat_map(|(row, cells)| line(FIRST + LEADING * row as f64, cells)))
}

/// One text in each column.
fn line(y: f64, cells: [&str; 4]) -> Vec<Shape> {
    let cells = cells.into_iter().zip(COLUMNS);
    cells.map(|(text, x)| union(FONT.starting(text)).translate([x, y, 0.0])).collect()
}
