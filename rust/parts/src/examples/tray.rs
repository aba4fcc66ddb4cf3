//! A tray with rows of round seats, a ball in every other, and a hole in each corner. Every round face is written by
//! hand, as x·x + y·y + z·z − r·r.

use crate::Design;
use crate::shape::*;

const ROWS: i32 = 6;
const PITCH: f64 = 11.0;
const SEAT: f64 = 3.8;
const BALL: f64 = 3.3;
const HALF: f64 = 36.0;
const THICK: f64 = 8.0;

pub fn tray() -> Design {
    let plate = block([-HALF, -HALF, 0.0], [HALF, HALF, THICK]);
    let seats = sphere_by_products(SEAT).at_each(&places(THICK, |_| true));
    let corners = [[-33.5, -33.5, 0.0], [33.5, -33.5, 0.0], [-33.5, 33.5, 0.0], [33.5, 33.5, 0.0]];
    let holes = rod_by_products(Z, 1.5).at_each(&corners);
    // each ball lies on the floor of its seat
    let balls = sphere_by_products(BALL).at_each(&places(THICK - SEAT + BALL, |index| index % 2 == 0));
    let shape = plate.without(seats).without(holes).and(balls);
    Design { name: "tray", shape, low: [-40.0, -40.0, 0.0], high: [40.0, 40.0, 16.0], z: 6.5 }
}

/// The middles of some of the seats, at a height; chosen by the sum of row and column.
fn places(z: f64, chosen: fn(i32) -> bool) -> Vec<[f64; 3]> {
    let along = |index: i32| PITCH * (f64::from(index) - f64::from(ROWS - 1) / 2.0);
    let seats = (0..ROWS).flat_map(|row| (0..ROWS).map(move |column| (row, column)));
    seats.filter(|(row, column)| chosen(row + column)).map(|(row, column)| [along(column), along(row), z]).collect()
}
