//! The lower half of a housing for electronics: walls with a rim for the lid, bosses for its screws, ribs, feet for a
//! board, a cable hole, air slots, and ears to screw it down.

use crate::Design;
use crate::shape::*;

const LONG: f64 = 36.0;
const WIDE: f64 = 28.0;
const TALL: f64 = 30.0;
const WALL: f64 = 3.0;
const CORNER: f64 = 7.0;

pub fn housing() -> Design {
    let outside = outline(0.0).within(slab(Z, 0.0, TALL)).and(ears());
    let body = outside.without(outline(WALL).within(plane([0.0, 0.0, -1.0], -WALL))).without(rim());
    let inside = union([bosses(), ribs(), feet(), collar()]).within(outline(WALL / 2.0));
    let shape = body.and(inside).without(screw_holes()).without(cable_hole()).without(air_slots());
    Design { name: "housing", shape, low: [-48.0, -48.0, 0.0], high: [48.0, 48.0, 32.0], z: 9.0 }
}

/// The outer faces of the walls, moved inward, without floor or top.
fn outline(inward: f64) -> Shape {
    let (x, y) = (LONG - inward, WIDE - inward);
    intersection([slab(X, -x, x), slab(Y, -y, y)]).rounded(CORNER - inward)
}

/// What is taken off the outer half of the walls at the top, so that the lid fits over.
fn rim() -> Shape {
    plane([0.0, 0.0, -1.0], 2.5 - TALL).without(outline(WALL / 2.0))
}

/// One place in each corner, this far from the middle.
fn corners(x: f64, y: f64) -> [[f64; 3]; 4] {
    [[-x, -y, 0.0], [x, -y, 0.0], [-x, y, 0.0], [x, y, 0.0]]
}

const BOSS: (f64, f64) = (LONG - 7.0, WIDE - 7.0);
const FOOT: (f64, f64) = (15.0, 11.0);

/// Round posts for the lid's screws, each tied to both walls.
fn bosses() -> Shape {
    let post = cylinder(Z, 4.5, 1.0, TALL - 4.0);
    let ties =
        corners(BOSS.0 + 5.0, BOSS.1).map(|place| block([-5.0, -1.0, 1.0], [5.0, 1.0, TALL - 8.0]).translate(place));
    post.at_each(&corners(BOSS.0, BOSS.1)).and(union(ties))
}

/// Upright ribs inside the long walls.
fn ribs() -> Shape {
    let rib = block([-0.9, -4.0, 1.0], [0.9, 4.0, TALL - 6.0]);
    let x = [-16.0, 0.0, 16.0];
    union(x.map(|x| rib.clone().at_each(&[[x, -WIDE + 3.0, 0.0], [x, WIDE - 3.0, 0.0]])))
}

/// Low feet that carry the board.
fn feet() -> Shape {
    cylinder(Z, 3.2, 1.0, 10.0).rounded(0.6).at_each(&corners(FOOT.0, FOOT.1))
}

/// A thicker wall round the cable hole.
fn collar() -> Shape {
    cylinder(X, 7.0, -LONG - 1.0, -LONG + 6.0).translate([0.0, 0.0, 16.0])
}

fn cable_hole() -> Shape {
    cylinder(X, 4.5, -LONG - 4.0, -LONG + 8.0).translate([0.0, 0.0, 16.0])
}

/// Blind holes down the bosses and the feet.
fn screw_holes() -> Shape {
    let above = |z: f64| plane([0.0, 0.0, -1.0], -z);
    let lid = rod(Z, 1.7).within(above(8.0)).at_each(&corners(BOSS.0, BOSS.1));
    let board = rod(Z, 1.2).within(above(4.0)).at_each(&corners(FOOT.0, FOOT.1));
    lid.and(board)
}

/// A row of slots with round ends through the floor.
fn air_slots() -> Shape {
    let slot = intersection([slab(X, -1.0, 1.0), slab(Y, -9.0, 9.0)]).rounded(1.0).within(plane(Z, 5.0));
    slot.at_each(&[-8.0, -4.0, 0.0, 4.0, 8.0].map(|x| [x, 0.0, 0.0]))
}

/// Flat ears at both ends, each with a hole.
fn ears() -> Shape {
    let plate = intersection([slab(X, -LONG - 10.0, LONG + 10.0), slab(Y, -10.0, 10.0)]).rounded(6.0);
    let holes = rod(Z, 2.4).at_each(&[[-LONG - 4.5, 0.0, 0.0], [LONG + 4.5, 0.0, 0.0]]);
    plate.within(slab(Z, 0.0, 4.0)).without(holes)
}
