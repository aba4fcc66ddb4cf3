//! An angle bracket: two plates at right angles, three ribs between them, two holes in each plate. It stands on its edge,
//! as it would be printed, so that both plates are seen from above.

use crate::Design;
use crate::shape::*;
use std::f64::consts::FRAC_1_SQRT_2;

/// The way along each plate from the edge, which is also the way through the other plate.
const ALONG: [Direction; 2] = [[0.0, FRAC_1_SQRT_2, FRAC_1_SQRT_2], [0.0, -FRAC_1_SQRT_2, FRAC_1_SQRT_2]];
const LENGTHS: [f64; 2] = [50.0, 44.0];
const THICK: f64 = 6.0;

pub fn bracket() -> Design {
    let ribs = rib().at_each(&[[-26.0, 0.0, 0.0], [0.0; 3], [26.0, 0.0, 0.0]]);
    let solid = union([plate(0), plate(1), fillet(), ribs]);
    let shape = solid.without(holes(0)).without(holes(1));
    Design { name: "bracket", shape, low: [-36.0, -34.0, 0.0], high: [36.0, 38.0, 40.0], z: 26.0 }
}

/// A place by its distances from the outer faces of the two plates.
fn place(x: f64, first: f64, second: f64) -> [f64; 3] {
    [0, 1, 2].map(|i| x * X[i] + first * ALONG[0][i] + second * ALONG[1][i])
}

/// All beyond a distance from the edge along a plate.
fn beyond(which: usize, distance: f64) -> Shape {
    plane(ALONG[which].map(|c| -c), -distance)
}

/// A plate with round corners and edges.
fn plate(which: usize) -> Shape {
    let length = LENGTHS[which];
    let outline = intersection([slab(X, -30.0, 30.0), slab(ALONG[which], -length, length)]).rounded(8.0);
    intersection([outline, beyond(which, 0.0), slab(ALONG[1 - which], 0.0, THICK)]).rounded(1.0)
}

/// The hollow round between the plates.
fn fillet() -> Shape {
    let sides = ALONG.map(|along| slab(along, THICK - 1.0, THICK + 4.0));
    let corner = intersection(sides).within(slab(X, -29.0, 29.0));
    corner.without(rod(X, 4.0).translate(place(0.0, THICK + 4.0, THICK + 4.0)))
}

/// A triangle between the plates, with a round hole to save weight.
fn rib() -> Shape {
    let corner = intersection([beyond(0, THICK - 1.0), beyond(1, THICK - 1.0), plane(Z, 28.0)]);
    let hole = rod(X, 5.5).translate(place(0.0, THICK + 8.0, THICK + 8.0));
    corner.within(slab(X, -2.0, 2.0)).without(hole)
}

/// Bolt holes through a plate, with room for the heads inside.
fn holes(which: usize) -> Shape {
    let through = ALONG[1 - which];
    let hole = cylinder(through, 3.3, -1.0, THICK + 1.0).and(cylinder(through, 5.5, THICK - 2.0, THICK + 1.0));
    let at = |x: f64| if which == 0 { place(x, 32.0, 0.0) } else { place(x, 0.0, 32.0) };
    hole.at_each(&[at(-13.0), at(13.0)])
}
