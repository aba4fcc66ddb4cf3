//! A round flange with a tapered spigot and a bore that widens upward, countersunk bolt holes and bosses with a draft.

use crate::Design;
use crate::shape::*;
use std::f64::consts::TAU;

const THICK: f64 = 6.0;
const TALL: f64 = 30.0;
const DOWN: Direction = [0.0, 0.0, -1.0];

pub fn flange() -> Design {
    let plate = cylinder(Z, 36.0, 0.0, THICK).rounded(1.0);
    let spigot = frustum(Z, [17.0, 12.0], 0.0, TALL);
    let bore = frustum(Z, [5.9, 9.1], -1.0, TALL + 1.0);
    let bosses = boss(4.0, 0.1, THICK - 1.0, 16.0).without(rod(Z, 1.5).within(plane(DOWN, -8.0)));
    let drilled = plate.without(bolt_hole().at_each(&around(0.0)));
    let shape = union([drilled, spigot, bosses.at_each(&around(0.5))]).without(bore);
    Design { name: "flange", shape, low: [-40.0, -40.0, 0.0], high: [40.0, 40.0, 32.0], z: 9.0 }
}

/// Six places round the spigot, by how far they are turned.
fn around(turn: f64) -> [[f64; 3]; 6] {
    [0.0, 1.0, 2.0, 3.0, 4.0, 5.0].map(|index: f64| {
        let (sin, cos) = (TAU * (index + turn) / 6.0).sin_cos();
        [27.0 * cos, 27.0 * sin, 0.0]
    })
}

/// A hole with a cone for the head: as deep as it is wide, a little beyond the face.
fn bolt_hole() -> Shape {
    rod(Z, 2.2).and(cone(DOWN, 4.9, -THICK - 0.5, -THICK + 4.4))
}
