//! A cube filled with an octet truss: struts along the diagonals of its faces, between a frame and a base plate.

use crate::Design;
use crate::shape::*;

/// The distance between neighbouring layers of nodes.
const PITCH: f64 = 12.0;
/// Layers on either side of the middle one.
const LAYERS: i32 = 2;
const HALF: f64 = PITCH * LAYERS as f64;
const STRUT: f64 = 1.4;

pub fn lattice() -> Design {
    let struts = union(AXES.into_iter().flat_map(struts_across)).within(cube(HALF + STRUT));
    let base = block([-HALF - 4.0, -HALF - 4.0, -HALF - 4.0], [HALF + 4.0, HALF + 4.0, -HALF]).rounded(1.5);
    let shape = union([struts, frame(), base]);
    Design { name: "lattice", shape, low: [-32.0; 3], high: [32.0; 3], z: 1.0 }
}

/// Each axis with the two others.
const AXES: [[Direction; 3]; 3] = [[X, Y, Z], [Y, Z, X], [Z, X, Y]];

fn cube(half: f64) -> Shape {
    block([-half; 3], [half; 3])
}

/// The struts in all layers across the axis w. Nodes are where the three indices have an even sum, so in layer k the
/// strut along u + v, or u − v, that passes u = m is there if m + k is even.
fn struts_across([u, v, w]: [Direction; 3]) -> Vec<Shape> {
    let mut struts = Vec::new();
    for k in -LAYERS..=LAYERS {
        for m in (1 - 2 * LAYERS..2 * LAYERS).filter(|m| (m + k) % 2 == 0) {
            for side in [1.0, -1.0] {
                let along = direction([0, 1, 2].map(|i| u[i] + side * v[i]));
                let place = [0, 1, 2].map(|i| PITCH * (m as f64 * u[i] + k as f64 * w[i]));
                struts.push(rod(along, STRUT).translate(place));
            }
        }
    }
    struts
}

/// The twelve edges of the cube.
fn frame() -> Shape {
    let edges = AXES.map(|[u, v, w]| {
        let bar = slab(u, -2.0, 2.0).within(slab(v, -2.0, 2.0)).within(slab(w, -HALF - 2.0, HALF + 2.0));
        let places = [(-1.0, -1.0), (-1.0, 1.0), (1.0, -1.0), (1.0, 1.0)];
        bar.at_each(&places.map(|(a, b)| [0, 1, 2].map(|i| HALF * (a * u[i] + b * v[i]))))
    });
    union(edges)
}
