//! A spur gear of 24 teeth, module 3: a rim, a thin web with holes, and a hub with a bore and a keyway.

use crate::Design;
use crate::shape::*;
use std::f64::consts::PI;

const TEETH: usize = 24;
const MODULE: f64 = 3.0;
const PITCH: f64 = MODULE * TEETH as f64 / 2.0;
const TIP: f64 = PITCH + MODULE;
const FOOT: f64 = PITCH - 1.25 * MODULE;
const WIDTH: f64 = 14.0;
const PRESSURE: f64 = 20.0 * PI / 180.0;

pub fn gear() -> Design {
    let wheel = teeth().within(rod(Z, TIP)).and(rod(Z, FOOT)).within(slab(Z, 0.0, WIDTH));
    let hub = cylinder(Z, 11.0, -2.0, WIDTH + 2.0).rounded(1.0);
    let shape = wheel.without(recesses()).without(holes()).and(hub).without(bore());
    Design { name: "gear", shape, low: [-40.0, -40.0, -4.0], high: [40.0, 40.0, 20.0], z: WIDTH / 2.0 }
}

/// A place by its angle and its distance from the axis, and how far to the side.
fn polar(angle: f64, out: f64, aside: f64) -> [f64; 3] {
    let (sin, cos) = angle.sin_cos();
    [cos * out - sin * aside, sin * out + cos * aside, 0.0]
}

/// The teeth, mirror images next to each other: these share numbers, which then keep their slots for a short time.
fn teeth() -> Shape {
    let mut order: Vec<usize> = (0..TEETH).collect();
    order.sort_by_key(|i| (i % (TEETH / 2)).min(TEETH / 2 - i % (TEETH / 2)));
    union(order.into_iter().map(tooth))
}

/// Each flank is the arc that touches the involute at the pitch circle, so a tooth is the overlap of two discs.
fn tooth(index: usize) -> Shape {
    let angle = 2.0 * PI * index as f64 / TEETH as f64;
    let half = PI / 2.0 / TEETH as f64;
    let radius = PITCH * PRESSURE.sin();
    // The normal where the flank crosses the pitch circle, as seen from the middle of the tooth.
    let (sin, cos) = (PRESSURE - half).sin_cos();
    let (out, aside) = (PITCH * half.cos() - radius * sin, radius * cos - PITCH * half.sin());
    let flank = |side: f64| rod(Z, radius).translate(polar(angle, out, side * aside));
    flank(-1.0).within(flank(1.0))
}

/// The web is thinner than the rim on both faces.
fn recesses() -> Shape {
    let ring = rod(Z, 27.0).without(rod(Z, 9.0));
    ring.without(slab(Z, 4.0, WIDTH - 4.0))
}

fn holes() -> Shape {
    let places: Vec<_> = (0..6).map(|i| polar(PI * (i as f64 / 3.0 + 1.0 / 6.0), 19.0, 0.0)).collect();
    rod(Z, 5.0).at_each(&places)
}

fn bore() -> Shape {
    rod(Z, 6.0).and(intersection([slab(X, -2.0, 2.0), slab(Y, -8.5, 0.0)]))
}
