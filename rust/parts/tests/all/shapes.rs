//! Each shape has its material where it should.

use crate::common::{Random, value_at};
use parts::formula::{Formula, nearest};
use parts::shape::*;

fn material(shape: &Shape, place: [f64; 3]) -> bool {
    let mut formula = Formula::default();
    let result = shape.formula(&mut formula);
    value_at(&formula, result, place.map(|c| i128::from(nearest(c)))) < 0
}

/// Checks a shape against a rule at random places, but for those within a hair of its surface.
fn agrees(shape: Shape, rule: impl Fn([f64; 3]) -> f64) {
    let mut random = Random(3);
    let mut counts = [0, 0];
    for _ in 0..4000 {
        let place = random.sample(12 << 16).map(|c| c as f64 / 65_536.0);
        let distance = rule(place);
        if distance.abs() > 0.01 {
            assert_eq!(material(&shape, place), distance < 0.0, "at {place:?}");
            counts[(distance < 0.0) as usize] += 1;
        }
    }
    assert!(counts[0] > 100 && counts[1] > 100, "{counts:?}");
}

fn length(parts: &[f64]) -> f64 {
    parts.iter().map(|c| c * c).sum::<f64>().sqrt()
}

#[test]
fn simple_shapes() {
    agrees(sphere(8.0), |p| length(&p) - 8.0);
    agrees(sphere(8.0).translate([1.0, -2.0, 3.0]), |[x, y, z]| length(&[x - 1.0, y + 2.0, z - 3.0]) - 8.0);
    agrees(plane(X, 3.0), |p| p[0] - 3.0);
    agrees(plane([0.0, 0.0, -1.0], 3.0).translate([0.0, 0.0, 2.0]), |p| 2.0 - p[2] - 3.0);
    agrees(plane(direction([-1.0, 2.0, 0.0]), 1.0), |[x, y, _]| (2.0 * y - x) / 5f64.sqrt() - 1.0);
    agrees(slab(Y, -2.0, 6.0), |p| (p[1] - 2.0).abs() - 4.0);
    agrees(cylinder(X, 6.0, -9.0, 4.0), |[x, y, z]| (length(&[y, z]) - 6.0).max(x - 4.0).max(-9.0 - x));
    let across = |[x, y, z]: [f64; 3]| length(&[(x - y) / 2f64.sqrt(), z - 2.0]) - 5.0;
    agrees(rod(direction([1.0, 1.0, 0.0]), 5.0).translate([0.0, 0.0, 2.0]), across);
}

#[test]
fn shapes_by_products() {
    agrees(sphere_by_products(8.0), |p| length(&p) - 8.0);
    agrees(rod_by_products(X, 5.0).translate([0.0, 1.0, -2.0]), |[_, y, z]| length(&[y - 1.0, z + 2.0]) - 5.0);
    let drilled = sphere_by_products(11.0).without(rod_by_products(Z, 5.0));
    agrees(drilled, |p| (length(&p) - 11.0).max(5.0 - length(&p[..2])));
}

/// A sum of products is no distance, so that its faces cannot be moved.
#[test]
#[should_panic(expected = "no round edges")]
fn products_have_no_round_edges() {
    sphere_by_products(8.0).within(plane(X, 0.0)).rounded(1.0).formula(&mut Formula::default());
}

/// The distance from the z axis less a radius, within two heights.
fn round_rule([x, y, z]: [f64; 3], radius: f64, low: f64, high: f64) -> f64 {
    (length(&[x, y]) - radius).max(low - z).max(z - high)
}

#[test]
fn tapered_shapes() {
    agrees(cone(Z, 10.0, -6.0, 9.0), |p| round_rule(p, (9.0 - p[2]) / 1.5, -6.0, 9.0));
    agrees(cone([0.0, 0.0, -1.0], 10.0, -6.0, 9.0), |p| round_rule(p, (9.0 + p[2]) / 1.5, -9.0, 6.0));
    agrees(frustum(Z, [8.0, 4.0], -10.0, 6.0), |p| round_rule(p, 5.5 - p[2] / 4.0, -10.0, 6.0));
    agrees(frustum(Z, [4.0, 8.0], -10.0, 6.0), |p| round_rule(p, 6.5 + p[2] / 4.0, -10.0, 6.0));
    agrees(boss(9.0, 0.25, -8.0, 8.0), |p| round_rule(p, 7.0 - p[2] / 4.0, -8.0, 8.0));
    let aside = frustum(X, [8.0, 4.0], -10.0, 6.0).translate([1.0, 2.0, -3.0]);
    agrees(aside, |[x, y, z]| round_rule([y - 2.0, z + 3.0, x - 1.0], 5.5 - (x - 1.0) / 4.0, -10.0, 6.0));
    let sunk = block([-9.0; 3], [9.0; 3]).without(cone([0.0, 0.0, -1.0], 9.0, -9.0, 9.0));
    agrees(sunk, |p| {
        let inside = p.iter().map(|c| c.abs()).fold(0.0, f64::max) - 9.0;
        inside.max(-round_rule(p, (9.0 + p[2]) / 2.0, -9.0, 9.0))
    });
}

#[test]
#[should_panic(expected = "no round edges")]
fn cones_have_no_round_edges() {
    cone(Z, 8.0, 0.0, 8.0).rounded(1.0).formula(&mut Formula::default());
}

fn box_rule([x, y, z]: [f64; 3]) -> f64 {
    (x.abs() - 9.0).max(y.abs() - 7.0).max(z.abs() - 5.0)
}

fn small_box() -> Shape {
    block([-9.0, -7.0, -5.0], [9.0, 7.0, 5.0])
}

#[test]
fn combined_shapes() {
    let ball = |p: [f64; 3]| length(&p) - 8.0;
    agrees(small_box(), box_rule);
    agrees(small_box().and(sphere(8.0)), |p| box_rule(p).min(ball(p)));
    agrees(small_box().within(sphere(8.0)), |p| box_rule(p).max(ball(p)));
    agrees(small_box().without(sphere(8.0)), |p| box_rule(p).max(-ball(p)));
    agrees(sphere(8.0).without(small_box()), |p| ball(p).max(-box_rule(p)));
    agrees(sphere(8.0).shell(4.0), |p| ball(p).abs() - 2.0);
    agrees(plane(Y, 0.0).without(sphere(8.0).shell(4.0)), |p| p[1].max(2.0 - ball(p).abs()));
}

fn rounded_rule([x, y, z]: [f64; 3]) -> f64 {
    length(&[(x.abs() - 6.0).max(0.0), (y.abs() - 4.0).max(0.0), (z.abs() - 2.0).max(0.0)]) - 3.0
}

#[test]
fn round_edges() {
    agrees(small_box().rounded(3.0), rounded_rule);
    agrees(sphere(11.0).without(small_box().rounded(3.0)), |p| (length(&p) - 11.0).max(-rounded_rule(p)));
    // A hole's rim is rounded too.
    let drilled = slab(Z, -5.0, 5.0).without(rod(Z, 4.0)).rounded(2.0);
    agrees(drilled, |[x, y, z]| length(&[(z.abs() - 3.0).max(0.0), (6.0 - length(&[x, y])).max(0.0)]) - 2.0);
}

#[test]
fn round_edges_move_no_face() {
    let shape = small_box().rounded(3.0);
    for (inside, outside) in [([8.99, 0.0, 0.0], [9.01, 0.0, 0.0]), ([0.0, 0.0, -4.99], [0.0, 0.0, -5.01])] {
        assert!(material(&shape, inside) && !material(&shape, outside));
    }
}

#[test]
fn equal_subformulas_are_one() {
    let mut formula = Formula::default();
    rod(Z, 2.0).at_each(&[[5.0, 1.0, 0.0], [-5.0, 1.0, 0.0]]).formula(&mut formula);
    // x, 5, x − 5, its square; y, 1, y − 1, its square; sum, root, 2, value. Then x + 5 and its square, sum, root,
    // value, and the minimum.
    assert_eq!(formula.count(), 18);
}
