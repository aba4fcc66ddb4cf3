//! Shapes, put together from simple ones, and the formula of each: below 0 exactly in its material.
//!
//! Lengths are millimetres. Squares are clamped at 32,768, so a part should stay within about 100 of the origin. Every
//! formula is a distance, or near one: such a formula has tight bounds over a region, on which tiles depend. The shapes
//! `by_products` and the cones alone are no distances, so that they can have neither round edges nor a wall.

use crate::formula::{Formula, Id, nearest};
use layers::Opcode;
use std::rc::Rc;

/// A direction, of length 1.
pub type Direction = [f64; 3];

pub const X: Direction = [1.0, 0.0, 0.0];
pub const Y: Direction = [0.0, 1.0, 0.0];
pub const Z: Direction = [0.0, 0.0, 1.0];

/// A shape. Copies are cheap: they share their parts.
#[derive(Clone)]
pub struct Shape(Rc<Kind>);

enum Kind {
    /// All points p with n·p below a limit.
    Plane(Direction, f64),
    /// All points nearer than a limit to the origin, as measured along some directions at right angles: a slab for one,
    /// an endless cylinder for two, a sphere for three.
    Near(Vec<Direction>, f64),
    /// The same, by a sum of products.
    NearByProducts(Vec<Direction>, f64),
    /// All points nearer to the line along a direction through the origin than a slope times what is left to the tip,
    /// at a place of this line. Beyond the tip the formula tells nothing.
    Taper {
        along: Direction,
        tip: f64,
        slope: f64,
    },
    Union(Vec<Shape>),
    Meet(Vec<Shape>),
    Outside(Shape),
    Moved(Shape, [f64; 3]),
    Rounded(Shape, f64),
    Shell(Shape, f64),
}

/// How a shape's formula is wanted.
#[derive(Clone, Copy)]
struct Wanted {
    /// Where the shape's own origin lies.
    at: [f64; 3],
    /// Of everything but the shape.
    outside: bool,
    /// The radius of edges where faces meet; 0 for sharp ones.
    edge: f64,
    /// Whether the edges are round as seen from outside: those of a rounded hole, of which the outside is wanted.
    turned: bool,
    /// How far the surface is moved outward.
    grown: f64,
}

/// The direction of a vector.
pub fn direction(vector: [f64; 3]) -> Direction {
    let length = dot(vector, vector).sqrt();
    vector.map(|c| c / length)
}

fn dot(a: [f64; 3], b: [f64; 3]) -> f64 {
    (0..3).map(|axis| a[axis] * b[axis]).sum()
}

fn cross(a: [f64; 3], b: [f64; 3]) -> [f64; 3] {
    [a[1] * b[2] - a[2] * b[1], a[2] * b[0] - a[0] * b[2], a[0] * b[1] - a[1] * b[0]]
}

/// A half-space: all points whose part along the direction is below the limit.
pub fn plane(normal: Direction, limit: f64) -> Shape {
    Shape::new(Kind::Plane(normal, limit))
}

/// All points between two parallel planes.
pub fn slab(normal: Direction, low: f64, high: f64) -> Shape {
    let middle = (low + high) / 2.0;
    Shape::new(Kind::Near(vec![normal], (high - low) / 2.0)).translate(normal.map(|c| c * middle))
}

/// A box between two corners.
pub fn block(low: [f64; 3], high: [f64; 3]) -> Shape {
    intersection([slab(X, low[0], high[0]), slab(Y, low[1], high[1]), slab(Z, low[2], high[2])])
}

/// Two directions at right angles to one and to each other.
fn across(along: Direction) -> Vec<Direction> {
    // An axis across, if there is one, makes for a short formula.
    let axis = [X, Y, Z].into_iter().min_by(|a, b| dot(*a, along).abs().total_cmp(&dot(*b, along).abs()));
    let first = direction(cross(cross(along, axis.unwrap()), along));
    vec![first, cross(along, first)]
}

/// A cylinder without ends, along a direction through the origin.
pub fn rod(along: Direction, radius: f64) -> Shape {
    Shape::new(Kind::Near(across(along), radius))
}

/// The same the way it is often written by hand: x·x + y·y − r·r.
pub fn rod_by_products(along: Direction, radius: f64) -> Shape {
    Shape::new(Kind::NearByProducts(across(along), radius))
}

/// A cylinder along a direction through the origin, between two places of it.
pub fn cylinder(along: Direction, radius: f64, low: f64, high: f64) -> Shape {
    intersection([rod(along, radius), slab(along, low, high)])
}

/// A tapered cylinder along a direction through the origin, between two places of it, with a radius at each.
pub fn frustum(along: Direction, radii: [f64; 2], low: f64, high: f64) -> Shape {
    let slope = (radii[0] - radii[1]) / (high - low);
    assert!(slope != 0.0, "a cylinder has no tip");
    let tip = low + radii[0] / slope;
    // the way to the tip is along the direction, or against it
    let (toward, sign) = if slope > 0.0 { (along, 1.0) } else { (along.map(|c| -c), -1.0) };
    let taper = Shape::new(Kind::Taper { along: toward, tip: sign * tip, slope: slope.abs() });
    intersection([taper, slab(along, low, high)])
}

/// A cone along a direction through the origin, from a place with this radius to the tip.
pub fn cone(along: Direction, radius: f64, low: f64, tip: f64) -> Shape {
    frustum(along, [radius, 0.0], low, tip)
}

/// A boss on a plate, along z: its radius at the foot, and how much narrower it gets for each unit of height, so that
/// it leaves its mould.
pub fn boss(radius: f64, draft: f64, low: f64, high: f64) -> Shape {
    frustum(Z, [radius, radius - draft * (high - low)], low, high)
}

/// A sphere round the origin.
pub fn sphere(radius: f64) -> Shape {
    Shape::new(Kind::Near(vec![X, Y, Z], radius))
}

/// The same the way it is often written by hand: x·x + y·y + z·z − r·r.
pub fn sphere_by_products(radius: f64) -> Shape {
    Shape::new(Kind::NearByProducts(vec![X, Y, Z], radius))
}

/// Everything in any of the shapes.
pub fn union(shapes: impl IntoIterator<Item = Shape>) -> Shape {
    Shape::new(Kind::Union(shapes.into_iter().collect()))
}

/// Everything in all of the shapes.
pub fn intersection(shapes: impl IntoIterator<Item = Shape>) -> Shape {
    Shape::new(Kind::Meet(shapes.into_iter().collect()))
}

impl Shape {
    fn new(kind: Kind) -> Self {
        Shape(Rc::new(kind))
    }

    /// This shape and the other.
    pub fn and(self, other: Shape) -> Self {
        union([self, other])
    }

    /// What lies in both.
    pub fn within(self, other: Shape) -> Self {
        intersection([self, other])
    }

    /// This shape less the other: the difference.
    pub fn without(self, other: Shape) -> Self {
        intersection([self, Shape::new(Kind::Outside(other))])
    }

    pub fn translate(self, by: [f64; 3]) -> Self {
        Shape::new(Kind::Moved(self, by))
    }

    /// One such shape at each place.
    pub fn at_each(self, places: &[[f64; 3]]) -> Self {
        union(places.iter().map(|&place| self.clone().translate(place)))
    }

    /// The same with round outer edges, where the faces of intersections and differences in it meet. No face moves.
    pub fn rounded(self, radius: f64) -> Self {
        Shape::new(Kind::Rounded(self, radius))
    }

    /// The wall of this thickness round the surface, half of it to each side.
    pub fn shell(self, thickness: f64) -> Self {
        Shape::new(Kind::Shell(self, thickness / 2.0))
    }

    /// Adds the formula of this shape.
    pub fn formula(&self, f: &mut Formula) -> Id {
        self.build(f, Wanted { at: [0.0; 3], outside: false, edge: 0.0, turned: false, grown: 0.0 })
    }

    fn build(&self, f: &mut Formula, w: Wanted) -> Id {
        match &*self.0 {
            Kind::Plane(normal, limit) => plane_formula(f, *normal, *limit, w),
            Kind::Near(directions, limit) => {
                let distance = distance(f, directions, w);
                surface(f, distance, *limit, w)
            }
            Kind::NearByProducts(directions, limit) => {
                assert!(w.grown == 0.0, "a sum of products has no round edges");
                let places = directions.iter().map(|&d| place_from(f, d, w.at)).collect();
                let sum = sum_of(f, places, |f, place| f.binary(Opcode::Multiply, place, place));
                surface(f, sum, limit * limit, w)
            }
            Kind::Taper { along, tip, slope } => {
                assert!(w.grown == 0.0, "a cone has no round edges");
                let distance = distance(f, &across(*along), w);
                let left = to_tip(f, *along, *tip, w);
                let quotient = f.binary(Opcode::Divide, distance, left);
                surface(f, quotient, *slope, w)
            }
            Kind::Shell(shape, limit) => {
                let value = shape.build(f, Wanted { outside: false, turned: false, grown: 0.0, ..w });
                let distance = f.unary(Opcode::Absolute, value);
                surface(f, distance, *limit, w)
            }
            Kind::Outside(shape) => shape.build(f, Wanted { outside: !w.outside, ..w }),
            Kind::Moved(shape, by) => shape.build(f, moved(w, *by)),
            Kind::Rounded(shape, edge) => shape.build(f, Wanted { edge: *edge, turned: w.outside, ..w }),
            Kind::Union(_) => self.combined(f, w.outside, w),
            Kind::Meet(_) => self.combined(f, !w.outside, w),
        }
    }

    /// The formula of a union or, if `meet`, of an intersection, as one run of minima or maxima over all its terms.
    fn combined(&self, f: &mut Formula, meet: bool, w: Wanted) -> Id {
        let mut terms = Vec::new();
        self.terms(meet, w, &mut terms);
        if meet != w.turned && w.edge > 0.0 && terms.len() > 1 {
            return rounded_formula(f, &terms, w);
        }
        let values: Vec<Id> = terms.iter().map(|(shape, w)| shape.build(f, *w)).collect();
        let op = if meet { Opcode::Maximum } else { Opcode::Minimum };
        values.into_iter().reduce(|all, one| f.binary(op, all, one)).expect("a union of nothing")
    }

    /// The terms of nested unions or, if `meet`, of nested intersections. The outside of a union is an intersection.
    fn terms(&self, meet: bool, w: Wanted, into: &mut Vec<(Shape, Wanted)>) {
        match &*self.0 {
            Kind::Meet(shapes) if meet != w.outside => shapes.iter().for_each(|s| s.terms(meet, w, into)),
            Kind::Union(shapes) if meet == w.outside => shapes.iter().for_each(|s| s.terms(meet, w, into)),
            Kind::Outside(shape) => shape.terms(meet, Wanted { outside: !w.outside, ..w }, into),
            Kind::Moved(shape, by) => shape.terms(meet, moved(w, *by), into),
            _ => into.push((self.clone(), w)),
        }
    }
}

fn moved(w: Wanted, by: [f64; 3]) -> Wanted {
    Wanted { at: [w.at[0] + by[0], w.at[1] + by[1], w.at[2] + by[2]], ..w }
}

/// The distance from the shape's own origin, measured along some directions.
fn distance(f: &mut Formula, directions: &[Direction], w: Wanted) -> Id {
    let places: Vec<Id> = directions.iter().map(|&d| place_from(f, d, w.at)).collect();
    if let [place] = places[..] {
        return f.unary(Opcode::Absolute, place);
    }
    root_of_squares(f, places)
}

fn root_of_squares(f: &mut Formula, places: Vec<Id>) -> Id {
    let sum = sum_of(f, places, |f, place| f.unary(Opcode::Square, place));
    f.unary(Opcode::Root, sum)
}

/// The sum of what is made of each place.
fn sum_of(f: &mut Formula, places: Vec<Id>, term: fn(&mut Formula, Id) -> Id) -> Id {
    let terms: Vec<Id> = places.into_iter().map(|place| term(f, place)).collect();
    terms.into_iter().reduce(|all, one| f.binary(Opcode::Add, all, one)).expect("no direction")
}

/// The place along a direction or its opposite, whichever is upward, from a given point.
fn place_from(f: &mut Formula, d: Direction, at: [f64; 3]) -> Id {
    let d = upward(d);
    let place = place(f, d);
    f.less(place, nearest(dot(d, at)))
}

/// What is left along a direction to a place of it, seen from the shape's own origin.
fn to_tip(f: &mut Formula, along: Direction, tip: f64, w: Wanted) -> Id {
    let place = place(f, upward(along));
    let tip = tip + dot(along, w.at);
    if upward(along) == along { f.from(nearest(tip), place) } else { f.less(place, nearest(-tip)) }
}

/// Of a direction and its opposite the one whose first part other than 0 is above 0, so that the two share a formula.
fn upward(d: Direction) -> Direction {
    let first = d.into_iter().find(|&c| nearest(c) != 0).expect("no direction");
    d.map(|c| if first < 0.0 { -c } else { c })
}

/// The place along an upward direction: the sum of its parts times the axes.
fn place(f: &mut Formula, d: Direction) -> Id {
    let mut sum = None;
    for axis in (0..3).filter(|&axis| nearest(d[axis]) != 0) {
        let part = scaled_axis(f, axis, d[axis].abs());
        let op = if d[axis] > 0.0 { Opcode::Add } else { Opcode::Subtract };
        sum = Some(sum.map_or(part, |sum| f.binary(op, sum, part)));
    }
    sum.expect("no direction")
}

fn scaled_axis(f: &mut Formula, axis: usize, factor: f64) -> Id {
    let place = f.axis(axis);
    if nearest(factor) == nearest(1.0) {
        return place;
    }
    let factor = f.constant(nearest(factor));
    f.binary(Opcode::Multiply, place, factor)
}

/// The value of the material whose distance is below a limit. For the outside the difference is turned round, which
/// takes no further clause.
fn surface(f: &mut Formula, distance: Id, limit: f64, w: Wanted) -> Id {
    if w.outside { f.from(nearest(limit - w.grown), distance) } else { f.less(distance, nearest(limit + w.grown)) }
}

/// A half-space. One that faces downward is the outside of one that faces upward.
fn plane_formula(f: &mut Formula, normal: Direction, limit: f64, w: Wanted) -> Id {
    let limit = limit + dot(normal, w.at);
    let place = place(f, upward(normal));
    if upward(normal) == normal {
        return surface(f, place, limit, w);
    }
    surface(f, place, -limit, Wanted { outside: !w.outside, ..w })
}

/// An intersection with round edges: the faces are moved inward by the edge's radius, and the material is what lies
/// nearer than this radius to what they enclose.
fn rounded_formula(f: &mut Formula, terms: &[(Shape, Wanted)], w: Wanted) -> Id {
    let zero = f.constant(0);
    let beyond: Vec<Id> = terms
        .iter()
        .map(|(shape, term)| {
            let outside = term.outside != w.turned;
            let value = shape.build(f, Wanted { outside, turned: false, grown: -w.edge, ..*term });
            f.binary(Opcode::Maximum, value, zero)
        })
        .collect();
    let distance = root_of_squares(f, beyond);
    surface(f, distance, w.edge, Wanted { outside: w.turned, ..w })
}
