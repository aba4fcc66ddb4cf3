//! Letters made of strokes, on a grid 4 wide and 6 high, y downward.

use crate::shape::*;

/// How the letters are drawn: the grid's mesh, then half the width of a stroke and the gap between letters, in meshes.
pub struct Font {
    pub mesh: f64,
    pub pen: f64,
    pub gap: f64,
}

impl Font {
    /// The strokes of a line of text with its middle at the origin.
    pub fn centred(&self, line: &str) -> Vec<Shape> {
        self.from(-self.length(line) / 2.0, line)
    }

    /// The strokes of a line of text that begins at the origin.
    pub fn starting(&self, line: &str) -> Vec<Shape> {
        self.from(0.0, line)
    }

    /// In meshes, with a gap for each letter.
    fn length(&self, line: &str) -> f64 {
        line.chars().map(|letter| width(letter) + self.gap).sum()
    }

    fn from(&self, start: f64, line: &str) -> Vec<Shape> {
        let mut letters = Vec::new();
        let mut x = start;
        for letter in line.chars() {
            let middle = x + (width(letter) + self.gap) / 2.0;
            let strokes = self.strokes(letter).into_iter();
            letters.extend(strokes.map(|stroke| stroke.translate([middle * self.mesh, 0.0, 0.0])));
            x += width(letter) + self.gap;
        }
        letters
    }

    /// A place along an axis of the letter's grid, from the letter's middle.
    fn across(&self, x: f64) -> f64 {
        (x - 2.0) * self.mesh
    }

    fn down(&self, y: f64) -> f64 {
        (y - 3.0) * self.mesh
    }

    /// All points between two columns of the grid, and a pen's half width more.
    fn columns(&self, from: f64, to: f64) -> Shape {
        slab(X, self.across(from - self.pen), self.across(to + self.pen))
    }

    fn rows(&self, from: f64, to: f64) -> Shape {
        slab(Y, self.down(from - self.pen), self.down(to + self.pen))
    }

    /// An upright stroke from top to bottom.
    fn stem(&self, x: f64) -> Shape {
        self.columns(x, x).within(self.rows(0.0, 6.0))
    }

    /// A level stroke.
    fn bar(&self, y: f64, from: f64, to: f64) -> Shape {
        self.rows(y, y).within(self.columns(from, to))
    }

    /// A slanting stroke.
    fn slant(&self, from: (f64, f64), to: (f64, f64)) -> Shape {
        let normal = direction([to.1 - from.1, from.0 - to.0, 0.0]);
        let line = slab(normal, -self.pen * self.mesh, self.pen * self.mesh).translate([
            self.across(from.0),
            self.down(from.1),
            0.0,
        ]);
        line.within(self.rows(from.1.min(to.1), from.1.max(to.1)))
    }

    /// The outline of a box with round corners.
    fn loop_of(&self, left: f64, top: f64, right: f64, bottom: f64) -> Shape {
        let sides = [slab(X, self.across(left), self.across(right)), slab(Y, self.down(top), self.down(bottom))];
        intersection(sides).rounded(1.5 * self.mesh).shell(2.0 * self.pen * self.mesh)
    }

    /// What lies right of a column.
    fn right_of(&self, x: f64) -> Shape {
        plane([-1.0, 0.0, 0.0], -self.across(x))
    }

    fn left_of(&self, x: f64) -> Shape {
        plane(X, self.across(x))
    }

    /// The round part of P and R.
    fn bowl(&self) -> Shape {
        self.loop_of(-3.0, 0.0, 4.0, 3.2).within(self.right_of(0.0))
    }

    /// A round stroke open to the left, as 3 has two.
    fn hook(&self, top: f64, bottom: f64) -> Shape {
        self.loop_of(-3.0, top, 4.0, bottom).within(self.right_of(0.2))
    }

    fn strokes(&self, letter: char) -> Vec<Shape> {
        match letter {
            ' ' => vec![],
            'A' => {
                vec![self.slant((0.0, 6.0), (1.8, 0.0)), self.slant((2.2, 0.0), (4.0, 6.0)), self.bar(4.0, 1.0, 3.0)]
            }
            'C' => vec![self.loop_of(0.0, 0.0, 4.0, 6.0).without(self.right_of(2.0).within(self.rows(2.0, 4.0)))],
            'D' => vec![self.stem(0.0), self.loop_of(-3.0, 0.0, 4.0, 6.0).within(self.right_of(0.0))],
            'E' => vec![self.stem(0.0), self.bar(0.0, 0.0, 3.6), self.bar(3.0, 0.0, 3.0), self.bar(6.0, 0.0, 3.6)],
            'F' => vec![self.stem(0.0), self.bar(0.0, 0.0, 3.6), self.bar(3.0, 0.0, 3.0)],
            'G' => vec![
                self.loop_of(0.0, 0.0, 4.0, 6.0).without(self.right_of(2.0).within(self.rows(2.0, 2.8))),
                self.bar(3.3, 2.4, 4.0),
            ],
            'I' => vec![self.stem(2.0)],
            'L' => vec![self.stem(0.0), self.bar(6.0, 0.0, 3.6)],
            'M' => vec![
                self.stem(0.0),
                self.slant((0.3, 0.0), (2.0, 4.0)),
                self.slant((2.0, 4.0), (3.7, 0.0)),
                self.stem(4.0),
            ],
            'N' => vec![self.stem(0.0), self.slant((0.4, 0.0), (3.6, 6.0)), self.stem(4.0)],
            'O' | '0' => vec![self.loop_of(0.0, 0.0, 4.0, 6.0)],
            'P' => vec![self.stem(0.0), self.bowl()],
            'R' => vec![self.stem(0.0), self.bowl(), self.slant((2.0, 3.2), (4.0, 6.0))],
            'S' => vec![
                self.loop_of(0.0, 0.0, 4.0, 3.0).without(self.right_of(2.0).within(self.rows(1.4, 2.0))),
                self.loop_of(0.0, 3.0, 4.0, 6.0).without(self.left_of(2.0).within(self.rows(4.0, 4.6))),
            ],
            'T' => vec![self.stem(2.0), self.bar(0.0, 0.0, 4.0)],
            'U' => vec![self.loop_of(0.0, -3.0, 4.0, 6.0).within(self.rows(0.0, 9.0))],
            'X' => vec![self.slant((0.3, 0.0), (3.7, 6.0)), self.slant((3.7, 0.0), (0.3, 6.0))],
            'Y' => {
                vec![
                    self.slant((0.0, 0.0), (1.5, 2.6)),
                    self.slant((2.5, 2.6), (4.0, 0.0)),
                    self.columns(2.0, 2.0).within(self.rows(2.6, 6.0)),
                ]
            }
            'Z' => vec![self.bar(0.0, 0.0, 4.0), self.slant((3.6, 0.0), (0.4, 6.0)), self.bar(6.0, 0.0, 4.0)],
            '1' => vec![self.stem(2.0), self.slant((0.8, 1.4), (2.0, 0.0))],
            '2' => vec![
                self.loop_of(0.0, 0.0, 4.0, 3.4).within(self.right_of(2.0).and(plane(Y, self.down(1.4)))),
                self.slant((2.4, 3.4), (0.4, 6.0)),
                self.bar(6.0, 0.0, 4.0),
            ],
            '4' => vec![self.slant((2.7, 0.0), (0.2, 4.0)), self.bar(4.0, 0.0, 4.0), self.stem(3.0)],
            '3' => vec![self.hook(0.0, 3.0), self.hook(3.0, 6.0)],
            '5' => {
                vec![self.bar(0.0, 0.0, 3.6), self.columns(0.0, 0.0).within(self.rows(0.0, 3.0)), self.hook(2.6, 6.0)]
            }
            '6' => vec![self.loop_of(0.0, 2.6, 4.0, 6.0), self.slant((3.2, 0.0), (0.3, 3.6))],
            '7' => vec![self.bar(0.0, 0.0, 4.0), self.slant((3.6, 0.0), (1.2, 6.0))],
            '8' => vec![self.loop_of(0.4, 0.0, 3.6, 2.8), self.loop_of(0.0, 2.8, 4.0, 6.0)],
            '9' => vec![self.loop_of(0.0, 0.0, 4.0, 3.4), self.slant((3.7, 2.4), (0.8, 6.0))],
            '.' => vec![self.bar(6.0, 2.0, 2.0)],
            _ => panic!("no letter {letter}"),
        }
    }
}

fn width(letter: char) -> f64 {
    match letter {
        'I' | '.' => 0.0,
        ' ' => 1.0,
        '1' => 1.8,
        'L' | 'E' | 'F' => 3.6,
        _ => 4.0,
    }
}
