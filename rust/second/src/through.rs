//! 02's M-101, the plane through three values: in its words, and by the formulas
//! that source document 001 prints in 4.2, as they stand there. Nothing is taken
//! out of them, and no number is rounded before the end.

use crate::{edge_value, edges, sample_point, vertex_out_of_range, Plane, Vertex};

/// 02, M-101: "Round each of the three numbers down, then raise c by 1,119."
pub const RAISE: i128 = 1119;

/// 02, M-101: "in units of 1/65536".
pub const UNITS: i128 = 65536;

/// 02, M-101: "State it over whole numbers only." A fraction is two of them, and
/// is not reduced.
#[derive(Clone, Copy, Debug, PartialEq, Eq)]
pub struct Fraction {
    pub numerator: i128,
    pub denominator: i128,
}

impl Fraction {
    /// The same value, counted "in units of 1/65536".
    fn in_units(self) -> Fraction {
        Fraction { numerator: UNITS * self.numerator, ..self }
    }

    /// How far it is above another with the same denominator.
    fn above(self, other: Fraction) -> Fraction {
        Fraction { numerator: self.numerator - other.numerator, ..self }
    }

    /// "Round ... down". (Asked where the denominator is positive.)
    fn rounded_down(self) -> i128 {
        self.numerator.div_euclid(self.denominator)
    }
}

/// 001, 4.2: A, B and C of the function Ax + By + C, "essentially a plane through
/// the three color points", each as what stands above `det` in its fraction.
struct Solved {
    det: i128,
    a: i128,
    b: i128,
    c: i128,
}

/// 001, 4.2: "Cramer's Rule can be used to analytically solve the system". It is
/// printed for red.
fn solved(vertices: &[Vertex; 3], values: [i32; 3]) -> Solved {
    let [x1, x2, x3] = vertices.map(|vertex| i128::from(vertex.x));
    let [y1, y2, y3] = vertices.map(|vertex| i128::from(vertex.y));
    let [red1, red2, red3] = values.map(i128::from);
    Solved {
        det: x1 * (y2 - y3) + x2 * (y3 - y1) + x3 * (y1 - y2),
        a: red1 * y2 - red2 * y1 - red1 * y3 + red3 * y1 + red2 * y3 - red3 * y2,
        b: x1 * red2 - x2 * red1 - x1 * red3 + x3 * red1 + x2 * red3 - x3 * red2,
        c: (x2 * y3 - x3 * y2) * red1 - (x1 * y3 - x3 * y1) * red2 + (x1 * y2 - x2 * y1) * red3,
    }
}

/// 02, M-101: "The exact value at a sample point is the fraction given by
/// Cramer's rule in source document 001". (Asked of vertices with an area.)
pub fn exact_at(vertices: &[Vertex; 3], values: [i32; 3], x: i128, y: i128) -> Fraction {
    let (px, py) = sample_point(x, y);
    let Solved { det, a, b, c } = solved(vertices, values);
    Fraction { numerator: a * px + b * py + c, denominator: det }
}

/// 02, M-101: "c (at the sample point of pixel (0, 0)), a and b (the steps per
/// pixel)", before they are rounded, "in units of 1/65536": a is how far the value
/// at the next pixel to the right is above that at (0, 0), b the same downward.
pub fn exact_plane(vertices: &[Vertex; 3], values: [i32; 3]) -> [Fraction; 3] {
    let first = exact_at(vertices, values, 0, 0).in_units();
    let right = exact_at(vertices, values, 1, 0).in_units();
    let below = exact_at(vertices, values, 0, 1).in_units();
    [first, right.above(first), below.above(first)]
}

/// 02, M-101: "Round each of the three numbers down, then raise c by 1,119." As
/// whole numbers, however large.
fn final_three(vertices: &[Vertex; 3], values: [i32; 3]) -> [i128; 3] {
    let [c, a, b] = exact_plane(vertices, values).map(Fraction::rounded_down);
    [c + RAISE, a, b]
}

/// The doubled area, with the sign by which a triangle draws: at every point the
/// values of its three edges add up to it.
pub fn doubled_area(vertices: &[Vertex; 3]) -> i128 {
    edges(vertices).iter().map(|&(from, to)| edge_value(from, to, 0, 0)).sum()
}

/// 02, M-101: "New number 9: a value outside 0 to 32,767, doubled area not
/// positive, or one of the final three outside signed 32 bits, and never
/// otherwise; number 6 goes first".
pub fn through_number(vertices: &[Vertex; 3], values: [i32; 3]) -> u32 {
    if vertex_out_of_range(vertices) {
        return 6;
    }
    if values.iter().any(|value| !(0..=32767).contains(value)) {
        return 9;
    }
    if doubled_area(vertices) <= 0 {
        return 9;
    }
    let fits = |number: &i128| *number >= i128::from(i32::MIN) && *number <= i128::from(i32::MAX);
    if !final_three(vertices, values).iter().all(fits) {
        return 9;
    }
    0
}

/// 02, M-101: the number, with the plane.
#[derive(Clone, Copy, Debug, PartialEq, Eq)]
pub struct Through {
    pub number: u32,
    pub plane: Plane,
}

/// 02, M-101: "From three vertices (range as in 01) and a whole value 0 to 32,767
/// at each, give c ..., a and b".
pub fn plane_through(vertices: &[Vertex; 3], values: [i32; 3]) -> Through {
    let number = through_number(vertices, values);
    if number != 0 {
        // "a refusal gives three zeros".
        return Through { number, plane: Plane { c: 0, a: 0, b: 0 } };
    }
    let [c, a, b] = final_three(vertices, values).map(|number| number as i32);
    Through { number: 0, plane: Plane { c, a, b } }
}

#[cfg(test)]
mod tests {
    use super::*;

    fn vertices([x1, y1, x2, y2, x3, y3]: [i32; 6]) -> [Vertex; 3] {
        [Vertex { x: x1, y: y1 }, Vertex { x: x2, y: y2 }, Vertex { x: x3, y: y3 }]
    }

    fn answer(v: [i32; 6], values: [i32; 3]) -> (u32, [i32; 3]) {
        let Through { number, plane } = plane_through(&vertices(v), values);
        (number, [plane.c, plane.a, plane.b])
    }

    /// The paper's three equations, each multiplied by det; and det is the
    /// doubled area.
    #[test]
    fn the_equations_hold() {
        for v in [[-148, 6152, -4246, -5964, 7186, 5040], [-8192, 8191, 8191, -8192, 17, 3], [1, 2, 3, 5, 8, 13]] {
            for values in [[28928, 28928, 28927], [0, 32767, 1], [5, 5, 5]] {
                let v = vertices(v);
                let Solved { det, a, b, c } = solved(&v, values);
                for (vertex, value) in v.iter().zip(values) {
                    assert_eq!(a * i128::from(vertex.x) + b * i128::from(vertex.y) + c, det * i128::from(value));
                }
                assert_eq!(det, doubled_area(&v));
            }
        }
    }

    /// A third of a value for each pixel, up and down, in both directions.
    #[test]
    fn rounded_down_and_raised() {
        let v = [4, 4, 28, 4, 4, 28];
        assert_eq!(answer(v, [1, 2, 1]), (0, [65536 + 1119, 21845, 0]));
        assert_eq!(answer(v, [2, 1, 2]), (0, [131072 + 1119, -21846, 0]));
        assert_eq!(answer(v, [1, 1, 2]), (0, [65536 + 1119, 0, 21845]));
        assert_eq!(answer(v, [2, 2, 1]), (0, [131072 + 1119, 0, -21846]));
        // A sixth, and 25 / 24 below 0, at the sample point of pixel (0, 0).
        assert_eq!(answer([0, 0, 24, 0, 0, 24], [0, 1, 0]), (0, [10922 + 1119, 21845, 0]));
        assert_eq!(answer([29, 4, 53, 4, 29, 28], [0, 1, 0]), (0, [-68267 + 1119, 21845, 0]));
    }

    #[test]
    fn refused_with_zeros() {
        let v = [4, 4, 28, 4, 4, 28];
        assert_eq!(answer([4, 4, 28, 4, 4, 8192], [-1, 2, 1]), (6, [0; 3]));
        assert_eq!(answer(v, [32767, 32767, 32768]), (9, [0; 3]));
        assert_eq!(answer(v, [0, -1, 0]), (9, [0; 3]));
        assert_eq!(answer([4, 4, 4, 28, 28, 4], [1, 1, 1]), (9, [0; 3]));
        assert_eq!(answer([4, 4, 8, 8, 12, 12], [1, 1, 1]), (9, [0; 3]));
        // a is 2^31, then just below.
        assert_eq!(answer([4, 4, 5, 4, 4, 5], [0, 4096, 0]), (9, [0; 3]));
        assert_eq!(answer([4, 4, 5, 4, 4, 5], [0, 4095, 0]), (0, [1119, 2146959360, 0]));
    }

    /// The exact value is between the values at the vertices, here halfway.
    #[test]
    fn exact_between_the_vertices() {
        let v = vertices([4, 4, 36, 4, 4, 36]);
        let Fraction { numerator, denominator } = exact_at(&v, [10, 30, 20], 2, 0);
        assert_eq!((numerator, denominator), (20 * 1024, 1024));
    }
}
