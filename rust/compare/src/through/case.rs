//! A case: three vertices and a value at each. Nothing is lent, so one call is
//! all of it, and the answer is all that can differ.

use crate::case::{numbers, second_vertices};
use crate::points::sample;
use crate::random::twice_area;
use crate::subject::{Subject, ThroughSeen};
use merikohin::Plane;
use std::fmt;

#[derive(Clone, Copy, Debug, PartialEq, Eq)]
pub struct Case {
    /// x1, y1, x2, y2, x3, y3.
    pub vertices: [i32; 6],
    pub values: [i32; 3],
}

impl Case {
    pub fn new(vertices: [i32; 6], values: [i32; 3]) -> Case {
        Case { vertices, values }
    }

    /// Started at another of the vertices, each with its own value.
    pub fn started(&self, at: usize) -> Case {
        let vertices = std::array::from_fn(|k| self.vertices[(k + 2 * at) % 6]);
        Case { vertices, values: std::array::from_fn(|k| self.values[(k + at) % 3]) }
    }

    /// The last two vertices exchanged, each with its own value.
    pub fn turned(&self) -> Case {
        let ([x1, y1, x2, y2, x3, y3], [r1, r2, r3]) = (self.vertices, self.values);
        Case { vertices: [x1, y1, x3, y3, x2, y2], values: [r1, r3, r2] }
    }

    /// Rows and columns exchanged, which exchanges a and b. It would turn the
    /// triangle, so two vertices are exchanged too.
    pub fn mirrored(&self) -> Case {
        let [x1, y1, x2, y2, x3, y3] = self.vertices;
        Case { vertices: [y1, x1, y2, x2, y3, x3], ..*self }.turned()
    }
}

/// For cases with vertices in range: what can be said of them without Cramer's
/// rule, so that the second program's use of it is held to something too.
impl Case {
    pub fn area(&self) -> i64 {
        twice_area(self.vertices)
    }

    /// The edge values at a pixel's sample point, that of the edge across from each
    /// vertex. They add up to the doubled area, and as shares of it they are the
    /// shares that the three values have in the exact one.
    pub fn weights(&self, x: i32, y: i32) -> [i64; 3] {
        let v = self.vertices.map(i64::from);
        let (px, py) = (i64::from(sample(x)), i64::from(sample(y)));
        [[2, 3, 4, 5], [4, 5, 0, 1], [0, 1, 2, 3]]
            .map(|[x1, y1, x2, y2]| (py - v[y1]) * (v[x2] - v[x1]) - (px - v[x1]) * (v[y2] - v[y1]))
    }

    /// The exact value at a pixel, times the doubled area.
    pub fn value_by_area(&self, x: i32, y: i32) -> i64 {
        self.weights(x, y).iter().zip(self.values).map(|(weight, value)| weight * i64::from(value)).sum()
    }

    /// The exact steps to the right and down, times the doubled area.
    pub fn steps_by_area(&self) -> [i64; 2] {
        let first = self.value_by_area(0, 0);
        [self.value_by_area(1, 0) - first, self.value_by_area(0, 1) - first]
    }
}

/// What the second program answers.
pub fn second_answer(case: &Case) -> ThroughSeen {
    seen(second::through::plane_through(&second_vertices(case.vertices), case.values))
}

/// An answer of the second program in the engine's words.
pub fn seen(through: second::through::Through) -> ThroughSeen {
    let second::through::Through { number, plane: second::Plane { c, a, b } } = through;
    ThroughSeen { number, plane: Plane { c, a, b }, alike_in_rust: true }
}

/// The subject's answer, and in words how it differs from the second program's.
pub fn check(subject: Subject, case: &Case) -> (ThroughSeen, Option<String>) {
    let (seen, expected) = (subject.plane_through(case), second_answer(case));
    let text = (seen != expected)
        .then(|| format!("  {}: {}\n  second: {}\n", subject.name(), in_words(&seen), in_words(&expected)));
    (seen, text)
}

fn in_words(seen: &ThroughSeen) -> String {
    let Plane { c, a, b } = seen.plane;
    let alike = if seen.alike_in_rust { "" } else { "; in Rust it answers another" };
    format!("number {}, c {c}, a {a}, b {b}{alike}", seen.number)
}

impl fmt::Display for Case {
    fn fmt(&self, f: &mut fmt::Formatter<'_>) -> fmt::Result {
        let ([x1, y1, x2, y2, x3, y3], [r1, r2, r3]) = (self.vertices, self.values);
        write!(f, "through={x1},{y1},{x2},{y2},{x3},{y3} values={r1},{r2},{r3}")
    }
}

impl std::str::FromStr for Case {
    type Err = String;

    fn from_str(text: &str) -> Result<Case, String> {
        let mut case = Case::new([0; 6], [0; 3]);
        for word in text.split_whitespace() {
            match word.split_once('=') {
                Some(("through", value)) => case.vertices.copy_from_slice(&numbers(value, 6)?),
                Some(("values", value)) => case.values.copy_from_slice(&numbers(value, 3)?),
                _ => return Err(format!("through=.. and values=.. wanted: {word}")),
            }
        }
        Ok(case)
    }
}
