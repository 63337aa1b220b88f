//! One shared edge, enlarged: the pixels that each of two triangles covers, as
//! the engine answers them, the points at which they are sampled, and the
//! triangles themselves over them.

use crate::canvas::{across, Canvas, Colour, Corner, SAMPLE_OFFSET};
use crate::grid::colour::{EMPTY, INK, NOBODY, PAPER};
use crate::grid::{sample, Eighths, Grid, Pixel};
use crate::text::{self, Type};

const GRID: Grid = Grid { columns: 13, rows: 9, left: 46.0, top: 24.0, cell: 42.0 };

/// A vertex in eighths, given as quarters of a pixel from the sample point of
/// pixel (0, 0): wherever that point is, the same sample points are on the edge.
const fn vertex(x: i32, y: i32) -> Eighths {
    (2 * x + SAMPLE_OFFSET, 2 * y + SAMPLE_OFFSET)
}

/// The edge goes half a pixel up for each pixel to the right, and both
/// triangles have it: the first goes down it, the second up.
const LOW: Eighths = vertex(4, 26);
const HIGH: Eighths = vertex(44, 6);
const TRIANGLES: [[Eighths; 3]; 2] = [[vertex(9, 3), HIGH, LOW], [LOW, HIGH, vertex(38, 29)]];

mod depth {
    pub const ARROW: f64 = 10.0;
    pub const POINT: f64 = 20.0;
    pub const RING: f64 = 30.0;
    pub const LINE: f64 = 40.0;
    pub const CELL: f64 = 50.0;
}

/// Each triangle's pixels, and the points there.
const PALE: [Colour; 2] = [(21, 51, 31), (31, 53, 19)];
const STRONG: [Colour; 2] = [(2, 25, 24), (27, 24, 1)];

/// Whether a point is on the shared edge, its ends included.
fn on_edge((x, y): Eighths) -> bool {
    let (dx, dy) = (HIGH.0 - LOW.0, HIGH.1 - LOW.1);
    (y - LOW.1) * dx == (x - LOW.0) * dy && LOW.0 <= x && x <= HIGH.0
}

pub fn draw() -> Canvas {
    let mut canvas = Canvas::new(640, 480, PAPER);
    let shapes = TRIANGLES.map(|triangle| GRID.covered(&[triangle]));
    for at in GRID.pixels() {
        let owner = shapes.iter().position(|shape| shape.contains(&at));
        pixel(&mut canvas, at, owner);
    }
    GRID.lines(&mut canvas, depth::CELL + 1.0);
    outlines(&mut canvas);
    legend(&mut canvas);
    canvas
}

/// A pixel as a square in its owner's colour, and its sample point: with a ring
/// where it is on the shared edge.
fn pixel(canvas: &mut Canvas, at: Pixel, owner: Option<usize>) {
    GRID.square(canvas, at, depth::CELL, owner.map_or(EMPTY, |k| PALE[k]));
    let sampled = sample(at, SAMPLE_OFFSET);
    point(canvas, GRID.at(sampled, depth::POINT), owner, on_edge(sampled));
}

fn point(canvas: &mut Canvas, at: Corner, owner: Option<usize>, ringed: bool) {
    let colour = owner.map_or(NOBODY, |k| STRONG[k]);
    let radius = if ringed { 6.0 } else { 3.5 };
    canvas.disc(at, (radius, radius), colour);
    if ringed {
        canvas.disc(Corner { depth: depth::RING, ..at }, (8.5, 8.5), INK);
    }
}

/// Each triangle's own sides in its colour, and the shared one in ink with an
/// arrow beside it for each triangle's direction.
fn outlines(canvas: &mut Canvas) {
    for (k, [a, b, c]) in TRIANGLES.into_iter().enumerate() {
        for (from, to) in [(a, b), (b, c), (c, a)] {
            let ends = (GRID.at(from, depth::LINE), GRID.at(to, depth::LINE));
            if on_edge(from) && on_edge(to) {
                arrow(canvas, ends, STRONG[k]);
                canvas.line(ends.0, ends.1, 3.0, INK);
            } else {
                canvas.line(ends.0, ends.1, 3.0, STRONG[k]);
            }
        }
    }
}

/// An arrow to the right of the way, between two points that have a ring.
fn arrow(canvas: &mut Canvas, (from, to): (Corner, Corner), colour: Colour) {
    let (x, y) = across((from.x, from.y), (to.x, to.y), -11.0);
    let at = |part: f64, far: f64| Corner {
        x: from.x + part * (to.x - from.x) + far * x,
        y: from.y + part * (to.y - from.y) + far * y,
        depth: depth::ARROW,
    };
    canvas.line(at(0.34, 1.0), at(0.44, 1.0), 3.0, colour);
    canvas.triangle([at(0.44, 0.4), at(0.47, 1.0), at(0.44, 1.6)], [colour; 3]);
}

fn legend(canvas: &mut Canvas) {
    let set = Type { depth: depth::POINT, colour: INK, block: 2.0 };
    for (k, name) in ["TRIANGLE 1", "TRIANGLE 2"].into_iter().enumerate() {
        let y = 424.0 + 26.0 * k as f64;
        canvas.rect((GRID.left, y), (28.0, 18.0), depth::CELL, PALE[k]);
        canvas.rect((GRID.left - 2.0, y - 2.0), (32.0, 22.0), depth::CELL + 1.0, STRONG[k]);
        text::write(canvas, name, (GRID.left + 42.0, y + 2.0), set);
    }
    for (k, name) in ["SAMPLE POINT", "ON THE SHARED EDGE"].into_iter().enumerate() {
        let y = 424.0 + 26.0 * k as f64;
        point(canvas, Corner { x: 288.5, y: y + 9.5, depth: depth::POINT }, None, k == 1);
        text::write(canvas, name, (308.0, y + 2.0), set);
    }
}

#[cfg(test)]
mod tests {
    use super::*;

    /// What the picture is there to show: no pixel twice, five sample points on
    /// the edge, and each of them in exactly one triangle.
    #[test]
    fn each_point_on_the_edge_in_one_triangle() {
        let [first, second] = TRIANGLES.map(|triangle| GRID.covered(&[triangle]));
        assert!(first.iter().all(|at| !second.contains(at)));
        let ties = GRID.pixels().into_iter().filter(|at| on_edge(sample(*at, SAMPLE_OFFSET)));
        let owned: Vec<bool> = ties.map(|at| first.contains(&at) || second.contains(&at)).collect();
        assert_eq!(owned, [true; 5]);
    }

    /// The triangles, as the picture shows them, are all of them on it.
    #[test]
    fn all_is_shown() {
        for (x, y) in TRIANGLES.into_iter().flatten() {
            assert!((0..=8 * GRID.columns).contains(&x) && (0..=8 * GRID.rows).contains(&y));
        }
    }
}
