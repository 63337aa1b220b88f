//! Half a pixel, enlarged (M-100): the pixels of one ball while each was sampled
//! at its upper left corner, and now that each is sampled at its centre. The
//! ball's own outline is over both, and its centre beside that of its pixels.

use crate::canvas::{Canvas, Colour, Corner, SAMPLE_OFFSET};
use crate::grid::colour::{EMPTY, INK, NOBODY, PAPER};
use crate::grid::{sample, Eighths, Grid, Pixel};
use crate::text::{self, Type};

/// Half a pixel, in eighths.
const HALF: i32 = 4;

/// A rule, and where on the picture the ball is by it: its words, and where in a
/// pixel it samples, in eighths to the right and down. The picture is of this
/// one change: what it shows stays if the point moves again.
struct Rule {
    name: &'static str,
    sampled: &'static str,
    offset: i32,
    grid: Grid,
}

const BEFORE: Rule = Rule {
    name: "BEFORE",
    sampled: "SAMPLED AT THE CORNER",
    offset: 0,
    grid: Grid { columns: 9, rows: 9, left: 20.0, top: 82.0, cell: 32.0 },
};

const NOW: Rule = Rule {
    name: "NOW",
    sampled: "SAMPLED AT THE CENTRE",
    offset: HALF,
    grid: Grid { columns: 9, rows: 9, left: 331.0, top: 82.0, cell: 32.0 },
};

/// The ball's centre, in the middle of the shown piece, and a quarter of its
/// corners, in eighths from there: the others are these, turned, so that it is
/// as far from its centre on every side.
const CENTRE: Eighths = (36, 36);
const QUARTER: [Eighths; 6] = [(27, 0), (26, 7), (23, 14), (19, 19), (14, 23), (7, 26)];

/// Depths, from the nearest.
mod depth {
    pub const CROSS: f64 = 10.0;
    pub const RING: f64 = 20.0;
    pub const LINE: f64 = 25.0;
    pub const POINT: f64 = 30.0;
    pub const CELL: f64 = 40.0;
}

/// The ball's pixels, the points there, and the mark at the pixels' centre.
const PALE: Colour = (31, 47, 23);
const STRONG: Colour = (25, 8, 4);
const MARK: Colour = (2, 25, 24);

/// The ball's corners, one after the other.
fn corners() -> Vec<Eighths> {
    let turns: [fn(Eighths) -> Eighths; 4] = [|(x, y)| (x, y), |(x, y)| (-y, x), |(x, y)| (-x, -y), |(x, y)| (y, -x)];
    let around = turns.iter().flat_map(|turn| QUARTER.iter().map(move |corner| turn(*corner)));
    around.map(|(x, y)| (CENTRE.0 + x, CENTRE.1 + y)).collect()
}

/// The ball's outline: each corner with the next.
fn outline() -> Vec<(Eighths, Eighths)> {
    let corners = corners();
    let next = corners.iter().cycle().skip(1);
    corners.iter().copied().zip(next.copied()).collect()
}

impl Rule {
    /// The pixels that the ball covers by this rule. A triangle that is
    /// moved as far as the sample point was moved covers now exactly what it
    /// covered before (proved: `offset-moved`), so today's engine is asked about the
    /// moved ball.
    fn covered(&self) -> Vec<Pixel> {
        let far = SAMPLE_OFFSET - self.offset;
        let moved = |(x, y): Eighths| (x + far, y + far);
        let ball: Vec<[Eighths; 3]> = outline().into_iter().map(|(from, to)| [CENTRE, from, to].map(moved)).collect();
        self.grid.covered(&ball)
    }

    fn draw(&self, canvas: &mut Canvas) {
        let set = |block: f64| Type { depth: depth::LINE, colour: INK, block };
        text::write(canvas, self.name, (self.grid.left, 24.0), set(3.0));
        text::write(canvas, self.sampled, (self.grid.left, 54.0), set(2.0));
        let covered = self.covered();
        for at in self.grid.pixels() {
            let (ground, colour) = if covered.contains(&at) { (PALE, STRONG) } else { (EMPTY, NOBODY) };
            self.grid.square(canvas, at, depth::CELL, ground);
            point(canvas, self.grid.at(sample(at, self.offset), depth::POINT), colour);
        }
        self.grid.lines(canvas, depth::CELL + 1.0);
        for (from, to) in outline() {
            canvas.line(self.grid.at(from, depth::LINE), self.grid.at(to, depth::LINE), 2.0, INK);
        }
        ring(canvas, self.grid.at(CENTRE, depth::RING));
        cross(canvas, self.grid.at(centre(&covered), depth::CROSS));
    }
}

/// The centre of pixels, as near as eighths go: the mean of the middles of their
/// squares, wherever they are sampled.
fn centre(pixels: &[Pixel]) -> Eighths {
    let count = pixels.len() as i32;
    let mean = |sum: i32| (8 * sum + count / 2) / count + HALF;
    (mean(pixels.iter().map(|at| at.0).sum()), mean(pixels.iter().map(|at| at.1).sum()))
}

fn point(canvas: &mut Canvas, at: Corner, colour: Colour) {
    canvas.disc(at, (3.5, 3.5), colour);
}

/// Where the ball's own centre is.
fn ring(canvas: &mut Canvas, at: Corner) {
    canvas.disc(at, (7.5, 7.5), PAPER);
    canvas.disc(Corner { depth: at.depth + 1.0, ..at }, (9.5, 9.5), INK);
}

/// Where the centre of its pixels is.
fn cross(canvas: &mut Canvas, at: Corner) {
    for (wide, high) in [(23.0, 3.0), (3.0, 23.0)] {
        let corner = (at.x - wide / 2.0, at.y - high / 2.0);
        canvas.rect(corner, (wide, high), at.depth, MARK);
        canvas.rect((corner.0 - 1.0, corner.1 - 1.0), (wide + 2.0, high + 2.0), at.depth + 1.0, PAPER);
    }
}

/// What the marks are, in two columns under the two balls.
fn legend(canvas: &mut Canvas) {
    let set = Type { depth: depth::LINE, colour: INK, block: 2.0 };
    let (first, second) = (BEFORE.grid.left, NOW.grid.left);
    let (upper, lower) = (396.0, 428.0);
    let at = |x: f64, y: f64, depth: f64| Corner { x: x + 14.5, y: y + 6.5, depth };
    point(canvas, at(first, upper, depth::POINT), NOBODY);
    point(canvas, at(first, lower, depth::POINT), STRONG);
    ring(canvas, at(second, upper, depth::RING));
    cross(canvas, at(second, lower, depth::CROSS));
    for (x, y, words) in [
        (first, upper, "SAMPLE POINT"),
        (first, lower, "INSIDE THE BALL"),
        (second, upper, "CENTRE OF THE BALL"),
        (second, lower, "CENTRE OF ITS PIXELS"),
    ] {
        text::write(canvas, words, (x + 40.0, y), set);
    }
}

pub fn draw() -> Canvas {
    let mut canvas = Canvas::new(640, 480, PAPER);
    BEFORE.draw(&mut canvas);
    NOW.draw(&mut canvas);
    legend(&mut canvas);
    canvas
}

#[cfg(test)]
mod tests {
    use super::*;

    /// What the picture is there to show, by the engine's answers: the pixels were
    /// half a pixel to the right of the ball and below it, and are where it is.
    #[test]
    fn half_a_pixel() {
        let (before, now) = (BEFORE.covered(), NOW.covered());
        assert_ne!(before, now);
        assert_eq!(centre(&before), (CENTRE.0 + HALF, CENTRE.1 + HALF));
        assert_eq!(centre(&now), CENTRE);
    }

    /// Each rule's pixels are those whose point, as the picture shows it, is inside
    /// the ball; and no point is on its outline, where a reader could not tell.
    #[test]
    fn covered_where_the_points_are_inside() {
        for rule in [BEFORE, NOW] {
            let covered = rule.covered();
            for at in rule.grid.pixels() {
                let (x, y) = sample(at, rule.offset);
                let value =
                    |(from, to): (Eighths, Eighths)| (y - from.1) * (to.0 - from.0) - (x - from.0) * (to.1 - from.1);
                let least = outline().into_iter().map(value).min().unwrap();
                assert!(least != 0 && covered.contains(&at) == (least > 0), "{} {at:?}", rule.name);
            }
        }
    }

    /// The ball and its pixels, as the picture shows them, are all of them on it.
    #[test]
    fn all_is_shown() {
        for rule in [BEFORE, NOW] {
            let shown = rule.grid.pixels();
            assert!(rule.covered().iter().all(|at| shown.contains(at)));
            let on = |n: i32, shown: i32| (0..=8 * shown).contains(&n);
            assert!(corners().iter().all(|(x, y)| on(*x, rule.grid.columns) && on(*y, rule.grid.rows)));
        }
    }

    #[test]
    fn a_centre() {
        assert_eq!(centre(&[(2, 5)]), (20, 44));
        assert_eq!(centre(&[(0, 0), (1, 0), (0, 1), (1, 1)]), (8, 8));
        assert_eq!(centre(&[(0, 0), (0, 1), (1, 0)]), (7, 7));
    }
}
