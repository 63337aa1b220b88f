//! A piece of a small screen, enlarged: its pixels as squares, which of them the
//! engine covers, and where their points are on the picture.

use crate::canvas::{Canvas, Colour, Corner};
use kit::pixels;
use merikohin::{Screen, Triangle, Vertex};

/// A column and a row of the small screen.
pub type Pixel = (i32, i32);

/// A point of the small screen, in eighths of a pixel.
pub type Eighths = (i32, i32);

pub mod colour {
    use crate::canvas::Colour;
    pub const PAPER: Colour = (31, 63, 31);
    pub const LINES: Colour = (25, 50, 25);
    pub const EMPTY: Colour = (30, 60, 30);
    pub const INK: Colour = (5, 10, 6);
    /// A sample point that nothing covers.
    pub const NOBODY: Colour = (19, 39, 20);
}

/// The small screen's width; its height is that of what is shown.
const WIDTH: u32 = 16;

/// From pixel (0, 0) on, at most 16 columns: where they begin on the picture, and
/// `cell`, as wide as a square and one line together.
pub struct Grid {
    pub columns: i32,
    pub rows: i32,
    pub left: f64,
    pub top: f64,
    pub cell: f64,
}

impl Grid {
    /// The pixels that the triangles cover, row by row, as the engine answers.
    pub fn covered(&self, triangles: &[[Eighths; 3]]) -> Vec<Pixel> {
        let area = 2 * WIDTH * self.rows as u32;
        let screen = Screen::new(0, area, WIDTH, self.rows as u32);
        let mut ram = vec![0; 2 * area as usize];
        merikohin::clear(&mut ram, screen, 0, 65535).expect("the screen fits");
        for corners in triangles {
            let vertices = corners.map(|(x, y)| Vertex { x, y, depth: 0, colour: 1 });
            let triangle = Triangle::through(vertices).expect("the vertices are in range and go round clockwise");
            merikohin::draw(&mut ram, screen, triangle).expect("the screen is sound");
        }
        let row = |y: u32| pixels::halves(merikohin::row(&ram, screen, y).expect("a row of the screen"));
        let marked = |y: u32| row(y).zip(0..).filter(|(colour, _)| *colour != 0).map(move |(_, x)| (x, y as i32));
        (0..screen.height()).flat_map(marked).collect()
    }

    /// All that are shown.
    pub fn pixels(&self) -> Vec<Pixel> {
        (0..self.rows).flat_map(|y| (0..self.columns).map(move |x| (x, y))).collect()
    }

    /// Where a point is on the picture. Lines are a pixel wide, and a point between
    /// two squares is in the middle of their line.
    pub fn at(&self, (x, y): Eighths, depth: f64) -> Corner {
        let place = |start: f64, eighths: i32| start + 0.5 + f64::from(eighths) * self.cell / 8.0;
        Corner { x: place(self.left, x), y: place(self.top, y), depth }
    }

    /// A pixel's square, up to its lines.
    pub fn square(&self, canvas: &mut Canvas, (x, y): Pixel, depth: f64, colour: Colour) {
        let corner = (self.left + f64::from(x) * self.cell + 1.0, self.top + f64::from(y) * self.cell + 1.0);
        canvas.rect(corner, (self.cell - 1.0, self.cell - 1.0), depth, colour);
    }

    /// The lines, behind all squares.
    pub fn lines(&self, canvas: &mut Canvas, depth: f64) {
        let size = (f64::from(self.columns) * self.cell + 1.0, f64::from(self.rows) * self.cell + 1.0);
        canvas.rect((self.left, self.top), size, depth, colour::LINES);
    }
}

/// A pixel's sample point where the rule has it so many eighths to the right and
/// down.
pub fn sample((x, y): Pixel, offset: i32) -> Eighths {
    (8 * x + offset, 8 * y + offset)
}

#[cfg(test)]
mod tests {
    use super::*;

    const GRID: Grid = Grid { columns: 3, rows: 2, left: 10.0, top: 20.0, cell: 16.0 };

    #[test]
    fn rows_of_pixels() {
        let all = [(0, 0), (1, 0), (2, 0), (0, 1), (1, 1), (2, 1)];
        assert_eq!(GRID.pixels(), all);
        let halves = [[(0, 0), (24, 0), (0, 16)], [(24, 16), (0, 16), (24, 0)]];
        assert_eq!(GRID.covered(&halves), all);
        assert_eq!(GRID.covered(&[[(8, 8), (16, 8), (8, 16)], [(16, 16), (8, 16), (16, 8)]]), [(1, 1)]);
    }

    /// A point in the middle of a pixel is in the middle of its square, with as
    /// many of the picture's pixels to its left as to its right.
    #[test]
    fn enlarged() {
        let mut canvas = Canvas::new(64, 56, (0, 0, 0));
        GRID.square(&mut canvas, (1, 1), 0.0, (0, 0, 1));
        let at = GRID.at((12, 12), 0.0);
        assert_eq!((at.x, at.y), (34.5, 44.5));
        let colours = canvas.colours();
        let square: Vec<usize> = (0..64 * 56).filter(|k| colours[*k] == 1).collect();
        assert_eq!((square.len(), square[0], square[square.len() - 1]), (15 * 15, 37 * 64 + 27, 51 * 64 + 41));
    }
}
