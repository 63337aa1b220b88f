//! A screen of the engine, and the shapes that the pictures are made of. Every
//! shape is triangles, and every pixel is written by the engine.

use kit::pixels;
use merikohin::{Screen, Triangle, Vertex};

/// Where in a pixel the engine samples, in eighths of a pixel to the right and
/// down. If the rule moves that point, this number moves with it and nothing
/// else here does; a test below asks the engine.
pub const SAMPLE_OFFSET: i32 = 4;

/// A point in pixels. Pixel (x, y) reaches from (x, y) to (x + 1, y + 1).
pub type Point = (f64, f64);

/// A point with its depth, 0 for the nearest to 32767.
#[derive(Clone, Copy)]
pub struct Corner {
    pub x: f64,
    pub y: f64,
    pub depth: f64,
}

impl Corner {
    /// So far to the right and down, at the same depth.
    pub fn moved(self, right: f64, down: f64) -> Corner {
        Corner { x: self.x + right, y: self.y + down, ..self }
    }
}

/// Red, green and blue, at most 31, 63 and 31.
pub type Colour = (u16, u16, u16);

fn packed((red, green, blue): Colour) -> u16 {
    red << 11 | green << 5 | blue
}

/// The colour so far on the way from one to another: 0 is the first, 1 the other.
pub fn between(from: Colour, to: Colour, far: f64) -> Colour {
    let part = |from: u16, to: u16| (f64::from(from) + far * (f64::from(to) - f64::from(from))).round() as u16;
    (part(from.0, to.0), part(from.1, to.1), part(from.2, to.2))
}

/// Eighths of a pixel.
fn eighths(pixels: f64) -> i32 {
    (8.0 * pixels).round() as i32
}

fn vertex(corner: Corner, colour: Colour) -> Vertex {
    let Corner { x, y, depth } = corner;
    Vertex { x: eighths(x), y: eighths(y), depth: depth.round() as u16, colour: packed(colour) }
}

pub struct Canvas {
    ram: Vec<u8>,
    screen: Screen,
    /// How many triangles were drawn.
    pub triangles: u32,
}

impl Canvas {
    pub fn new(width: u32, height: u32, colour: Colour) -> Canvas {
        let area = 2 * width * height;
        let screen = Screen::new(0, area, width, height);
        let mut ram = vec![0; 2 * area as usize];
        merikohin::clear(&mut ram, screen, packed(colour), 65535).expect("the size is a screen's");
        Canvas { ram, screen, triangles: 0 }
    }

    pub fn size(&self) -> (u32, u32) {
        (self.screen.width(), self.screen.height())
    }

    /// The colours, row by row.
    pub fn colours(&self) -> Vec<u16> {
        let row = |y: u32| merikohin::row(&self.ram, self.screen, y).expect("a row of the screen");
        (0..self.screen.height()).flat_map(|y| pixels::halves(row(y))).collect()
    }

    /// The corners may go round either way. Each has its colour, and the engine
    /// works out the planes.
    pub fn triangle(&mut self, corners: [Corner; 3], colours: [Colour; 3]) {
        let [p, q, r] = [0, 1, 2].map(|k| vertex(corners[k], colours[k]));
        let area = (q.x - p.x) * (r.y - p.y) - (r.x - p.x) * (q.y - p.y);
        // Rounded to eighths a thin one can be a line, which covers nothing and has no planes.
        if area == 0 {
            return;
        }
        let clockwise = if area > 0 { [p, q, r] } else { [p, r, q] };
        let triangle = Triangle::through(clockwise).expect("no depth is too far or too steep");
        merikohin::draw(&mut self.ram, self.screen, triangle).expect("the screen is sound");
        self.triangles += 1;
    }

    /// Four corners, one after the other: two triangles with a common diagonal,
    /// which cover no pixel twice.
    pub fn quad(&mut self, [a, b, c, d]: [Corner; 4], colours: [Colour; 4]) {
        let [at_a, at_b, at_c, at_d] = colours;
        self.triangle([a, b, c], [at_a, at_b, at_c]);
        self.triangle([a, c, d], [at_a, at_c, at_d]);
    }

    /// From the upper left corner, so wide and so high.
    pub fn rect(&mut self, (x, y): Point, (width, height): (f64, f64), depth: f64, colour: Colour) {
        let corner = Corner { x, y, depth };
        let corners = [corner, corner.moved(width, 0.0), corner.moved(width, height), corner.moved(0.0, height)];
        self.quad(corners, [colour; 4]);
    }

    /// A disc, wider than high where the second radius is the smaller one.
    pub fn disc(&mut self, middle: Corner, radii: Point, colour: Colour) {
        self.ball(middle, radii, (0.0, 0.0), [colour; 2]);
    }

    /// A disc in one colour at the point where the light is, in radii from the
    /// middle, and from there evenly to another at the rim.
    pub fn ball(&mut self, middle: Corner, (wide, high): Point, light: Point, [lit, rim]: [Colour; 2]) {
        // Turned by 15 degrees at a time, by products and sums alone: every machine gets the same corners.
        const TURN: (f64, f64) = (0.965_925_826_289_068_3, 0.258_819_045_102_520_74);
        let corner = |(x, y): Point| middle.moved(wide * x, high * y);
        let mut at = (1.0, 0.0);
        for _ in 0..24 {
            let next = (at.0 * TURN.0 - at.1 * TURN.1, at.0 * TURN.1 + at.1 * TURN.0);
            self.triangle([corner(light), corner(at), corner(next)], [lit, rim, rim]);
            at = next;
        }
    }

    /// A straight line, so wide.
    pub fn line(&mut self, from: Corner, to: Corner, width: f64, colour: Colour) {
        let (x, y) = across((from.x, from.y), (to.x, to.y), width / 2.0);
        self.quad([from.moved(x, y), to.moved(x, y), to.moved(-x, -y), from.moved(-x, -y)], [colour; 4]);
    }
}

/// So far to the left of the way from one point to another, seen along it.
pub fn across(from: Point, to: Point, far: f64) -> Point {
    let (x, y) = (to.0 - from.0, to.1 - from.1);
    let long = (x * x + y * y).sqrt();
    (y / long * far, -x / long * far)
}

#[cfg(test)]
mod tests {
    use super::*;

    /// A square of an eighth of a pixel covers pixel (0, 0) where it has the
    /// sample point on its upper left corner, and nowhere else.
    #[test]
    fn the_engine_samples_there() {
        for (right, down) in (0..64).map(|k| (k / 8, k % 8)) {
            let mut canvas = Canvas::new(16, 1, (0, 0, 0));
            let corner = (f64::from(right) / 8.0, f64::from(down) / 8.0);
            canvas.rect(corner, (0.125, 0.125), 0.0, (0, 0, 1));
            let there = right == SAMPLE_OFFSET && down == SAMPLE_OFFSET;
            assert_eq!(canvas.colours()[0] == 1, there, "{right} and {down} eighths");
        }
    }

    /// Rectangles of whole pixels are these pixels, wherever the sample point is.
    #[test]
    fn whole_pixels() {
        let mut canvas = Canvas::new(16, 4, (0, 0, 0));
        canvas.rect((2.0, 1.0), (3.0, 2.0), 9.0, (0, 0, 1));
        canvas.rect((4.0, 0.0), (2.0, 4.0), 10.0, (0, 0, 2));
        let rows: Vec<Vec<u16>> = canvas.colours().chunks(16).map(|row| row[..7].to_vec()).collect();
        assert_eq!(rows[0], [0, 0, 0, 0, 2, 2, 0]);
        assert_eq!(rows[1], [0, 0, 1, 1, 1, 2, 0]);
        assert_eq!(rows[2], rows[1]);
        assert_eq!(rows[3], rows[0]);
        assert_eq!((canvas.size(), canvas.triangles), ((16, 4), 4));
    }

    /// Two planes that cross: at each pixel the nearer one is seen.
    #[test]
    fn depth_decides() {
        let mut canvas = Canvas::new(16, 2, (0, 0, 0));
        let corner = |x: f64, y: f64, depth: f64| Corner { x, y, depth };
        let rising =
            [corner(0.0, 0.0, 100.0), corner(16.0, 0.0, 1700.0), corner(16.0, 2.0, 1700.0), corner(0.0, 2.0, 100.0)];
        canvas.quad(rising, [(0, 0, 1); 4]);
        canvas.rect((0.0, 0.0), (16.0, 2.0), 880.0, (0, 0, 2));
        let depth = |x: i32| 100 + 100 * (8 * x + SAMPLE_OFFSET) / 8;
        let seen: Vec<u16> = (0..16).map(|x| if depth(x) < 880 { 1 } else { 2 }).collect();
        assert_eq!(canvas.colours()[..16], seen[..]);
    }

    /// Evenly from the top's colour to the bottom's, over both triangles alike.
    #[test]
    fn shades() {
        let mut canvas = Canvas::new(16, 16, (0, 0, 0));
        let corner = |x: f64, y: f64| Corner { x, y, depth: 0.0 };
        let corners = [corner(0.0, 0.0), corner(16.0, 0.0), corner(16.0, 16.0), corner(0.0, 16.0)];
        let (top, bottom) = ((31, 0, 0), (0, 63, 31));
        canvas.quad(corners, [top, top, bottom, bottom]);
        for (y, row) in (0..).zip(canvas.colours().chunks(16)) {
            let part = |from: u16, to: u16| (from * (31 - 2 * y) + to * (2 * y + 1)) / 32;
            assert_eq!(row, [packed((part(31, 0), part(0, 63), part(0, 31))); 16], "row {y}");
        }
    }

    /// Lightest where the light is, and darker to every side.
    #[test]
    fn a_ball() {
        let mut canvas = Canvas::new(32, 32, (0, 0, 0));
        canvas.ball(Corner { x: 16.0, y: 16.0, depth: 0.0 }, (12.0, 12.0), (-0.375, 0.0), [(0, 0, 31), (0, 0, 1)]);
        let blue = |x: usize, y: usize| canvas.colours()[32 * y + x];
        assert!(blue(11, 16) >= 28 && blue(0, 16) == 0 && blue(31, 16) == 0);
        assert!(blue(8, 16) < blue(11, 16) && blue(20, 16) < blue(11, 16) && blue(26, 16) < blue(20, 16));
        assert!(blue(11, 10) < blue(11, 16) && blue(11, 22) < blue(11, 16));
    }

    /// A line has no pixels; it is left out.
    #[test]
    fn no_area() {
        let mut canvas = Canvas::new(16, 1, (0, 0, 0));
        let corner = |x: f64| Corner { x, y: 0.5, depth: x };
        canvas.triangle([corner(0.0), corner(9.0), corner(3.0)], [(31, 63, 31); 3]);
        assert_eq!((canvas.colours(), canvas.triangles), (vec![0; 16], 0));
    }

    #[test]
    fn on_the_way_between_colours() {
        let (from, to) = ((31, 0, 10), (0, 63, 10));
        assert_eq!([0.0, 0.5, 1.0].map(|far| between(from, to, far)), [from, (16, 32, 10), to]);
    }

    #[test]
    fn to_the_left_of_the_way() {
        assert_eq!(across((0.0, 0.0), (10.0, 0.0), 2.0), (0.0, -2.0));
        assert_eq!(across((1.0, 1.0), (4.0, 5.0), 5.0), (4.0, -3.0));
    }
}
