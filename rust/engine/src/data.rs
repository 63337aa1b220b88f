//! The plain data that calls take and answer, laid out as C has it.

use crate::{Halt, Refusal};

/// A screen: where its colours and its depths start in RAM, and the size number
/// S, which [`Screen::new`] makes of a width and a height.
#[repr(C)]
#[derive(Clone, Copy, Debug, Default, PartialEq, Eq, Hash)]
pub struct Screen {
    pub colour_start: u32,
    pub depth_start: u32,
    pub size_number: u32,
}

impl Screen {
    /// A screen of this width (a multiple of 16, from 16 to 640) and height (1
    /// to 480). Any other size gets the size number 0, which no screen has and
    /// every call refuses with [`crate::Refusal::ScreenNotSound`].
    ///
    /// ```
    /// use merikohin::Screen;
    /// assert_eq!(Screen::new(0, 614_400, 640, 480).size_number, 20960);
    /// assert_eq!(Screen::new(0, 0, 24, 1).size_number, 0);
    /// ```
    #[must_use]
    pub const fn new(colour_start: u32, depth_start: u32, width: u32, height: u32) -> Screen {
        let fits = width % 16 == 0 && width >= 16 && width <= 640 && height >= 1 && height <= 480;
        let size_number = if fits { width / 16 * 512 + height } else { 0 };
        Screen { colour_start, depth_start, size_number }
    }

    /// The width in pixels that the size number says.
    #[must_use]
    pub const fn width(self) -> u32 {
        self.size_number / 512 * 16
    }

    /// The height in rows that the size number says.
    #[must_use]
    pub const fn height(self) -> u32 {
        self.size_number % 512
    }
}

/// A plane: at pixel (x, y) it has c + a·x + b·y, taken modulo 2^32. The default
/// is 0 everywhere.
#[repr(C)]
#[derive(Clone, Copy, Debug, Default, PartialEq, Eq, Hash)]
pub struct Plane {
    pub c: i32,
    pub a: i32,
    pub b: i32,
}

/// Three vertices in eighths of a pixel, x to the right, y downward.
#[repr(C)]
#[derive(Clone, Copy, Debug, Default, PartialEq, Eq, Hash)]
pub struct Vertices {
    pub x1: i32,
    pub y1: i32,
    pub x2: i32,
    pub y2: i32,
    pub x3: i32,
    pub y3: i32,
}

impl Vertices {
    /// The six numbers in order: x1, y1, x2, y2, x3, y3.
    #[must_use]
    pub const fn numbers(self) -> [i32; 6] {
        [self.x1, self.y1, self.x2, self.y2, self.x3, self.y3]
    }
}

impl From<[i32; 6]> for Vertices {
    fn from([x1, y1, x2, y2, x3, y3]: [i32; 6]) -> Vertices {
        Vertices { x1, y1, x2, y2, x3, y3 }
    }
}

impl From<[Vertex; 3]> for Vertices {
    fn from([v1, v2, v3]: [Vertex; 3]) -> Vertices {
        Vertices { x1: v1.x, y1: v1.y, x2: v2.x, y2: v2.y, x3: v3.x, y3: v3.y }
    }
}

/// A vertex and what is drawn there: its place in eighths of a pixel, its depth
/// and its colour. [`Triangle::through`] makes a triangle of three.
///
/// The colour is red × 2048 + green × 32 + blue, as in [`crate::clear`], so it has
/// no part out of range. The depth goes from 0, the nearest, to 32767
/// ([`crate::VALUE_MOST`]); a clear's goes to 65535.
#[derive(Clone, Copy, Debug, Default, PartialEq, Eq, Hash)]
pub struct Vertex {
    pub x: i32,
    pub y: i32,
    pub depth: u16,
    pub colour: u16,
}

impl Vertex {
    /// What a triangle's four planes have here, in their order: depth, red (0 to
    /// 31), green (0 to 63) and blue (0 to 31).
    ///
    /// ```
    /// let orange = merikohin::Vertex { x: 0, y: 0, depth: 100, colour: 31 * 2048 + 40 * 32 + 1 };
    /// assert_eq!(orange.values(), [100, 31, 40, 1]);
    /// ```
    #[must_use]
    pub fn values(self) -> [i32; 4] {
        [self.depth, self.colour >> 11, self.colour >> 5 & 63, self.colour & 31].map(i32::from)
    }
}

/// A whole value at each of three vertices: a depth, or a part of a colour.
#[repr(C)]
#[derive(Clone, Copy, Debug, Default, PartialEq, Eq, Hash)]
pub struct Values {
    pub r1: i32,
    pub r2: i32,
    pub r3: i32,
}

impl From<[i32; 3]> for Values {
    fn from([r1, r2, r3]: [i32; 3]) -> Values {
        Values { r1, r2, r3 }
    }
}

/// Three vertices, and the planes of the depth (top 16 bits), red (bits 16 to
/// 20), green (bits 16 to 21) and blue (bits 16 to 20). Planes left to the
/// default are 0: the nearest depth, black.
#[repr(C)]
#[derive(Clone, Copy, Debug, Default, PartialEq, Eq, Hash)]
pub struct Triangle {
    pub vertices: Vertices,
    pub depth: Plane,
    pub red: Plane,
    pub green: Plane,
    pub blue: Plane,
}

impl Triangle {
    /// The triangle of three vertices, each with its depth and its colour: its four
    /// planes are those of [`crate::plane_through`]. At every pixel that it covers,
    /// the depth and each part of the colour are between the least and the
    /// greatest of the three vertices', so no colour wraps round. They are the
    /// exact values rounded down; one that is at most 1119/65536 below a whole
    /// number may be that number.
    ///
    /// The vertices go round clockwise, as the screen is seen; a triangle turned
    /// the other way, which would be drawn as nothing, is refused here.
    ///
    /// Refuses with 6, and with 9 where a depth is above 32767, where the vertices
    /// go round the other way or are on one line, and where the depth or the
    /// colour changes too steeply: a plane's three numbers have 32 bits each, and
    /// c is the value carried on to pixel (0, 0).
    ///
    /// ```
    /// use merikohin::{Refusal, Screen, Triangle, Vertex};
    /// let mut ram = [0; 64];
    /// let screen = Screen::new(0, 32, 16, 1);
    /// merikohin::clear(&mut ram, screen, 0, 65535)?;
    /// let (dark, light) = (0, 31); // two shades of blue
    /// let shaded = [
    ///     Vertex { x: 0, y: 0, depth: 100, colour: dark },
    ///     Vertex { x: 64, y: 0, depth: 900, colour: light },
    ///     Vertex { x: 0, y: 64, depth: 100, colour: dark },
    /// ];
    /// merikohin::draw(&mut ram, screen, Triangle::through(shaded)?)?;
    /// let blues: Vec<u8> = merikohin::row(&ram, screen, 0)?.chunks(2).map(|colour| colour[1]).collect();
    /// assert_eq!(blues[..8], [1, 5, 9, 13, 17, 21, 25, 0]); // the last pixel's centre is on the edge, outside
    ///
    /// let [a, b, c] = shaded;
    /// assert_eq!(Triangle::through([a, c, b]), Err(Refusal::NoPlane));
    /// # Ok::<(), Refusal>(())
    /// ```
    pub fn through(vertices: [Vertex; 3]) -> Result<Triangle, Refusal> {
        let [first, second, third] = vertices.map(Vertex::values);
        let corners = Vertices::from(vertices);
        let plane = |k: usize| crate::plane_through(corners, [first[k], second[k], third[k]].into());
        Ok(Triangle { vertices: corners, depth: plane(0)?, red: plane(1)?, green: plane(2)?, blue: plane(3)? })
    }
}

/// A tree: where its first leaf stands, and for each of its sixteen leaves the
/// marks I and O, the colour and the depth. A mark, and `has_depth`, is 0 for no
/// and anything else for yes, and is answered as 0 or 1. The depths mean nothing
/// where none are held. Two trees are equal where they mean the same.
#[repr(C)]
#[derive(Clone, Copy, Debug, Default)]
pub struct Tree {
    pub column: u32,
    pub row: u32,
    pub inside: [u8; 16],
    pub outside: [u8; 16],
    pub colour: [u16; 16],
    pub depth: [u16; 16],
    pub has_depth: u32,
}

impl Tree {
    /// The depths that the leaves hold, if any.
    #[must_use]
    pub fn depths(&self) -> Option<[u16; 16]> {
        (self.has_depth != 0).then_some(self.depth)
    }
}

impl PartialEq for Tree {
    fn eq(&self, other: &Tree) -> bool {
        let marks = |bytes: [u8; 16]| bytes.map(|byte| byte != 0);
        let meaning = |t: &Tree| (t.column, t.row, marks(t.inside), marks(t.outside), t.colour, t.depths());
        meaning(self) == meaning(other)
    }
}

impl Eq for Tree {}

/// A machine state. `registers[0]` is always 0. The flags, `has_screen` and
/// `has_tree` are answered as 0 or 1; given, 0 is no and anything else is yes.
/// The screen means nothing where there is none, nor does the tree; an accepted
/// run or step leaves in them what was there, but answers marks and `has_depth`
/// as 0 or 1 there too. Two states are equal where they mean the same;
/// [`State::same_fields`] looks at every field.
///
/// A state is ill-formed exactly if `registers[0]` is not 0, the halt number is
/// none of 0 and 11 to 17, it has a screen that is not sound in this RAM, or it
/// has a tree and no screen, or a tree whose column is not a multiple of 16
/// below the width or whose row is not below the height.
///
/// ```
/// let fresh = merikohin::fresh();
/// let other = merikohin::State { zero: 1, has_screen: 0, screen: merikohin::Screen::new(0, 8, 16, 1), ..fresh };
/// assert_ne!(fresh, other); // the flag
/// assert_eq!(merikohin::State { zero: 7, ..fresh }, other); // yes is yes, and a screen that is not there means nothing
/// assert!(!fresh.same_fields(&other));
/// ```
#[repr(C)]
#[derive(Clone, Copy, Debug)]
pub struct State {
    pub registers: [u32; 32],
    pub place: u32,
    pub negative: u32,
    pub zero: u32,
    pub halt: u32,
    pub has_screen: u32,
    pub screen: Screen,
    pub has_tree: u32,
    pub tree: Tree,
}

impl State {
    /// The screen, if there is one.
    #[must_use]
    pub fn screen(&self) -> Option<Screen> {
        (self.has_screen != 0).then_some(self.screen)
    }

    /// The tree, if there is one.
    #[must_use]
    pub fn tree(&self) -> Option<Tree> {
        (self.has_tree != 0).then_some(self.tree)
    }

    /// Why it is halted, if it is.
    #[must_use]
    pub fn halted(&self) -> Option<Halt> {
        Halt::from_number(self.halt)
    }

    /// Whether every field is the same, also those that mean nothing.
    #[must_use]
    pub fn same_fields(&self, other: &State) -> bool {
        let tree = |t: &Tree| (t.inside, t.outside, t.depth, t.has_depth, t.column, t.row, t.colour);
        let rest = |s: &State| (s.registers, s.place, s.negative, s.zero, s.halt, s.has_screen, s.screen, s.has_tree);
        rest(self) == rest(other) && tree(&self.tree) == tree(&other.tree)
    }
}

impl PartialEq for State {
    fn eq(&self, other: &State) -> bool {
        let numbers = |s: &State| (s.registers, s.place, s.negative != 0, s.zero != 0, s.halt);
        numbers(self) == numbers(other) && self.screen() == other.screen() && self.tree() == other.tree()
    }
}

impl Eq for State {}

impl Default for State {
    /// A fresh state.
    fn default() -> State {
        crate::fresh()
    }
}
