//! The second program.
//!
//! It says document 01 (exact rules), as M-100, M-101, M-103 and M-104 of 02
//! (change requests) change it, once more, independently of the engine and in their
//! order and words, as plainly as possible: one loop over every pixel of the screen,
//! numbers wide enough never to overflow, no shortcuts. It is there to be compared
//! with the engine, not to be fast. The drawing is here; the machine is in
//! [`machine`], the plane through three values in [`through`], the waveform panel
//! in [`panel`].

pub mod machine;
pub mod panel;
pub mod through;

// ---------------------------------------------------------------------------
// 01, "Sizes"
// ---------------------------------------------------------------------------

/// 01, Sizes: "External RAM: 0 to 4,194,304 bytes".
pub const RAM_BYTES_AT_MOST: i128 = 4_194_304;

/// 01, Sizes: "Screen (house): colour start, depth start, and a size number S."
#[derive(Clone, Copy, Debug, PartialEq, Eq)]
pub struct Screen {
    pub colour_start: u32,
    pub depth_start: u32,
    pub size_number: u32,
}

impl Screen {
    /// 01, Sizes: "S div 512 is the width in groups of 16 pixels".
    pub fn groups(&self) -> i128 {
        i128::from(self.size_number) / 512
    }

    /// The width in pixels.
    pub fn width(&self) -> i128 {
        self.groups() * 16
    }

    /// 01, Sizes: "S mod 512 is the height".
    pub fn height(&self) -> i128 {
        i128::from(self.size_number) % 512
    }

    /// 01, Sizes: "each area (width × height × 2 bytes, row by row)".
    pub fn area_bytes(&self) -> i128 {
        self.width() * self.height() * 2
    }

    /// 01, Sizes, "row by row": how far into an area pixel (x, y) lies.
    fn place(&self, x: i128, y: i128) -> i128 {
        (y * self.width() + x) * 2
    }
}

/// 01, Sizes: "A screen is sound when S is in that range, both starts are
/// even, each area lies within RAM, and the areas do not overlap. Touching is
/// allowed."
pub fn sound(ram_bytes: usize, screen: Screen) -> bool {
    let size_in_range = screen.groups() >= 1 && screen.groups() <= 40 && screen.height() >= 1 && screen.height() <= 480;

    let colour_start = i128::from(screen.colour_start);
    let depth_start = i128::from(screen.depth_start);
    let both_even = colour_start % 2 == 0 && depth_start % 2 == 0;

    // One past the last byte of each area.
    let colour_end = colour_start + screen.area_bytes();
    let depth_end = depth_start + screen.area_bytes();
    let both_within = colour_end <= ram_bytes as i128 && depth_end <= ram_bytes as i128;

    // One of the areas ends before, or exactly where, the other one starts.
    let apart = colour_end <= depth_start || depth_end <= colour_start;

    size_in_range && both_even && both_within && apart
}

/// 01, Sizes: "half-words big-endian".
pub fn half_word(ram: &[u8], at: i128) -> i128 {
    let at = at as usize;
    i128::from(ram[at]) * 256 + i128::from(ram[at + 1])
}

/// 01, Sizes: "half-words big-endian".
pub fn set_half_word(ram: &mut [u8], at: i128, value: i128) {
    let at = at as usize;
    ram[at] = (value / 256) as u8;
    ram[at + 1] = (value % 256) as u8;
}

/// 01, Sizes: "Colour is red × 2048 + green × 32 + blue (5, 6, 5 bits)."
pub fn colour_of(red: i128, green: i128, blue: i128) -> i128 {
    red * 2048 + green * 32 + blue
}

// ---------------------------------------------------------------------------
// 01, "Numbers a call answers"
// ---------------------------------------------------------------------------
// "The lowest number that applies to that kind of call wins."

/// "triangles 3, 5, 6, 7".
pub fn draw_number(ram_bytes: usize, screen: Screen, triangle: &Triangle) -> u32 {
    if ram_too_long(ram_bytes) {
        return 3;
    }
    if !sound(ram_bytes, screen) {
        return 5;
    }
    if vertex_out_of_range(&triangle.vertices) {
        return 6;
    }
    if edge_value_out_of_range(screen, triangle) {
        return 7;
    }
    0
}

/// "rows 3, 5, 8".
pub fn row_number(ram_bytes: usize, screen: Screen, row: u32) -> u32 {
    if ram_too_long(ram_bytes) {
        return 3;
    }
    if !sound(ram_bytes, screen) {
        return 5;
    }
    if i128::from(row) >= screen.height() {
        return 8;
    }
    0
}

/// "a clear ... 3 and 5".
pub fn clear_number(ram_bytes: usize, screen: Screen) -> u32 {
    if ram_too_long(ram_bytes) {
        return 3;
    }
    if !sound(ram_bytes, screen) {
        return 5;
    }
    0
}

/// 3: "RAM longer than 4,194,304 bytes".
fn ram_too_long(ram_bytes: usize) -> bool {
    ram_bytes as i128 > RAM_BYTES_AT_MOST
}

/// 6: "a vertex number outside -8192..8191".
pub fn vertex_out_of_range(vertices: &[Vertex; 3]) -> bool {
    vertices.iter().any(|vertex| vertex.x < -8192 || vertex.x > 8191 || vertex.y < -8192 || vertex.y > 8191)
}

/// 7: "an edge value at some pixel of the screen outside signed 32 bits".
fn edge_value_out_of_range(screen: Screen, triangle: &Triangle) -> bool {
    for y in 0..screen.height() {
        for x in 0..screen.width() {
            let (px, py) = sample_point(x, y);
            for (from, to) in edges(&triangle.vertices) {
                let value = edge_value(from, to, px, py);
                if value < i128::from(i32::MIN) || value > i128::from(i32::MAX) {
                    return true;
                }
            }
        }
    }
    false
}

/// "a clear (every pixel of a screen to one given colour and one given depth,
/// all else kept)".
pub fn clear(ram: &mut [u8], screen: Screen, colour: u16, depth: u16) -> u32 {
    let number = clear_number(ram.len(), screen);
    if number != 0 {
        // "Every number but 0 comes with ... all lent memory as it was."
        return number;
    }
    for y in 0..screen.height() {
        for x in 0..screen.width() {
            let place = screen.place(x, y);
            set_half_word(ram, i128::from(screen.colour_start) + place, i128::from(colour));
            set_half_word(ram, i128::from(screen.depth_start) + place, i128::from(depth));
        }
    }
    0
}

// ---------------------------------------------------------------------------
// 01, "Triangles"; 02, "M-100 Half a pixel"
// ---------------------------------------------------------------------------

/// 01, Triangles: a vertex "in eighths of a pixel, x to the right, y downward".
#[derive(Clone, Copy, Debug, PartialEq, Eq)]
pub struct Vertex {
    pub x: i32,
    pub y: i32,
}

/// 01, Triangles: a plane "of three signed 32-bit numbers c, a, b".
#[derive(Clone, Copy, Debug, PartialEq, Eq)]
pub struct Plane {
    pub c: i32,
    pub a: i32,
    pub b: i32,
}

/// 01, Triangles: "Three vertices ... and four planes (depth, red, green,
/// blue)".
#[derive(Clone, Copy, Debug, PartialEq, Eq)]
pub struct Triangle {
    pub vertices: [Vertex; 3],
    pub depth: Plane,
    pub red: Plane,
    pub green: Plane,
    pub blue: Plane,
}

/// 01, Triangles: "all three edges, taken in the vertices' order".
pub fn edges(vertices: &[Vertex; 3]) -> [(Vertex, Vertex); 3] {
    let [first, second, third] = *vertices;
    [(first, second), (second, third), (third, first)]
}

/// 01, Triangles: "At pixel (x, y) a plane has c + a·x + b·y, taken modulo
/// 2^32." 02, M-100: "Planes still count from pixel (0, 0)".
pub fn plane_value(plane: Plane, x: i128, y: i128) -> i128 {
    let whole = i128::from(plane.c) + i128::from(plane.a) * x + i128::from(plane.b) * y;
    whole.rem_euclid(1 << 32)
}

/// 01, Triangles: "Depth is its top 16 bits".
pub fn depth_at(triangle: &Triangle, x: i128, y: i128) -> i128 {
    plane_value(triangle.depth, x, y) / 65536
}

/// 01, Triangles: "red and blue are bits 16 to 20, green bits 16 to 21".
pub fn colour_at(triangle: &Triangle, x: i128, y: i128) -> i128 {
    let red = plane_value(triangle.red, x, y) / 65536 % 32;
    let green = plane_value(triangle.green, x, y) / 65536 % 64;
    let blue = plane_value(triangle.blue, x, y) / 65536 % 32;
    colour_of(red, green, blue)
}

/// 02, M-100: "Document 01 was wrong: pixel (x, y) is sampled at
/// (8x + 4, 8y + 4)."
pub fn sample_point(x: i128, y: i128) -> (i128, i128) {
    (8 * x + 4, 8 * y + 4)
}

/// 01, Triangles: "For the directed edge from (x1, y1) to (x2, y2) with
/// dx = x2 - x1, dy = y2 - y1, its edge value is (py - y1)·dx - (px - x1)·dy."
pub fn edge_value(from: Vertex, to: Vertex, px: i128, py: i128) -> i128 {
    let (x1, y1) = (i128::from(from.x), i128::from(from.y));
    let (x2, y2) = (i128::from(to.x), i128::from(to.y));
    let dx = x2 - x1;
    let dy = y2 - y1;
    (py - y1) * dx - (px - x1) * dy
}

/// 01, Triangles: "The pixel is inside if the value is positive, or if it is
/// zero and dy < 0, or zero with dy = 0 and dx > 0 (tie rule, house)." (Asked of
/// the point (px, py) at which a pixel is sampled.)
pub fn inside(from: Vertex, to: Vertex, px: i128, py: i128) -> bool {
    let value = edge_value(from, to, px, py);
    let dx = i128::from(to.x) - i128::from(from.x);
    let dy = i128::from(to.y) - i128::from(from.y);
    value > 0 || (value == 0 && dy < 0) || (value == 0 && dy == 0 && dx > 0)
}

/// 01, Triangles: "It is covered if it is on the screen and inside all three
/// edges, taken in the vertices' order." (Asked of pixels on the screen.)
pub fn covers(triangle: &Triangle, x: i128, y: i128) -> bool {
    let (px, py) = sample_point(x, y);
    edges(&triangle.vertices).iter().all(|&(from, to)| inside(from, to, px, py))
}

/// 01, Numbers: the number, with the counts of pixels covered and written.
#[derive(Clone, Copy, Debug, PartialEq, Eq)]
pub struct Drawn {
    pub number: u32,
    pub covered: u32,
    pub written: u32,
}

/// 01, Triangles: "A covered pixel is written, colour and depth, if its depth
/// is at most the stored depth. The answer gives how many pixels were covered
/// and how many written. A triangle turned the other way, or of no area, is
/// accepted and covers none."
pub fn draw(ram: &mut [u8], screen: Screen, triangle: &Triangle) -> Drawn {
    let number = draw_number(ram.len(), screen, triangle);
    if number != 0 {
        // 01, Numbers: "Every number but 0 comes with counts of 0 ... and all
        // lent memory as it was."
        return Drawn { number, covered: 0, written: 0 };
    }
    let mut covered = 0;
    let mut written = 0;
    for y in 0..screen.height() {
        for x in 0..screen.width() {
            if !covers(triangle, x, y) {
                continue;
            }
            covered += 1;
            let colour_place = i128::from(screen.colour_start) + screen.place(x, y);
            let depth_place = i128::from(screen.depth_start) + screen.place(x, y);
            let depth = depth_at(triangle, x, y);
            if depth <= half_word(ram, depth_place) {
                written += 1;
                set_half_word(ram, colour_place, colour_at(triangle, x, y));
                set_half_word(ram, depth_place, depth);
            }
        }
    }
    Drawn { number: 0, covered, written }
}

/// 01, Triangles: "a separate check answers 0, 3, 5 or 8 for the same inputs."
pub fn row_check(ram: &[u8], screen: Screen, row: u32) -> u32 {
    row_number(ram.len(), screen, row)
}

/// 01, Triangles: "The row reader hands back the row's own bytes, a part of
/// the RAM and not a copy: the 2 × width colour bytes of one row. A refused row
/// request hands back an empty part".
pub fn row(ram: &[u8], screen: Screen, row: u32) -> (u32, &[u8]) {
    row_of_area(ram, screen, screen.colour_start, row)
}

/// The rule book, 6.4: the 2 · width bytes from the depth of pixel (0, row) on,
/// with the numbers of a row.
pub fn depth_row(ram: &[u8], screen: Screen, row: u32) -> (u32, &[u8]) {
    row_of_area(ram, screen, screen.depth_start, row)
}

fn row_of_area(ram: &[u8], screen: Screen, area_start: u32, row: u32) -> (u32, &[u8]) {
    let number = row_number(ram.len(), screen, row);
    if number != 0 {
        return (number, &ram[0..0]);
    }
    let start = i128::from(area_start) + screen.place(0, i128::from(row));
    let end = start + 2 * screen.width();
    (0, &ram[start as usize..end as usize])
}
