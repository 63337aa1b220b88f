//! Where pixels are sampled, for cases that are built around it: said here once
//! more, so that the second program's point is held to it too.

/// 02, M-100: "pixel (x, y) is sampled at (8x + 4, 8y + 4)": how far from its
/// left and upper side, in eighths. It is also how far the point moved, which
/// was the upper left corner before.
pub const HALF: i32 = 4;

/// Where on its axis a column, or a row, is sampled.
pub const fn sample(n: i32) -> i32 {
    8 * n + HALF
}

/// The same of the column or row in which a place lies.
pub const fn onto_sample(place: i32) -> i32 {
    sample(place >> 3)
}
