//! 02's M-101, the plane through three values: its cases, their comparison with
//! the second program, the groups of cases, and its bound where it is drawn.

pub mod broken;
pub mod case;
mod drawn;
mod ends;
pub mod groups;
mod random;
mod shrink;

pub use shrink::shrink;
