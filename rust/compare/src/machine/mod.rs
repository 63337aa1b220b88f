//! The machine: its cases, their comparison with the second program, and the
//! groups of cases.

pub mod broken;
pub mod case;
pub mod check;
pub mod groups;
mod long;
mod parts;
mod reciprocals;
mod samples;
mod shifts;
mod shrink;
mod states;

pub use shrink::shrink;
