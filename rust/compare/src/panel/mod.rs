//! 02's M-104, the waveform panel: its cases, their comparison with the second
//! program, the groups of cases, and what 02 says of two panels.

pub mod broken;
pub mod case;
pub mod check;
mod faults;
pub mod groups;
mod laws;
mod random;
mod rows;
mod shrink;

pub use shrink::shrink;
