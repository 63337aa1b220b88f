//! What the tool, the pictures and the comparison share. Nothing here knows the
//! engine.

pub mod args;
pub mod letters;
pub mod pixels;
pub mod png;
pub mod rng;
pub mod words;
