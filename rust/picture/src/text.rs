//! Text in letters of blocks. Blocks side by side are one rectangle, two
//! triangles.

use crate::canvas::{Canvas, Colour, Point};
use kit::letters::{glyph, runs};

/// From a letter's left side to the next one's.
const ADVANCE: f64 = kit::letters::ADVANCE as f64;

pub const HIGH: f64 = kit::letters::HIGH as f64;

/// How wide a text is, in blocks.
pub fn width(text: &str) -> f64 {
    kit::letters::width(text) as f64
}

/// How a text is set: its depth, its colour, and how many pixels a block is wide.
#[derive(Clone, Copy)]
pub struct Type {
    pub depth: f64,
    pub colour: Colour,
    pub block: f64,
}

/// A text whose upper left corner is at the point.
pub fn write(canvas: &mut Canvas, text: &str, (x, y): Point, set: Type) {
    for (place, letter) in text.chars().enumerate() {
        let left = x + place as f64 * ADVANCE * set.block;
        for (row, blocks) in glyph(letter).iter().enumerate() {
            for (first, count) in runs(blocks) {
                let at = (left + first as f64 * set.block, y + row as f64 * set.block);
                canvas.rect(at, (count as f64 * set.block, set.block), set.depth, set.colour);
            }
        }
    }
}

/// A text of single blocks whose middle is at the point, as near as whole pixels go.
pub fn write_around(canvas: &mut Canvas, text: &str, (x, y): Point, set: Type) {
    let at = ((x - width(text) * set.block / 2.0).round(), (y - HIGH * set.block / 2.0).round());
    write(canvas, text, at, set);
}

#[cfg(test)]
mod tests {
    use super::*;

    /// What is written, read back from the screen block by block.
    #[test]
    fn written_as_listed() {
        let mut canvas = Canvas::new(32, 20, (0, 0, 0));
        write(&mut canvas, "4A", (3.0, 2.0), Type { depth: 0.0, colour: (0, 0, 1), block: 2.0 });
        let colours = canvas.colours();
        for (place, letter) in "4A".chars().enumerate() {
            for (row, blocks) in glyph(letter).iter().enumerate() {
                for (column, block) in blocks.chars().enumerate() {
                    let at = |k: usize| (2 + 2 * row + k / 2) * 32 + 3 + 12 * place + 2 * column + k % 2;
                    assert!((0..4).all(|k| colours[at(k)] == u16::from(block == '#')));
                }
            }
        }
        assert_eq!(colours.iter().filter(|colour| **colour != 0).count(), 4 * (14 + 18));
    }
}
