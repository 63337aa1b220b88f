//! The strip under the picture, from its top: the frames' numbers, the sound with
//! the cursor, and the ruler in samples.

use crate::canvas::{Canvas, Colour};
use crate::desk::{FRAME, FRAMES, HEIGHT, WIDTH, WORDS};
use crate::sound::{self, SAMPLES_A_COLUMN, SAMPLES_A_FRAME};
use crate::text::{self, Type};

/// The first row of each part.
const TOP: f64 = 344.0;
const WAVE: f64 = 361.0;
const WAVE_HIGH: u32 = 94;
const RULER: f64 = WAVE + WAVE_HIGH as f64 + 1.0;

/// Columns that a frame has.
const FRAME_WIDE: f64 = (SAMPLES_A_FRAME / SAMPLES_A_COLUMN) as f64;

/// The ruler's marks, in samples.
const SMALL_MARK: u32 = 400;
const LARGE_MARK: u32 = 4000;

/// Depths, from the nearest.
mod depth {
    pub const CURSOR: f64 = 20.0;
    pub const TRACE: f64 = 30.0;
    pub const SHOWN: f64 = 40.0;
    pub const GROUND: f64 = 50.0;
}

mod colour {
    use crate::canvas::Colour;
    pub const WORDS: Colour = (22, 46, 23);
    pub const FAINT: Colour = (11, 25, 13);
    pub const CAPTION: Colour = (15, 32, 16);
    pub const GROUND: Colour = (2, 5, 4);
    pub const FRAME: Colour = (4, 10, 6);
    pub const SHOWN: Colour = (6, 14, 8);
    pub const TRACE: Colour = (10, 44, 20);
    pub const CURSOR: Colour = (31, 58, 20);
}

pub fn draw(canvas: &mut Canvas) {
    frames(canvas);
    waveform(canvas);
    ruler(canvas);
    text::write(canvas, "FRAMES", (4.0, WAVE + 5.0), words(colour::CAPTION));
    text::write(canvas, "SAMPLES", (4.0, RULER - 6.0 - text::HIGH), words(colour::CAPTION));
    canvas.rect((0.0, TOP), (f64::from(WIDTH), f64::from(HEIGHT) - TOP), depth::GROUND, colour::GROUND);
}

fn words(colour: Colour) -> Type {
    Type { depth: WORDS, colour, block: 1.0 }
}

/// The frames' numbers, each over its own columns.
fn frames(canvas: &mut Canvas) {
    let size = (FRAME_WIDE - 1.0, WAVE - TOP - 1.0);
    for frame in 0..FRAMES {
        let left = f64::from(sound::frame_starts(frame).1);
        let (ground, word) = match frame == FRAME {
            true => (colour::CURSOR, colour::GROUND),
            false => (colour::FRAME, colour::WORDS),
        };
        canvas.rect((left, TOP), size, depth::SHOWN, ground);
        text::write_around(canvas, &frame.to_string(), (left + size.0 / 2.0, TOP + size.1 / 2.0), words(word));
    }
}

/// The sound, a bar a column in one colour; the shown frame's columns lighter
/// behind it, and the cursor on the first of them.
fn waveform(canvas: &mut Canvas) {
    let samples = sound::recording((WIDTH * SAMPLES_A_COLUMN) as usize);
    let (left, high) = (f64::from(sound::frame_starts(FRAME).1), f64::from(WAVE_HIGH));
    canvas.rect((left, WAVE), (FRAME_WIDE, high), depth::SHOWN, colour::SHOWN);
    canvas.rect((left, WAVE - 1.0), (1.0, high + 10.0), depth::CURSOR, colour::CURSOR);
    for column in 0..WIDTH {
        if let Some((top, bottom)) = sound::rows(&samples, column, WAVE_HIGH) {
            let at = (f64::from(column), WAVE + f64::from(top));
            canvas.rect(at, (1.0, f64::from(bottom - top + 1)), depth::TRACE, colour::TRACE);
        }
    }
}

/// A mark at every so many samples, the large ones with their number; the
/// cursor's own number in its colour.
fn ruler(canvas: &mut Canvas) {
    canvas.rect((0.0, RULER - 1.0), (f64::from(WIDTH), 1.0), depth::TRACE, colour::FAINT);
    for sample in (0..WIDTH * SAMPLES_A_COLUMN).step_by(SMALL_MARK as usize) {
        let large = sample % LARGE_MARK == 0;
        let (high, mark) = if large { (7.0, colour::WORDS) } else { (3.0, colour::FAINT) };
        let x = f64::from(sample / SAMPLES_A_COLUMN);
        canvas.rect((x, RULER), (1.0, high), depth::TRACE, mark);
        if large {
            number(canvas, sample, colour::WORDS);
        }
    }
    number(canvas, sound::frame_starts(FRAME).0, colour::CURSOR);
}

/// A sample's number under its column, but not over the picture's left side.
fn number(canvas: &mut Canvas, sample: u32, colour: Colour) {
    let text = sample.to_string();
    let x = f64::from(sample / SAMPLES_A_COLUMN) + 0.5;
    let middle = (x.max(2.0 + text::width(&text) / 2.0), RULER + 14.0);
    text::write_around(canvas, &text, middle, words(colour));
}
