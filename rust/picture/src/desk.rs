//! The review desk: the pitch with the ball's track over it, and below the sound
//! of the same moments. Pitch, track and sound are made up.

use crate::canvas::Canvas;
use crate::sound::{self, SAMPLES_A_COLUMN, SAMPLES_A_FRAME};
use crate::text::{self, Type};
use crate::{pitch, strip};

pub const WIDTH: u32 = 640;
pub const HEIGHT: u32 = 480;

/// The frame that is shown, and how many the strip has room for.
pub const FRAME: u32 = 23;
pub const FRAMES: u32 = WIDTH * SAMPLES_A_COLUMN / SAMPLES_A_FRAME;

/// The words' depth: everything else is behind them.
pub const WORDS: f64 = 10.0;

pub fn draw() -> Canvas {
    let mut canvas = Canvas::new(WIDTH, HEIGHT, (0, 0, 0));
    // Nearest first: what comes later is hidden by depth and not by order.
    head(&mut canvas);
    strip::draw(&mut canvas);
    pitch::draw(&mut canvas);
    canvas
}

/// Which frame is shown, and where it is in the sound.
fn head(canvas: &mut Canvas) {
    let white = |block: f64| Type { depth: WORDS, colour: (31, 63, 31), block };
    let (sample, column) = sound::frame_starts(FRAME);
    text::write(canvas, &format!("FRAME {FRAME}"), (16.0, 14.0), white(2.0));
    let place = format!("SAMPLE {sample}   COLUMN {column}");
    text::write(canvas, &place, (16.0, 36.0), white(1.0));
    let scales = format!("{SAMPLES_A_FRAME} SAMPLES A FRAME   {SAMPLES_A_COLUMN} SAMPLES A COLUMN");
    let right = f64::from(WIDTH) - 16.0 - text::width(&scales);
    text::write(canvas, &scales, (right, 36.0), white(1.0));
}
