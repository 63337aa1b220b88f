//! The ruler below a panel: a scale in samples and, where the rate is known, one
//! in milliseconds, with marks at the samples that the panel shows. It is drawn by
//! triangles.

use crate::columns::{self, Columns};
use kit::letters;
use merikohin::{Screen, Triangle, Vertex};

/// Rows of one scale.
const SCALE_HIGH: u32 = 18;

/// Rows of a scale from its top: the marks' ends, and the numbers.
const LARGE: i32 = 6;
const SMALL: i32 = 3;
const NUMBERS: i32 = 9;

/// The least columns between two marks.
const MARKS_APART: i64 = 5;

/// Behind the waveform, whose depth is 0.
const BEHIND: u16 = 1000;

/// Colours, each red × 2048 + green × 32 + blue.
pub mod colour {
    const fn packed(red: u16, green: u16, blue: u16) -> u16 {
        red << 11 | green << 5 | blue
    }
    pub const GROUND: u16 = packed(1, 3, 3);
    pub const WAVE: u16 = packed(12, 56, 24);
    pub const LINES: u16 = packed(5, 13, 8);
    pub const RULER: u16 = packed(3, 7, 5);
    pub const SMALL: u16 = packed(11, 25, 13);
    pub const LARGE: u16 = packed(26, 54, 27);
}

/// A screen to draw rectangles on.
pub struct Pen<'a> {
    pub ram: &'a mut [u8],
    pub screen: Screen,
}

impl Pen<'_> {
    /// A rectangle of whole pixels, from its upper left one: two triangles with a common diagonal.
    fn rect(&mut self, (x, y): (i32, i32), (wide, high): (i32, i32), colour: u16) {
        let vertex = |x: i32, y: i32| Vertex { x: 8 * x, y: 8 * y, depth: BEHIND, colour };
        let [a, b, c, d] = [vertex(x, y), vertex(x + wide, y), vertex(x + wide, y + high), vertex(x, y + high)];
        for corners in [[a, b, c], [a, c, d]] {
            let drawn = Triangle::through(corners).and_then(|t| merikohin::draw(self.ram, self.screen, t));
            drawn.expect("a rectangle on a sound screen");
        }
    }

    /// A text from its upper left pixel, a pixel for a block.
    fn write(&mut self, text: &str, (x, y): (i32, i32), colour: u16) {
        for (place, letter) in text.chars().enumerate() {
            let left = x + (place * letters::ADVANCE) as i32;
            for (row, blocks) in letters::glyph(letter).iter().enumerate() {
                for (first, count) in letters::runs(blocks) {
                    self.rect((left + first as i32, y + row as i32), (count as i32, 1), colour);
                }
            }
        }
    }
}

/// A scale: so many of its units are so many samples, and how a number of units is written.
#[derive(Clone, Copy)]
struct Scale {
    units: i64,
    samples: i64,
    written: fn(i64) -> String,
}

const IN_SAMPLES: Scale = Scale { units: 1, samples: 1, written: |samples| samples.to_string() };

/// In microseconds, so that marks closer than a millisecond are whole numbers too.
fn in_time(rate: u32) -> Scale {
    Scale { units: 1_000_000, samples: rate.into(), written: milliseconds }
}

/// Microseconds as milliseconds, with no more digits than needed.
fn milliseconds(micro: i64) -> String {
    let text = format!("{}.{:03}", micro / 1000, micro % 1000);
    format!("{} ms", text.trim_end_matches('0').trim_end_matches('.'))
}

/// A mark: its column, and its number where it has one.
#[derive(Debug, PartialEq, Eq)]
struct Mark {
    column: i64,
    number: Option<String>,
}

impl Scale {
    /// The first sample that is not before a mark.
    fn sample(&self, units: i64) -> i64 {
        up(units * self.samples, self.units)
    }

    /// Whether marks so many units apart are at least so many columns apart.
    fn apart(&self, units: i64, columns: &Columns, least: i64) -> bool {
        units * self.samples >= least * columns.per_column * self.units
    }

    /// The least step at which no two numbers of the panel come close.
    fn large_step(&self, columns: &Columns) -> i64 {
        let last = columns.shown().end * self.units / self.samples;
        let wide = |step: i64| {
            let number = |back: i64| letters::width(&(self.written)((last / step - back).max(0) * step)) as i64;
            number(0).max(number(1))
        };
        // Half a number's width more, since those at both sides are moved inwards.
        let fits = |step: &i64| self.apart(*step, columns, wide(*step) * 3 / 2 + 8);
        steps().find(fits).expect("a step that is large enough")
    }

    fn small_step(&self, large: i64, columns: &Columns) -> i64 {
        let fits = |step: &i64| large % step == 0 && self.apart(*step, columns, MARKS_APART);
        steps().take_while(|step| *step < large).find(fits).unwrap_or(large)
    }

    /// The marks at the samples that the panel shows.
    fn marks(&self, columns: &Columns) -> Vec<Mark> {
        let shown = columns.shown();
        let large = self.large_step(columns);
        let small = self.small_step(large, columns);
        let first = up(up(shown.start * self.units, self.samples), small);
        let units = (first..).map(|k| k * small).take_while(|units| self.sample(*units) < shown.end);
        let number = |units: i64| Some((self.written)(units)).filter(|_| units % large == 0);
        units.map(|units| Mark { column: columns.column(self.sample(units)), number: number(units) }).collect()
    }
}

/// 1, 2, 5, 10, 20, 50 and so on.
fn steps() -> impl Iterator<Item = i64> {
    (0..16).flat_map(|k| [1, 2, 5].map(|digit| digit * 10i64.pow(k)))
}

/// A quotient rounded up.
fn up(a: i64, b: i64) -> i64 {
    (a + b - 1).div_euclid(b)
}

/// Behind the waveform: the line of value 0, and a line up from each numbered sample.
pub fn draw_behind(pen: &mut Pen, columns: &Columns) {
    let (width, height) = (pen.screen.width() as i32, pen.screen.height());
    for mark in IN_SAMPLES.marks(columns).iter().filter(|mark| mark.number.is_some()) {
        pen.rect((mark.column as i32, 0), (1, height as i32), colour::LINES);
    }
    pen.rect((0, columns::row(0, height) as i32), (width, 1), colour::LINES);
}

/// How many rows a ruler has.
pub fn height(rate: Option<u32>) -> u32 {
    SCALE_HIGH * if rate.is_some() { 2 } else { 1 }
}

pub fn draw(pen: &mut Pen, columns: &Columns, rate: Option<u32>) {
    for (scale, top) in Some(IN_SAMPLES).into_iter().chain(rate.map(in_time)).zip((0..).step_by(SCALE_HIGH as usize)) {
        draw_scale(pen, top, columns, &scale.marks(columns));
    }
}

fn draw_scale(pen: &mut Pen, top: i32, columns: &Columns, marks: &[Mark]) {
    let shown = columns.shown();
    if !shown.is_empty() {
        let [first, last] = [shown.start, shown.end - 1].map(|sample| columns.column(sample) as i32);
        pen.rect((first, top), (last - first + 1, 1), colour::SMALL);
    }
    for mark in marks {
        let (high, colour) = if mark.number.is_some() { (LARGE, colour::LARGE) } else { (SMALL, colour::SMALL) };
        pen.rect((mark.column as i32, top + 1), (1, high), colour);
        if let Some(text) = &mark.number {
            write_number(pen, text, mark.column as i32, top + NUMBERS);
        }
    }
}

/// A number under its mark, or as near as it stays on the screen; one that has no room there is left out.
fn write_number(pen: &mut Pen, text: &str, column: i32, row: i32) {
    const MARGIN: i32 = 1;
    let wide = letters::width(text) as i32;
    let most = pen.screen.width() as i32 - wide - MARGIN;
    if most >= MARGIN {
        pen.write(text, ((column - wide / 2).clamp(MARGIN, most), row), colour::LARGE);
    }
}

#[cfg(test)]
mod tests {
    use super::*;

    fn columns(width: i64, per_column: i64, offset: i64, len: i64) -> Columns {
        Columns { width, per_column, offset, recording: 0..len }
    }

    fn numbered(marks: &[Mark]) -> Vec<(i64, &str)> {
        marks.iter().filter_map(|mark| Some((mark.column, mark.number.as_deref()?))).collect()
    }

    /// Each mark stands in the column of its own sample.
    #[test]
    fn marks_in_samples() {
        let marks = IN_SAMPLES.marks(&columns(160, 16, 0, 2560));
        assert_eq!(numbered(&marks), [(0, "0"), (62, "1000"), (125, "2000")]);
        assert_eq!(marks[1], Mark { column: 6, number: None });
        assert_eq!(marks.len(), 26);
        let moved = IN_SAMPLES.marks(&columns(160, 16, 48, 2560));
        assert_eq!(numbered(&moved), [(59, "1000"), (122, "2000")]);
        assert_eq!(moved[0], Mark { column: 3, number: None });
    }

    #[test]
    fn marks_in_milliseconds() {
        let marks = in_time(48_000).marks(&columns(160, 16, 0, 2560));
        assert_eq!(numbered(&marks), [(0, "0 ms"), (60, "20 ms"), (120, "40 ms")]);
        // 44.1 samples a millisecond: the mark is at the first sample that is not before it.
        let marks = in_time(44_100).marks(&columns(640, 1, 0, 640));
        assert_eq!(numbered(&marks)[..3], [(0, "0 ms"), (89, "2 ms"), (177, "4 ms")]);
    }

    #[test]
    fn no_samples_no_marks() {
        assert_eq!(IN_SAMPLES.marks(&columns(640, 4, 2000, 1000)), []);
        assert_eq!(in_time(48_000).marks(&columns(640, 4, 0, 0)), []);
    }

    /// Whatever is shown, numbers have room between them, and marks too.
    #[test]
    fn room_between() {
        for (width, n, rate) in (1..=64).flat_map(|n| [(16, n, 8_000), (640, n, 48_000), (320, n, 192_000)]) {
            for start in [0, 3_456_789] {
                let recording = start..start + 40_960;
                let columns = Columns { width, per_column: n, offset: 0, recording };
                for scale in [IN_SAMPLES, in_time(rate)] {
                    let marks = scale.marks(&columns);
                    assert!(marks.windows(2).all(|two| two[1].column - two[0].column >= MARKS_APART - 1));
                    for two in numbered(&marks).windows(2) {
                        let wide = letters::width(two[0].1).max(letters::width(two[1].1)) as i64;
                        assert!(two[1].0 - two[0].0 > wide * 3 / 2 + 4, "{two:?}");
                    }
                }
            }
        }
    }

    #[test]
    fn times_written() {
        let written = [0, 20_000, 1_500, 50, 100_250].map(milliseconds);
        assert_eq!(written, ["0 ms", "20 ms", "1.5 ms", "0.05 ms", "100.25 ms"]);
    }
}
