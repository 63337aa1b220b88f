//! Which samples a panel's columns show, and where a sample stands: the engine's
//! rule in the file's own numbers, for words and for the ruler. The waveform
//! itself is the engine's; a test holds the two together.

use std::ops::Range;

/// How a recording is laid out on columns. All samples are numbered as in the
/// file, from 0.
#[derive(Clone, Debug, PartialEq, Eq)]
pub struct Columns {
    pub width: i64,
    pub per_column: i64,
    pub offset: i64,
    /// The part of the file that is handed to the engine.
    pub recording: Range<i64>,
}

impl Columns {
    /// The places that a column has, whether or not there are samples for them.
    pub fn places(&self, column: i64) -> Range<i64> {
        let first = self.recording.start + column * self.per_column + self.offset;
        first..first + self.per_column
    }

    /// The samples that a column shows.
    pub fn samples(&self, column: i64) -> Range<i64> {
        self.of_recording(self.places(column))
    }

    /// The samples that all columns show.
    pub fn shown(&self) -> Range<i64> {
        self.of_recording(self.places(0).start..self.places(self.width).start)
    }

    /// The column that has a sample's place; less than 0 on the left of the panel,
    /// and not below the width on its right.
    pub fn column(&self, sample: i64) -> i64 {
        (sample - self.places(0).start).div_euclid(self.per_column)
    }

    fn of_recording(&self, places: Range<i64>) -> Range<i64> {
        let Range { start, end } = self.recording;
        places.start.clamp(start, end)..places.end.clamp(start, end)
    }
}

/// The row in which a value stands.
pub fn row(value: i16, height: u32) -> u32 {
    (32767 - i32::from(value)) as u32 * height / 65536
}

/// The least number of samples a column by which so many fit; the most there is
/// where none does.
pub fn least_per_column(samples: i64, width: u32) -> i32 {
    let most = merikohin::PER_COLUMN_MOST;
    let wanted = (samples + i64::from(width) - 1) / i64::from(width);
    wanted.clamp(1, most.into()) as i32
}

#[cfg(test)]
mod tests {
    use super::*;
    use kit::pixels::halves;
    use kit::rng::Rng;
    use merikohin::Screen;

    /// The columns and rows that the engine draws, of a recording's part.
    fn drawn(recording: &[i16], height: u32, columns: &Columns) -> Vec<(i64, u32)> {
        let area = 2 * columns.width as u32 * height;
        let screen = Screen::new(0, area, columns.width as u32, height);
        let mut ram = vec![0; 2 * area as usize];
        let (n, d) = (columns.per_column as i32, columns.offset as i32);
        merikohin::panel(&mut ram, screen, recording, n, d, 1).unwrap();
        let row = |y: u32| halves(merikohin::row(&ram, screen, y).unwrap()).collect::<Vec<_>>();
        let pixels = |y: u32| (0..).zip(row(y)).filter(|pixel| pixel.1 == 1).map(move |pixel| (pixel.0, y));
        let mut all: Vec<_> = (0..height).flat_map(pixels).collect();
        all.sort_unstable();
        all
    }

    /// One sample on a screen: the engine draws a pixel at its column and row, or nothing where it is beside the panel.
    #[test]
    fn a_sample_stands_where_the_engine_draws_it() {
        let mut rng = Rng::new(48);
        let (mut on, mut beside) = (0, 0);
        for turn in 0..2000 {
            let (width, height) = (16 * rng.between(1, 4), rng.between(1, 40) as u32);
            let from = rng.between(0, 500);
            let n = rng.between(1, if turn % 2 == 0 { 64 } else { 4 });
            let d = rng.between(-2048, 2047) / if turn % 3 == 0 { 1 } else { 16 };
            let value = rng.next() as i16;
            let value = rng.pick(&[32767, -32768, 0, -1, value]);
            // The recording ends with its one sample, so every other column has none.
            let columns = Columns { width, per_column: n, offset: d, recording: from..from + 1 };
            let column = columns.column(from);
            let there = (0..width).contains(&column);
            let wanted = if there { vec![(column, row(value, height))] } else { vec![] };
            assert_eq!(drawn(&[value], height, &columns), wanted, "{columns:?}");
            assert_eq!(columns.shown().contains(&from), there);
            assert!(!there || columns.samples(column) == (from..from + 1));
            *(if there { &mut on } else { &mut beside }) += 1;
        }
        assert!(on > 200 && beside > 200, "{on}, {beside}");
    }

    /// Any recording: each column's rows are those of the samples that it is said to show.
    #[test]
    fn columns_have_the_samples_that_are_told() {
        let mut rng = Rng::new(104);
        for _ in 0..300 {
            let height = rng.between(1, 30) as u32;
            let samples: Vec<i16> = (0..rng.between(0, 900)).map(|_| rng.next() as i16).collect();
            let (from, len) = (rng.between(0, 9), samples.len() as i64);
            let (per_column, offset) = (rng.between(1, 64), rng.between(-400, 400));
            let columns = Columns { width: 32, per_column, offset, recording: from..from + len };
            let mut wanted = Vec::new();
            for x in 0..32 {
                let shown = columns.samples(x).map(|sample| samples[(sample - from) as usize]);
                let rows: Vec<u32> = shown.map(|value| row(value, height)).collect();
                let (top, bottom) = (rows.iter().min(), rows.iter().max());
                wanted.extend(top.zip(bottom).into_iter().flat_map(|(top, bottom)| (*top..=*bottom).map(|y| (x, y))));
                assert!(columns.samples(x).all(|sample| columns.column(sample) == x));
            }
            assert_eq!(drawn(&samples, height, &columns), wanted, "{columns:?}");
            assert_eq!(columns.shown().count(), (0..32).map(|x| columns.samples(x).count()).sum::<usize>());
        }
    }

    #[test]
    fn the_least_that_shows_all() {
        for (samples, width, wanted) in
            [(0, 16, 1), (16, 16, 1), (17, 16, 2), (12_000, 640, 19), (40_960, 640, 64), (48_000, 640, 64)]
        {
            assert_eq!(least_per_column(samples, width), wanted);
        }
    }
}
