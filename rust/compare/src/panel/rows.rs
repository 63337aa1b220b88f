//! Where a sample stands: "v stands at row floor((32767 - v) × height / 65536)".
//! Here it is counted from the other side, by where each row begins.

use super::case::{Case, Recording};
use super::groups::draws;
use crate::groups::size;
use crate::run::Run;
use kit::rng::Rng;

/// The largest sample that stands at this row: 32767 - v is the least number that
/// is not below 65536 · row / height.
fn largest_in(row: u32, height: u32) -> i32 {
    32767 - (65536 * row).div_ceil(height) as i32
}

/// A sample that stands at this row, its largest, its smallest or any.
pub fn any_in(rng: &mut Rng, row: u32, height: u32) -> i16 {
    let (largest, smallest) = (largest_in(row, height), largest_in(row + 1, height) + 1);
    let any = rng.between(i64::from(smallest), i64::from(largest)) as i32;
    rng.pick(&[largest, smallest, any]) as i16
}

/// Each of these samples in a column of its own, in as many panels as it takes,
/// and drawn at its row alone.
fn alone(run: &mut Run, height: u32, samples: &[(i16, u32)]) {
    for part in samples.chunks(640) {
        let groups = (part.len() as u32).div_ceil(16);
        let list = part.iter().map(|&(v, _)| v).collect();
        let pixels: Vec<(u32, u32)> = part.iter().enumerate().map(|(x, &(_, row))| (x as u32, row)).collect();
        draws(run, &Case::new(size(groups, height), Recording::List(list), 1, 0), &pixels);
    }
}

/// The largest and the smallest sample of each row, on every height.
pub fn both_sides(run: &mut Run, _: &mut Rng) {
    for height in 1..=480 {
        let mut samples = Vec::new();
        for row in 0..height {
            let (largest, smallest) = (largest_in(row, height), largest_in(row + 1, height) + 1);
            samples.extend([(largest as i16, row), (smallest as i16, row)]);
        }
        // "0" is above the middle of an even height, and -1 below.
        let middle = [(0, (height - 1) / 2), (-1, height / 2)];
        samples.extend([(i16::MAX, 0), (i16::MIN, height - 1)].into_iter().chain(middle));
        alone(run, height, &samples);
    }
}

/// Every sample, on some heights.
pub fn every_value(run: &mut Run, _: &mut Rng) {
    for height in [1, 2, 3, 5, 7, 16, 100, 255, 256, 480] {
        let rows = (0..height).flat_map(|row| {
            let values = largest_in(row + 1, height) + 1..=largest_in(row, height);
            values.rev().map(move |v| (v as i16, row))
        });
        let samples: Vec<(i16, u32)> = rows.collect();
        run.holds(samples.len() == 65536, || format!("{} samples on {height} rows", samples.len()));
        alone(run, height, &samples);
    }
}
