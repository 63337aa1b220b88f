//! The sound under the picture: made-up samples, and what a column shows of them.

use kit::rng::Rng;

/// 48,000 samples and 60 frames a second.
pub const SAMPLES_A_FRAME: u32 = 800;

/// Each column shows so many samples.
pub const SAMPLES_A_COLUMN: u32 = 40;

/// A sound begins at a sample, so loud, and keeps this part of its loudness from
/// sample to sample. What each one is, the picture does not say.
const SOUNDS: [(usize, f64, f64); 3] =
    [(1_240, 9_000.0, 0.998_8), (16_280, 14_000.0, 0.998_2), (22_680, 27_000.0, 0.998_8)];

/// What a quiet field sounds like.
const QUIET: f64 = 2_200.0;

/// So many samples of a recording, by products and sums alone: every machine
/// gets the same.
pub fn recording(count: usize) -> Vec<i16> {
    let mut noise = Rng::new(1);
    let mut loud = [0.0; SOUNDS.len()];
    let mut soft = 0.0;
    let sample = |n: usize| {
        let mut most = QUIET;
        for (now, (start, first, keeps)) in loud.iter_mut().zip(SOUNDS) {
            *now = if n == start { first } else { *now * keeps };
            most += *now;
        }
        let rough = noise.between(-1000, 1000) as f64 / 1000.0;
        soft = 0.5 * soft + 0.5 * rough;
        (most * soft * 1.3).clamp(-32768.0, 32767.0) as i16
    };
    (0..count).map(sample).collect()
}

/// The rows that a column fills in a strip of this height, from that of its
/// largest sample to that of its smallest; none where it has no sample.
pub fn rows(samples: &[i16], column: u32, height: u32) -> Option<(u32, u32)> {
    let first = (column * SAMPLES_A_COLUMN) as usize;
    let shown = samples.iter().skip(first).take(SAMPLES_A_COLUMN as usize);
    let row = |sample: &i16| (32767 - i32::from(*sample)) as u32 * height / 65536;
    Some((row(shown.clone().max()?), row(shown.min()?)))
}

/// The first sample of a frame, and the column that shows it.
pub fn frame_starts(frame: u32) -> (u32, u32) {
    let sample = frame * SAMPLES_A_FRAME;
    (sample, sample / SAMPLES_A_COLUMN)
}

#[cfg(test)]
mod tests {
    use super::*;

    #[test]
    fn largest_and_smallest() {
        let mut samples = vec![0; 50];
        samples[3] = 32767;
        samples[39] = -32768;
        samples[41] = -1;
        assert_eq!(rows(&samples, 0, 96), Some((0, 95)));
        assert_eq!(rows(&samples, 1, 96), Some((47, 48)));
        assert_eq!(rows(&samples, 2, 96), None);
    }

    #[test]
    fn a_frame_begins_at_a_whole_column() {
        assert_eq!(frame_starts(0), (0, 0));
        assert_eq!(frame_starts(23), (18_400, 460));
        assert_eq!(SAMPLES_A_FRAME % SAMPLES_A_COLUMN, 0);
    }

    /// The recording is quiet before its first sound and grows loud after it.
    #[test]
    fn quiet_and_loud() {
        let samples = recording(25_600);
        let loudest = |part: &[i16]| part.iter().map(|sample| i32::from(*sample).abs()).max().unwrap();
        assert!(loudest(&samples[..SOUNDS[0].0]) < 3_000);
        assert!(loudest(&samples[SOUNDS[2].0..]) > 10_000);
    }
}
