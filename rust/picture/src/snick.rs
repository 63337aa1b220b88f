//! The recording in examples/sounds/snick.wav, which `merikohin panel` shows in
//! docs/TOOL.md: made up, a quiet field with a short click in it and later a dull
//! sound.

use kit::rng::Rng;

const RATE: u32 = 48_000;

/// A quarter of a second.
const COUNT: usize = 12_000;

/// A sound that rings: from which sample on, how loud at first, which part of
/// its loudness it keeps from sample to sample, and the cosine and sine of the
/// angle that it turns by meanwhile.
struct Ring {
    start: usize,
    first: f64,
    keeps: f64,
    turn: (f64, f64),
}

/// 3,000 turns a second, and 200.
const RINGS: [Ring; 2] = [
    Ring { start: 1_300, first: 24_000.0, keeps: 0.989, turn: (0.923_879_532_511_286_7, 0.382_683_432_365_089_8) },
    Ring { start: 9_200, first: 13_000.0, keeps: 0.998_4, turn: (0.999_657_324_975_557_3, 0.026_176_948_307_873_15) },
];

/// What the field sounds like: noise as loud as this, made softer.
const QUIET: f64 = 9_000.0;

/// The samples, by products and sums alone: every machine gets the same.
fn recording() -> Vec<i16> {
    let mut noise = Rng::new(104);
    let mut soft = 0.0;
    let mut rings = [(0.0, 0.0); RINGS.len()];
    let sample = |n: usize| {
        let rough = noise.between(-1000, 1000) as f64 / 1000.0;
        soft = 0.8 * soft + 0.2 * rough;
        let mut value = QUIET * soft;
        for ((x, y), ring) in rings.iter_mut().zip(&RINGS) {
            let (cos, sin) = ring.turn;
            let turned = (ring.keeps * (*x * cos - *y * sin), ring.keeps * (*x * sin + *y * cos));
            (*x, *y) = if n == ring.start { (ring.first, 0.0) } else { turned };
            // Rough as well, so that it does not look like a drawing of a bell.
            value += *x * (1.0 + 0.3 * rough);
        }
        value.clamp(-32768.0, 32767.0) as i16
    };
    (0..COUNT).map(sample).collect()
}

/// The file: mono, 16 bits, its header of 44 bytes and then the samples.
pub fn file() -> Vec<u8> {
    let samples = recording();
    let bytes = 2 * samples.len() as u32;
    let mut file = b"RIFF".to_vec();
    file.extend((36 + bytes).to_le_bytes());
    file.extend(b"WAVEfmt ");
    file.extend(16u32.to_le_bytes());
    file.extend([1, 0, 1, 0]); // PCM, one channel
    file.extend(RATE.to_le_bytes());
    file.extend((2 * RATE).to_le_bytes());
    file.extend([2, 0, 16, 0]); // bytes a sample, bits of it
    file.extend(b"data");
    file.extend(bytes.to_le_bytes());
    file.extend(samples.iter().flat_map(|sample| sample.to_le_bytes()));
    file
}

#[cfg(test)]
mod tests {
    use super::*;

    #[test]
    fn the_file_has_it() {
        let kept = std::fs::read("../../examples/sounds/snick.wav").unwrap();
        assert!(kept == file());
        assert_eq!(kept.len(), 44 + 2 * COUNT);
    }

    /// Quiet up to each sound, loud from it on, and never cut off.
    #[test]
    fn quiet_and_loud() {
        let samples = recording();
        let loudest = |part: &[i16]| part.iter().map(|sample| i32::from(*sample).abs()).max().unwrap();
        let [snick, late] = [RINGS[0].start, RINGS[1].start];
        assert!(loudest(&samples[..snick]) < 7_000 && loudest(&samples[snick + 800..late]) < 7_000);
        assert!(loudest(&samples[snick..snick + 8]) > 20_000 && loudest(&samples[late..]) > 12_000);
        assert!(loudest(&samples) < 32_767);
    }
}
