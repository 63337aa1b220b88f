//! Random panels, good and bad, and the accepted ones that the laws are tried on.

use super::case::{Case, Recording};
use crate::case::Fill;
use crate::groups::{area, size};
use crate::random::{random_size, sound_screen, spoil_screen};
use crate::run::Run;
use kit::rng::Rng;
use std::time::{Duration, Instant};

/// An n in range.
fn per_column(rng: &mut Rng) -> i32 {
    match rng.next() % 4 {
        0 => rng.pick(&[1, 1, 1, 2, 63, 64]),
        1 => rng.between(1, 8) as i32,
        _ => rng.between(1, 64) as i32,
    }
}

/// A count in range: few, around what the screen shows, or any.
fn count(rng: &mut Rng, width: u32, n: i32) -> usize {
    let shown = i64::from(width) * i64::from(n);
    let any = rng.between(0, 40_960);
    let count = match rng.next() % 16 {
        0 => rng.pick(&[0, 1, 2, 3]),
        1..=3 => rng.between(0, 2 * i64::from(n)),
        4..=7 => rng.between(0, shown),
        8..=11 => shown + rng.between(-70, 70),
        12..=14 => shown + rng.between(0, 2100),
        _ => rng.pick(&[40_960, 40_959, any]),
    };
    count.clamp(0, 40_960) as usize
}

/// An offset in range: none, small, around both ends of what can be seen, any, or
/// one with which something can be seen.
fn offset(rng: &mut Rng, width: u32, n: i32, count: usize) -> i32 {
    let (near, shown) = (rng.between(-70, 70), i64::from(width) * i64::from(n));
    let offset = match rng.next() % 16 {
        0..=2 => 0,
        3 | 4 => near,
        5 => count as i64 + near,
        6 => near - shown,
        7 => i64::from(n) * rng.between(-20, 20),
        8 => rng.pick(&[-2048, -2047, 2046, 2047]),
        9 => rng.between(-2048, 2047),
        _ => rng.between(1 - shown, count.max(1) as i64 - 1),
    };
    offset.clamp(-2048, 2047) as i32
}

/// An accepted panel on a screen of this size.
fn on_size(rng: &mut Rng, s: u32) -> Case {
    let ram = 2 * area(s) as usize + rng.pick(&[0, 0, 1, 2, 3, 17, 64, 301]);
    let fill = match rng.next() % 8 {
        0 => Fill::Byte(rng.pick(&[0, 255])),
        1 => Fill::Byte(rng.next() as u8),
        _ => Fill::Random(rng.next()),
    };
    let n = per_column(rng);
    let count = count(rng, s / 512 * 16, n);
    let recording =
        if rng.chance(8) { Recording::Same(rng.next() as i16, count) } else { Recording::Random(rng.next(), count) };
    let d = offset(rng, s / 512 * 16, n, count);
    let (lead, screen) = ((rng.next() % 16) as usize, sound_screen(rng, s, ram));
    Case { ram, lead, fill, screen, colour: rng.next() as u16, ..Case::new(s, recording, n, d) }
}

/// An accepted panel on a small screen.
pub fn accepted(rng: &mut Rng) -> Case {
    let s = random_size(rng);
    on_size(rng, s)
}

/// Puts a fault into a case; it may take two or three.
fn spoil(rng: &mut Rng, case: &mut Case) {
    loop {
        match rng.next() % 8 {
            0..=2 => {
                let fault = rng.next() % 11;
                spoil_screen(rng, &mut case.screen, case.ram, fault);
            }
            3 => {
                let count = rng.pick(&[40_961, 40_961, 40_962, 50_000, 65_536, 65_537, 106_496]);
                case.recording = Recording::Random(rng.next(), count);
            }
            4 | 5 => case.per_column = rng.pick(&[0, 65, -1, -64, 66, 128, 256, 257, 65_537, i32::MIN, i32::MAX]),
            _ => {
                let far = rng.next() as i32;
                case.offset = rng.pick(&[2048, -2049, 2049, 4096, 65_536, -65_536, i32::MIN, i32::MAX, far]);
            }
        }
        if !rng.chance(4) {
            return;
        }
    }
}

fn case(rng: &mut Rng) -> Case {
    // Mostly small screens, some of full size, a few RAMs that are too long.
    let kind = rng.next() % 2000;
    let s = match kind {
        0..=3 => 20960,
        4..=9 => rng.pick(&[size(40, 1), size(1, 480), size(39, 479), size(20, 240)]),
        _ => random_size(rng),
    };
    let mut case = on_size(rng, s);
    match kind {
        10 => case.ram = 4_194_304,
        11 => case.ram = rng.pick(&[4_194_305, 4_200_001]),
        _ => {}
    }
    if rng.chance(5) {
        spoil(rng, &mut case);
    }
    case
}

/// At least the asked number of random panels, for at least the asked minutes.
pub fn panels(run: &mut Run, rng: &mut Rng) {
    let start = Instant::now();
    let least = Duration::from_secs(60 * run.minutes);
    let (mut asked, mut pixels, mut empty, mut full) = (0u64, 0u64, 0u64, 0u64);
    let mut by_number = [0u64; 11];
    while asked < run.panels || start.elapsed() < least {
        asked += 1;
        let case = case(rng);
        if let Some(seen) = run.panel(&case) {
            let done = seen.number == 0;
            by_number[(seen.number as usize).min(10)] += 1;
            pixels += u64::from(seen.pixels);
            empty += u64::from(done && seen.pixels == 0);
            full += u64::from(done && case.screen.size_number == 20960);
        }
    }
    run.note(format!(
        "{} drawn with {pixels} pixels, {empty} of them with none, {full} at 640 by 480; refused: {} with 3, {} with 5, {} with 10",
        by_number[0], by_number[3], by_number[5], by_number[10]
    ));
}
