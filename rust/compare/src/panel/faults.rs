//! Refusals: "New number 10 for a bad sample count, n or d, after 3 and 5; a
//! refusal draws nothing."

use super::case::{Case, Recording};
use crate::case::Fill;
use crate::groups::{area, size};
use crate::run::Run;
use kit::rng::Rng;
use merikohin::Screen;

/// "0 to 40,960 signed 16-bit samples"; also counts that are fine only in 16 bits.
pub fn counts(run: &mut Run, rng: &mut Rng) {
    for count in [0, 1, 2, 40_958, 40_959, 40_960, 40_961, 40_962, 65_535, 65_536, 65_537, 106_496, 262_144] {
        let number = if count <= 40_960 { 0 } else { 10 };
        for (n, d) in [(1, 0), (64, -2048), (64, 2047), (7, -3)] {
            let silent = Case::new(size(1, 3), Recording::Same(0, count), n, d);
            let columns = (number == 0).then(|| silent.columns_with_samples());
            run.panel_wants(&silent, number, columns);
            let fill = Fill::Random(rng.next());
            run.panel_wants(&Case { fill, recording: Recording::Random(rng.next(), count), ..silent }, number, None);
        }
    }
}

/// "n samples per column (1 to 64)".
pub fn per_column(run: &mut Run, rng: &mut Rng) {
    let far = [-1, -2, -63, -64, -65, 66, 127, 128, 255, 256, 257, 320, 65_536, 65_537, 65_600, 1 << 30];
    let ends = [i32::MIN, i32::MIN + 1, i32::MIN + 64, i32::MAX, i32::MAX - 1];
    for n in (0..=65).chain(far).chain(ends) {
        let number = if (1..=64).contains(&n) { 0 } else { 10 };
        for (count, d) in [(0, 0), (1100, 0), (40_960, 2047), (40_960, -2048)] {
            let fill = Fill::Random(rng.next());
            let case = Case::new(size(1, 5), Recording::Random(rng.next(), count), n, d);
            run.panel_wants(&Case { fill, ..case }, number, (count == 0).then_some(0));
        }
    }
}

/// "an offset d (-2,048 to 2,047 samples)"; one above the length draws nothing.
pub fn offsets(run: &mut Run, rng: &mut Rng) {
    let near = [-2050, -2049, -2048, -2047, -1024, -65, -64, -1, 0, 1, 64, 65, 1024, 2046, 2047, 2048, 2049];
    let far = [4095, 4096, -4096, 32_767, -32_768, 65_535, 65_536, -65_536, 67_583, 1 << 30, -(1 << 30)];
    let ends = [i32::MIN, i32::MIN + 1, i32::MIN + 2048, i32::MAX, i32::MAX - 1, i32::MAX - 2047];
    for d in near.into_iter().chain(far).chain(ends) {
        let number = if (-2048..=2047).contains(&d) { 0 } else { 10 };
        for (count, n) in [(0, 1), (1, 1), (100, 3), (2047, 64), (2048, 64), (5000, 64), (40_960, 7)] {
            let silent = Case::new(size(1, 3), Recording::Same(-1, count), n, d);
            let columns = (number == 0).then(|| silent.columns_with_samples());
            run.panel_wants(&silent, number, columns);
            let fill = Fill::Random(rng.next());
            run.panel_wants(&Case { fill, recording: Recording::Random(rng.next(), count), ..silent }, number, None);
        }
    }
}

/// A screen in a RAM of `ram` bytes, then screens there with one fault each, and
/// with all.
fn screens(ram: usize) -> Vec<(Screen, bool)> {
    let s = size(2, 8);
    let a = area(s);
    let good = Screen { colour_start: 0, depth_start: a, size_number: s };
    let past = ram as u32 / 2 * 2 - a + 2;
    let unsound = [
        Screen { size_number: 0, ..good },
        Screen { size_number: size(2, 0), ..good },
        Screen { size_number: size(2, 481), ..good },
        Screen { size_number: size(0, 8), ..good },
        Screen { size_number: size(41, 8), ..good },
        Screen { size_number: u32::MAX, ..good },
        Screen { size_number: s | 1 << 16, ..good },
        Screen { colour_start: 1, ..good },
        Screen { depth_start: a + 1, ..good },
        Screen { depth_start: a - 2, ..good },
        Screen { colour_start: a, depth_start: a, ..good },
        Screen { colour_start: past, depth_start: 0, ..good },
        Screen { depth_start: past, ..good },
        Screen { depth_start: 0u32.wrapping_sub(a), ..good },
        Screen { colour_start: u32::MAX - 1, ..good },
        Screen { colour_start: u32::MAX, depth_start: u32::MAX, size_number: u32::MAX },
    ];
    [(good, true)].into_iter().chain(unsound.map(|screen| (screen, false))).collect()
}

/// Every choice of these, and whether all three are fine.
fn inputs(counts: &[usize], all_n: &[i32], all_d: &[i32]) -> Vec<(usize, i32, i32, bool)> {
    let mut found = Vec::new();
    for &count in counts {
        for &n in all_n {
            let fine = |d: i32| count <= 40_960 && (1..=64).contains(&n) && (-2048..=2047).contains(&d);
            found.extend(all_d.iter().map(|&d| (count, n, d, fine(d))));
        }
    }
    found
}

/// Every choice of faults: "after 3 and 5", and of three for one number.
pub fn several(run: &mut Run, rng: &mut Rng) {
    let many =
        inputs(&[0, 100, 40_960, 40_961], &[1, 64, 0, 65, -1, i32::MIN], &[0, -2048, 2047, 2048, -2049, i32::MAX]);
    // A long RAM takes a while: fewer, but each fault with each.
    let few = inputs(&[100, 40_961], &[1, 65], &[0, 2048]);
    for (ram, inputs, every) in [(1030, many, 1), (4_194_304, few.clone(), 16), (4_194_305, few, 16)] {
        for (screen, sound) in screens(ram).into_iter().step_by(every) {
            for &(count, n, d, fine) in &inputs {
                let number = match (ram > 4_194_304, sound, fine) {
                    (true, _, _) => 3,
                    (_, false, _) => 5,
                    (_, _, false) => 10,
                    _ => 0,
                };
                let case = Case::new(513, Recording::Random(rng.next(), count), n, d);
                run.panel_wants(&Case { ram, screen, fill: Fill::Byte(rng.next() as u8), ..case }, number, None);
            }
        }
    }
}

/// "S div 512 is the width in groups of 16 pixels, 1 to 40; S mod 512 is the
/// height, 1 to 480."
pub fn size_numbers(run: &mut Run, rng: &mut Rng) {
    let mut sizes = vec![u32::MAX, i32::MAX as u32, 1 << 31, 65_535, 65_536, 1 << 16 | 516, 1 << 15 | 516];
    for groups in [0, 1, 39, 40, 41, 64, 128, 8_388_607] {
        sizes.extend([0, 1, 479, 480, 481, 511].map(|height| size(groups, height)));
    }
    for s in sizes {
        let fits = (1..=40).contains(&(s / 512)) && (1..=480).contains(&(s % 512));
        let screen = Screen { colour_start: 0, depth_start: 700_000, size_number: s };
        let columns = fits.then_some(s / 512 * 16);
        let case = Case::new(513, Recording::Same(rng.next() as i16, 2000), 3, 0);
        run.panel_wants(&Case { ram: 1_400_000, screen, ..case }, if fits { 0 } else { 5 }, columns);
    }
}

/// Starts at which start + area passes 2^31 or 2^32.
pub fn starts_near_the_top(run: &mut Run, rng: &mut Rng) {
    for s in [size(1, 1), size(4, 64)] {
        let a = area(s);
        let below = [0, 1, 2, a - 2, a, a + 2, 2 * a];
        let tops = [0u32, 1 << 31, 1 << 24, 1 << 22].into_iter().flat_map(|top| below.map(|by| top.wrapping_sub(by)));
        for (colour_start, depth_start) in
            tops.flat_map(|far| [(far, 0), (0, far), (far, far.wrapping_add(a)), (a, far)])
        {
            let fits = |start: u32| start.is_multiple_of(2) && start <= a;
            let sound = fits(colour_start) && fits(depth_start) && colour_start.abs_diff(depth_start) >= a;
            let screen = Screen { colour_start, depth_start, size_number: s };
            let case = Case::new(s, Recording::Random(rng.next(), 64), 1, 0);
            run.panel_wants(&Case { screen, ..case }, if sound { 0 } else { 5 }, None);
        }
    }
}

/// 3: "RAM longer than 4,194,304 bytes", with the screen at its beginning and at
/// its end.
pub fn ram_lengths(run: &mut Run, rng: &mut Rng) {
    for ram in [0, 1, 63, 64, 65, 4_194_303, 4_194_304, 4_194_305, 4_194_306, 8_388_608] {
        for s in [size(1, 1), size(40, 480)] {
            let (a, end) = (area(s), ram as u32 / 2 * 2);
            for (colour_start, depth_start) in [(0, a), (end.saturating_sub(a), end.saturating_sub(2 * a))] {
                let number = match ram {
                    4_194_305.. => 3,
                    _ if (ram as u32) < 2 * a => 5,
                    _ => 0,
                };
                let screen = Screen { colour_start, depth_start, size_number: s };
                let case = Case::new(s, Recording::Same(rng.next() as i16, 700), 1, 0);
                let case = Case { ram, screen, fill: Fill::Byte(rng.next() as u8), ..case };
                run.panel_wants(&case, number, Some(case.width()));
            }
        }
    }
}
