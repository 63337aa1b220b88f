//! The fixed groups: both sides of every edge that 02's M-104 names. Those of
//! refusals are in [`super::faults`], those of rows in [`super::rows`], those of
//! two panels in [`super::laws`].

use super::case::{Case, Recording};
use super::{faults, laws, random, rows};
use crate::case::Fill;
use crate::groups::size;
use crate::run::Run;
use kit::rng::Rng;
use merikohin::Screen;

pub fn all(run: &mut Run) {
    run.group("panel, worked by hand", by_hand);
    run.group("panel, sample counts", faults::counts);
    run.group("panel, samples a column", faults::per_column);
    run.group("panel, offsets", faults::offsets);
    run.group("panel, several faults at once", faults::several);
    run.group("panel, size numbers", faults::size_numbers);
    run.group("panel, areas", areas);
    run.group("panel, areas, every start", every_start);
    run.group("panel, starts near 2^32", faults::starts_near_the_top);
    run.group("panel, RAM lengths", faults::ram_lengths);
    run.group("panel, no samples in sight", none_in_sight);
    run.group("panel, both ends of a recording", both_ends);
    run.group("panel, one loud sample", one_loud);
    run.group("panel, every bar of few rows", every_bar);
    run.group("panel, silence and full height", silence_and_full_height);
    run.group("panel, grounds and colours", grounds);
    run.group("panel, every width", every_width);
    run.group("panel, both sides of each row, every height", rows::both_sides);
    run.group("panel, every sample value", rows::every_value);
    run.group("panel, 640 by 480", full_size);
    run.group("panel, the offset as a shorter recording", laws::shorter);
    run.group("panel, moved by a column", laws::moved);
    run.group("panel, two triangles a bar", laws::two_triangles);
    run.group("panel, two triangles a bar on 640 by 480", laws::two_triangles_full_size);
    run.group("random panels", random::panels);
}

/// Draws a panel that is to be accepted, and to draw these pixels and no others.
pub fn draws(run: &mut Run, case: &Case, pixels: &[(u32, u32)]) {
    if run.panel_wants(case, 0, Some(pixels.len() as u32)) {
        let same = run.memories.subject_ram() == case.ram_with(pixels);
        run.holds(same, || format!("{case}: other pixels than {pixels:?}"));
    }
}

/// All pixels of a column from one row to another.
pub fn bar(x: u32, first: u32, last: u32) -> impl Iterator<Item = (u32, u32)> {
    (first..=last).map(move |y| (x, y))
}

// ---------------------------------------------------------------------------
// The groups.
// ---------------------------------------------------------------------------

/// Samples, n, d and the picture, worked out apart from both programs.
const WORKED: [(&[i16], i32, i32, &str); 11] = [
    // Both ends of each of four rows.
    (
        &[32767, 16384, 16383, 0, -1, -16384, -16385, -32768],
        1,
        0,
        "##.............. ..##............ ....##.......... ......##........",
    ),
    // The same of three rows, and of two.
    (&[32767, 10922, 10921, -10923, -10924, -32768], 1, 0, "##.............. ..##............ ....##.........."),
    (&[32767, 0, -1, -32768], 1, 0, "##.............. ..##............"),
    // One row has them all.
    (&[-32768, 32767, 0, -1, 9], 2, 0, "###............."),
    // Bars of several rows, and a last column with one sample.
    (
        &[32767, -32768, 0, -1, 5, 5, 20000, 3, -20000],
        2,
        0,
        "#..#............ ####............ ##.............. #...#...........",
    ),
    // Moved to the right by four samples, which is a column and a third.
    (&[32767, 0, -1, -1, -32768, 7], 3, -4, ".#.............. .#.#............ ..#............. ..#............."),
    // The first two are to the left of the screen.
    (&[32767, 0, -1, -1, -32768, 7], 2, 2, "................ .#.............. ##.............. .#.............."),
    // Beside the last column, and in it.
    (&[32767], 1, -16, "................ ................"),
    (&[32767], 1, -15, "...............# ................"),
    // The last sample in the first column, and beside it.
    (&[0, 0, -32768], 1, 2, "................ #..............."),
    (&[0, 0, -32768], 1, 3, "................ ................"),
];

fn by_hand(run: &mut Run, rng: &mut Rng) {
    for (samples, n, d, picture) in WORKED {
        let lines: Vec<&str> = picture.split(' ').collect();
        let mut pixels = Vec::new();
        for (y, line) in lines.iter().enumerate() {
            pixels.extend(line.match_indices('#').map(|(x, _)| (x as u32, y as u32)));
        }
        let case = Case::new(size(1, lines.len() as u32), Recording::List(samples.to_vec()), n, d);
        draws(run, &case, &pixels);
        let fill = Fill::Random(rng.next());
        draws(run, &Case { fill, colour: rng.next() as u16, ..case }, &pixels);
    }
}

/// Colour start, depth start, RAM length and number.
fn area_places(a: u32) -> Vec<(u32, u32, usize, u32)> {
    let exact = 2 * a as usize;
    vec![
        // Touching each other and the end of RAM, in both orders; apart.
        (0, a, exact, 0),
        (a, 0, exact, 0),
        (0, a, exact + 1, 0),
        (a, 0, exact + 1, 0),
        (0, a + 2, exact + 2, 0),
        (a + 2, 0, exact + 2, 0),
        (2, a + 2, exact + 5, 0),
        (a + 2, 2, exact + 5, 0),
        (a / 2, a + a / 2, exact + a as usize, 0),
        // Past the end of RAM by one byte, and by one half-word.
        (0, a, exact - 1, 5),
        (a, 0, exact - 1, 5),
        (0, a + 2, exact, 5),
        (a + 2, 0, exact, 5),
        // Overlapping by one half-word, and the same area twice.
        (0, a - 2, exact, 5),
        (a - 2, 0, exact, 5),
        (a, a, exact, 5),
        // Odd starts.
        (1, a + 2, exact + 4, 5),
        (0, a + 1, exact + 4, 5),
        (a + 1, 0, exact + 4, 5),
        (a + 2, 1, exact + 4, 5),
        // No RAM to speak of.
        (0, a, 0, 5),
        (0, a, 1, 5),
    ]
}

/// A sound screen wherever it stands, at every address; and what is not sound.
fn areas(run: &mut Run, rng: &mut Rng) {
    for (groups, height) in [(1, 1), (1, 4), (2, 3), (4, 64), (40, 1), (1, 480)] {
        let s = size(groups, height);
        for (colour_start, depth_start, ram, number) in area_places(s / 512 * (s % 512) * 32) {
            let screen = Screen { colour_start, depth_start, size_number: s };
            for lead in [0, (rng.next() % 16) as usize] {
                let recording = Recording::Random(rng.next(), 16 * groups as usize * 3);
                let fill = Fill::Random(rng.next());
                run.panel_wants(&Case { ram, lead, fill, screen, ..Case::new(s, recording, 3, 0) }, number, None);
            }
        }
    }
}

/// One row of one group at every two starts in and around its RAM.
fn every_start(run: &mut Run, rng: &mut Rng) {
    let ram = 66;
    for colour_start in 0..=70 {
        for depth_start in 0..=70 {
            let screen = Screen { colour_start, depth_start, size_number: size(1, 1) };
            let fits = |start: u32| start.is_multiple_of(2) && start as usize + 32 <= ram;
            let sound = fits(colour_start) && fits(depth_start) && colour_start.abs_diff(depth_start) >= 32;
            let fill = Fill::Random(rng.next());
            let case = Case { ram, fill, screen, ..Case::new(513, Recording::Same(0, 16), 1, 0) };
            run.panel_wants(&case, if sound { 0 } else { 5 }, Some(16));
        }
    }
}

/// "A column with none draws nothing": an empty recording, one that ends before
/// the screen and one that begins after it; and with one sample more in sight.
fn none_in_sight(run: &mut Run, rng: &mut Rng) {
    for (groups, n) in [(1, 1), (1, 2), (2, 5), (1, 64), (1, 63), (40, 1), (40, 3)] {
        let mut wants = |count: usize, d: i32, pixels: u32| {
            let recording = Recording::Same(rng.next() as i16, count);
            run.panel_wants(&Case::new(size(groups, 3), recording, n, d), 0, Some(pixels));
        };
        for d in [0, 1, -1, 63, -64, 2047, -2048] {
            wants(0, d, 0);
        }
        for count in [1, 2, 5, 63, 64, 1000, 2047] {
            wants(count, count as i32, 0);
            wants(count, count as i32 - 1, 1);
            wants(count, 2047, 0);
        }
        // As many samples as the screen shows, to the right.
        let shown = 16 * groups as i32 * n;
        for count in [1, 7, 40_960].into_iter().filter(|_| shown <= 2048) {
            wants(count, -shown, 0);
            wants(count, 1 - shown, 1);
        }
    }
}

/// Every short recording at every small offset: columns at both ends have a part
/// of their samples. A column is one pixel if nothing is to be heard.
fn both_ends(run: &mut Run, rng: &mut Rng) {
    for n in [1, 2, 3, 5, 16] {
        for d in -20..=20 {
            for count in 0..24 {
                let case = Case::new(size(1, 1), Recording::Same(0, count), n, d);
                run.panel_wants(&case, 0, Some(case.columns_with_samples()));
                let recording = Recording::Random(rng.next(), count);
                run.panel_wants(&Case { recording, ..Case::new(size(1, 8), Recording::Same(0, 0), n, d) }, 0, None);
            }
        }
    }
    for n in [1, 2, 7, 63, 64] {
        for d in [-2048, -2047, -1000, -65, -64, -63, -1, 0, 1, 63, 64, 65, 1000, 2046, 2047] {
            for count in [1, 2, 63, 64, 65, 1000, 1023, 1024, 1025, 2047, 2048, 3071, 3072, 40_960] {
                let case = Case::new(size(1, 1), Recording::Same(-1, count), n, d);
                run.panel_wants(&case, 0, Some(case.columns_with_samples()));
            }
        }
    }
}

/// One sample at the top of the screen, all others at its bottom: each of the
/// outer samples of each column in turn, so that no column takes another's.
fn one_loud(run: &mut Run, _: &mut Rng) {
    for n in [1, 2, 3, 7, 64] {
        for d in [0, 1, -1, n, -n, n - 1, 2047, -2048] {
            let outer = (-1..18).flat_map(|x| [0, 1, n - 2, n - 1].map(|k| x * n + d + k));
            outer.filter(|number| (0..17 * n + d.max(0)).contains(number)).for_each(|loud| loud_at(run, n, d, loud));
        }
    }
}

/// The recording goes on beyond the right side of the screen.
fn loud_at(run: &mut Run, n: i32, d: i32, loud: i32) {
    let mut samples = vec![i16::MIN; (17 * n + d.max(0)) as usize];
    samples[loud as usize] = i16::MAX;
    let case = Case::new(size(1, 3), Recording::List(samples), n, d);
    let mut pixels = Vec::new();
    for x in 0..16 {
        // Those below 0 do not exist.
        let taken = (x as i32 * n + d + n).min(n);
        match case.column_of(loud as usize) {
            Some(column) if column == x => pixels.extend(bar(x, 0, if taken > 1 { 2 } else { 0 })),
            _ if taken > 0 => pixels.push((x, 2)),
            _ => {}
        }
    }
    draws(run, &case, &pixels);
}

/// Every first row and last row on screens of up to eight rows, the largest
/// sample first and last.
fn every_bar(run: &mut Run, rng: &mut Rng) {
    let bars = (1..=8).flat_map(|height| (0..height).flat_map(move |a| (0..height).map(move |b| (height, a, b))));
    for (height, a, b) in bars {
        let pair = [a, b].map(|row| rows::any_in(rng, row, height));
        let x = rng.between(0, 15) as u32;
        let case = Case::new(size(1, height), Recording::List(pair.to_vec()), 2, -2 * x as i32);
        draws(run, &case, &bar(x, a.min(b), a.max(b)).collect::<Vec<_>>());
    }
}

/// Bars of one row, all in the same one, and bars from the first row to the last.
fn silence_and_full_height(run: &mut Run, rng: &mut Rng) {
    for height in (1..=480).filter(|h| h % 7 == 1 || *h < 20 || *h > 476) {
        let (s, n) = (size(1, height), rng.between(2, 64) as i32);
        for value in [0, -1, i16::MIN, i16::MAX, rng.next() as i16] {
            run.panel_wants(&Case::new(s, Recording::Same(value, 16 * n as usize), n, 0), 0, Some(16));
        }
        let loud = Recording::InTurn(i16::MIN, i16::MAX, 16 * n as usize);
        run.panel_wants(&Case::new(s, loud, n, 0), 0, Some(16 * height));
    }
}

/// "with depth 0", whatever stands there: depth 0 is never above the stored one.
fn grounds(run: &mut Run, rng: &mut Rng) {
    let mut colours = vec![0, 65535, 0x1234, 0x00ff, 0xff00, 32767, 32768];
    colours.extend((0..16).map(|bit| 1 << bit));
    for colour in colours {
        for fill in [Fill::Byte(0), Fill::Byte(255), Fill::Byte(colour as u8), Fill::Random(rng.next())] {
            for starts in [(0, 1024), (1024, 0)] {
                let case = Case::new(size(2, 16), Recording::Random(rng.next(), 100), 3, rng.between(-9, 9) as i32);
                let screen = Screen { colour_start: starts.0, depth_start: starts.1, ..case.screen };
                run.panel_wants(&Case { fill, colour, screen, ..case }, 0, None);
            }
        }
    }
}

/// "Column x": all columns of each width, and none beside them.
fn every_width(run: &mut Run, rng: &mut Rng) {
    for groups in 1..=40 {
        for height in [1, 3] {
            let n = rng.between(1, 60) as i32;
            let all = (16 * groups * n as u32) as usize;
            for (count, columns) in [(all, 16 * groups), (all + n as usize, 16 * groups), (all - 1, 16 * groups)] {
                let columns = if n == 1 { columns.min(count as u32) } else { columns };
                let case = Case::new(size(groups, height), Recording::Same(3, count), n, 0);
                run.panel_wants(&case, 0, Some(columns));
                run.panel_wants(&Case { recording: Recording::Random(rng.next(), count), ..case }, 0, None);
            }
        }
    }
}

/// 640 columns of 480 rows, up to all 40,960 samples: "64" a column is all of them.
fn full_size(run: &mut Run, rng: &mut Rng) {
    let s = size(40, 480);
    let loud = Recording::InTurn(i16::MIN, i16::MAX, 40_960);
    run.panel_wants(&Case::new(s, loud, 64, 0), 0, Some(640 * 480));
    for (n, d) in [(64, 0), (64, 2047), (64, -2048), (1, 0), (1, 2047), (1, -2048), (63, 5), (37, -100), (1, -639)] {
        let fill = Fill::Random(rng.next());
        let case = Case { fill, ..Case::new(s, Recording::Random(rng.next(), 40_960), n, d) };
        run.panel_wants(&case, 0, None);
        let silent = Case { recording: Recording::Same(0, 40_960), ..case };
        let columns = silent.columns_with_samples();
        run.panel_wants(&silent, 0, Some(columns));
    }
}
