//! Random calls, good and bad, and the random parts other groups use.

use crate::case::{plain, Area, Call, Case, Fill, Step};
use crate::groups::{area, size};
use crate::points::{onto_sample, sample};
use crate::run::Run;
use kit::rng::Rng;
use merikohin::{Plane, Screen, Triangle};
use std::time::{Duration, Instant};

const EXTREMES: [i32; 12] =
    [0, 1, -1, 65535, 65536, -65536, i32::MAX, i32::MIN, i32::MIN + 1, 1 << 30, 1 << 21, 0x7fff_0000];

pub fn plane(rng: &mut Rng) -> Plane {
    let mut number = |kind: u64| match kind {
        0 => 0,
        1 => rng.next() as i32,
        2 => rng.pick(&EXTREMES),
        3 => rng.between(-70_000, 70_000) as i32,
        _ => (rng.between(-64, 64) as i32) << 16,
    };
    let kinds = [number(1), number(1), number(1)].map(|n| u64::from(n as u32) % 5);
    Plane { c: number(kinds[0]), a: number(kinds[1]), b: number(kinds[2]) }
}

/// A point on or a little around a screen, often exactly on a sample point.
pub fn near(rng: &mut Rng, width: i64, height: i64) -> (i32, i32) {
    let x = rng.between(-24, 8 * width + 16) as i32;
    let y = rng.between(-24, 8 * height + 16) as i32;
    match rng.next() % 4 {
        0 => (x, y),
        1 => (x & !3, y & !3),
        _ => (onto_sample(x), onto_sample(y)),
    }
}

pub fn twice_area(v: [i32; 6]) -> i64 {
    let v = v.map(i64::from);
    (v[2] - v[0]) * (v[5] - v[1]) - (v[4] - v[0]) * (v[3] - v[1])
}

/// The vertices in the order that can cover pixels.
pub fn turned_right(v: [i32; 6]) -> [i32; 6] {
    if twice_area(v) < 0 {
        [v[0], v[1], v[4], v[5], v[2], v[3]]
    } else {
        v
    }
}

/// A triangle with vertex numbers in range, mostly one that covers something.
pub fn triangle(rng: &mut Rng, width: i64, height: i64) -> Triangle {
    let anywhere = |rng: &mut Rng| (rng.between(-8192, 8191) as i32, rng.between(-8192, 8191) as i32);
    let extreme = |rng: &mut Rng| {
        let first = sample(0);
        let ends = [-8192, 8191, -8191, 8190, first, first - 8, first + 8, first - 1, first + 1];
        (rng.pick(&ends), rng.pick(&ends))
    };
    let kind = rng.next() % 10;
    let mut p = [(0, 0); 3];
    for place in &mut p {
        *place = match kind {
            0 => anywhere(rng),
            1 => extreme(rng),
            2 => match rng.next() % 3 {
                0 => anywhere(rng),
                1 => extreme(rng),
                _ => near(rng, width, height),
            },
            _ => near(rng, width, height),
        };
    }
    let inside = |n: i32| n.clamp(-8192, 8191);
    match kind {
        // Edges along the rows and columns.
        3 => p[1].1 = p[0].1,
        4 => p[1].0 = p[0].0,
        // Thin: the third vertex close to the first or second.
        5 => {
            let from = rng.pick(&[p[0], p[1]]);
            p[2] = (inside(from.0 + rng.between(-9, 9) as i32), inside(from.1 + rng.between(-9, 9) as i32));
        }
        // Small.
        6 => {
            for k in 1..3 {
                p[k] = (inside(p[0].0 + rng.between(-40, 40) as i32), inside(p[0].1 + rng.between(-40, 40) as i32));
            }
        }
        // Slopes of one.
        7 => {
            let d = rng.between(-200, 200) as i32;
            p[1] = (inside(p[0].0 + d), inside(p[0].1 + rng.pick(&[d, -d])));
        }
        _ => {}
    }
    let mut v = [p[0].0, p[0].1, p[1].0, p[1].1, p[2].0, p[2].1];
    if !rng.chance(6) {
        v = turned_right(v);
    }
    Triangle { depth: plane(rng), red: plane(rng), green: plane(rng), blue: plane(rng), ..plain(v) }
}

/// A size number in range.
pub fn random_size(rng: &mut Rng) -> u32 {
    let groups = rng.pick(&[1, 1, 1, 2, 2, 3, 4]);
    let height = match rng.next() % 8 {
        0 => 1,
        1 | 2 => rng.between(1, 4) as u32,
        3..=6 => rng.between(1, 24) as u32,
        _ => rng.between(1, 64) as u32,
    };
    size(groups, height)
}

/// A sound screen for a RAM this long, if one fits at all: touching or apart,
/// in both orders.
pub fn sound_screen(rng: &mut Rng, s: u32, ram: usize) -> Screen {
    let bytes = i64::from(area(s));
    let room = ram as i64 - 2 * bytes;
    let mut spare = || {
        if room < 2 || rng.chance(2) {
            0
        } else {
            rng.between(0, room / 4) * 2
        }
    };
    let (before, between) = (spare(), spare());
    let (low, high) = (before, before + bytes + between);
    let swapped = rng.chance(2);
    let (colour, depth) = if swapped { (high, low) } else { (low, high) };
    Screen { colour_start: colour as u32, depth_start: depth as u32, size_number: s }
}

fn call(rng: &mut Rng, s: u32) -> Call {
    let (width, height) = (i64::from(s / 512 * 16), i64::from(s % 512));
    match rng.next() % 16 {
        0 | 1 => {
            let colour = rng.next() as u16;
            let depth = if rng.chance(2) { rng.next() as u16 } else { rng.pick(&[0, 1, 32767, 32768, 65534, 65535]) };
            Call::Clear { colour, depth }
        }
        2 | 3 => Call::RowCheck { row: rng.between(0, height - 1) as u32 },
        4 | 5 => Call::Row { area: rng.pick(&Area::BOTH), row: rng.between(0, height - 1) as u32 },
        _ => Call::Draw(triangle(rng, width, height)),
    }
}

/// Puts a fault into a screen, the one of eleven that is named; now and then it is
/// none.
pub fn spoil_screen(rng: &mut Rng, screen: &mut Screen, ram: usize, fault: u64) {
    let bytes = area(screen.size_number % (64 * 512));
    match fault {
        0 => screen.colour_start |= 1,
        1 => screen.depth_start |= 1,
        2 => screen.size_number = rng.next() as u32,
        3 => screen.size_number = screen.size_number & !511 | rng.pick(&[0, 481, 482, 511]),
        4 => screen.size_number = screen.size_number % 512 + 512 * rng.pick(&[0, 41, 42, 64, 127, 128, 129]),
        5 => screen.size_number |= rng.pick(&[1 << 15, 1 << 16, 1 << 17, 1 << 24, 1 << 31]),
        6 => screen.colour_start = screen.depth_start.wrapping_add(rng.pick(&[0, 2, 4])),
        7 => screen.depth_start = screen.colour_start.wrapping_add(bytes).wrapping_sub(rng.pick(&[2, 4, 1])),
        8 => screen.colour_start = (ram as u32).wrapping_sub(bytes).wrapping_add(rng.pick(&[1, 2, 4, 32])),
        9 => {
            screen.depth_start =
                rng.pick(&[0u32.wrapping_sub(bytes), 0u32.wrapping_sub(2), u32::MAX, 1 << 31, ram as u32])
        }
        _ => screen.colour_start = rng.next() as u32,
    }
}

/// Puts a fault into a step; it may take two or three.
fn spoil(rng: &mut Rng, step: &mut Step, ram: usize) {
    loop {
        let screen = &mut step.screen;
        match rng.next() % 22 {
            fault @ 0..=10 => spoil_screen(rng, screen, ram, fault),
            _ => {
                let height = screen.size_number % 512;
                match &mut step.call {
                    Call::Draw(t) => {
                        let far = rng.pick(&[8192, -8193, 8193, 65536, -65536, i32::MAX, i32::MIN, 1 << 20]);
                        let slot = [
                            &mut t.vertices.x1,
                            &mut t.vertices.y1,
                            &mut t.vertices.x2,
                            &mut t.vertices.y2,
                            &mut t.vertices.x3,
                            &mut t.vertices.y3,
                        ];
                        *slot.into_iter().nth((rng.next() % 6) as usize).expect("six") = far;
                    }
                    Call::Row { row, .. } | Call::RowCheck { row } => {
                        *row = rng.pick(&[height, height + 1, 511, 512, u32::MAX, 1 << 31, 1 << 27]);
                    }
                    Call::Clear { .. } => step.screen.size_number = 0,
                }
            }
        }
        if !rng.chance(4) {
            return;
        }
    }
}

fn case(rng: &mut Rng) -> Case {
    // Mostly small screens, some of full size, a few RAMs that are too long.
    let kind = rng.next() % 400;
    let s = match kind {
        0..=2 => 20960,
        3 => rng.pick(&[size(40, 1), size(1, 480), size(39, 479), size(20, 240)]),
        _ => random_size(rng),
    };
    let exact = 2 * area(s) as usize;
    let ram = match kind {
        4 => rng.pick(&[4_194_303, 4_194_304]),
        5 => rng.pick(&[4_194_305, 4_194_306, 4_200_001]),
        _ => exact + rng.pick(&[0, 0, 1, 2, 3, 17, 64, 301]),
    };
    let fill = match rng.next() % 8 {
        0 => Fill::Byte(255),
        1 => Fill::Byte(rng.next() as u8),
        _ => Fill::Random(rng.next()),
    };
    let screen = sound_screen(rng, s, ram);
    let mut steps = Vec::new();
    for _ in 0..rng.between(1, 5) {
        // Now and then another screen in the same RAM.
        let screen = if rng.chance(8) {
            let smaller = size(rng.between(1, i64::from(s / 512)) as u32, rng.between(1, i64::from(s % 512)) as u32);
            sound_screen(rng, smaller, ram)
        } else {
            screen
        };
        let mut step = Step { screen, call: call(rng, screen.size_number) };
        if rng.chance(4) {
            spoil(rng, &mut step, ram);
        }
        steps.push(step);
    }
    Case { ram, lead: (rng.next() % 16) as usize, fill, steps }
}

/// At least the asked number of random calls, for at least the asked minutes.
pub fn calls(run: &mut Run, rng: &mut Rng) {
    let start = Instant::now();
    let least = Duration::from_secs(60 * run.minutes);
    let before = run.comparisons;
    let mut by_number = [0u64; 9];
    let (mut full, mut covered, mut written, mut drawn) = (0u64, 0u64, 0u64, 0u64);
    while run.comparisons - before < run.calls || start.elapsed() < least {
        let case = case(rng);
        if let Some(answers) = run.case(&case) {
            for (answer, step) in answers.iter().zip(&case.steps) {
                by_number[(answer.number as usize).min(8)] += 1;
                full += u64::from(answer.number == 0 && step.screen.size_number == 20960);
                covered += u64::from(answer.covered);
                written += u64::from(answer.written);
                drawn += u64::from(answer.covered > 0);
            }
        }
    }
    let total: u64 = by_number.iter().sum();
    let refused = total - by_number[0];
    run.note(format!(
        "{} done, {refused} refused: {} of 3, {} of 5, {} of 6, {} of 7, {} of 8; {full} done at 640 by 480; {drawn} triangles covered {covered} pixels and wrote {written}",
        by_number[0], by_number[3], by_number[5], by_number[6], by_number[7], by_number[8]
    ));
}
