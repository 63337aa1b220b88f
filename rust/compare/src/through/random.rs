//! Random requests, good and bad; of those accepted the bound at some pixels.

use super::case::Case;
use super::drawn::{above, any_values, within};
use crate::case::{plain, second_triangle};
use crate::points::sample;
use crate::random::{triangle, turned_right};
use crate::run::Run;
use kit::rng::Rng;
use merikohin::Plane;
use std::time::{Duration, Instant};

/// Vertices in range: as they are drawn, anywhere, at the ends, around the first
/// sample point, thin, and thin and long.
fn vertices(rng: &mut Rng) -> [i32; 6] {
    let far = |rng: &mut Rng| rng.between(-8192, 8191) as i32;
    let first = |rng: &mut Rng| sample(0) + rng.between(-40, 40) as i32;
    let inside = |n: i32| n.clamp(-8192, 8191);
    match rng.next() % 8 {
        0..=2 => triangle(rng, 640, 480).vertices.numbers(),
        3 => triangle(rng, 32, 24).vertices.numbers(),
        4 => [(); 6].map(|()| far(rng)),
        5 => [(); 6].map(|()| rng.pick(&[-8192, -8191, -1, 0, 3, 4, 5, 8190, 8191])),
        6 => [(); 6].map(|()| first(rng)),
        _ => {
            let [x1, y1, x2, y2] =
                if rng.chance(2) { [(); 4].map(|()| far(rng)) } else { [(); 4].map(|()| first(rng)) };
            // Beside the middle of the first two, or beside one of them.
            let (x, y) = rng.pick(&[((x1 + x2) / 2, (y1 + y2) / 2), (x1, y1), (x2, y2)]);
            let beside = |rng: &mut Rng, n: i32| inside(n + rng.between(-9, 9) as i32);
            [x1, y1, x2, y2, beside(rng, x), beside(rng, y)]
        }
    }
}

fn case(rng: &mut Rng) -> Case {
    let v = vertices(rng);
    let mut case = Case::new(if rng.chance(10) { v } else { turned_right(v) }, any_values(rng));
    while rng.chance(8) {
        let k = rng.next() as usize;
        if rng.chance(2) {
            case.vertices[k % 6] = rng.pick(&[8192, -8193, 8193, 65536, -65536, i32::MAX, i32::MIN, 1 << 20]);
        } else {
            case.values[k % 3] = rng.pick(&[-1, 32768, -2, 32769, 65535, 65536, i32::MAX, i32::MIN]);
        }
    }
    case
}

/// Some pixels of a screen of 640 by 480 that may be covered: its corners, and
/// where points between the vertices lie.
fn places(rng: &mut Rng, v: [i32; 6]) -> [(i32, i32); 7] {
    let mut between = || {
        let [i, j, k] = [(); 3].map(|()| rng.between(0, 16) as i32);
        let on_axis = |axis: usize| (i * v[axis] + j * v[axis + 2] + k * v[axis + 4]) / (8 * (i + j + k).max(1));
        (on_axis(0), on_axis(1))
    };
    [(0, 0), (639, 0), (0, 479), (639, 479), between(), between(), between()]
}

/// How many of these pixels the triangle covers, and whether the plane is as 02
/// says at each.
fn bound(rng: &mut Rng, case: &Case, plane: Plane) -> (u64, bool) {
    let t = second_triangle(&plain(case.vertices));
    let on_screen = |&(x, y): &(i32, i32)| (0..640).contains(&x) && (0..480).contains(&y);
    let covered = |&(x, y): &(i32, i32)| second::covers(&t, i128::from(x), i128::from(y));
    let mut seen = 0;
    let mut holds = true;
    for (x, y) in places(rng, case.vertices).into_iter().filter(on_screen).filter(covered) {
        seen += 1;
        holds &= matches!(above(case, plane, x, y), Some(over) if within(over));
    }
    (seen, holds)
}

/// What was at fault, for the group's line: a value, the area, or one of the three.
fn cause(case: &Case) -> usize {
    if case.values.iter().any(|r| !(0..=32767).contains(r)) {
        0
    } else if case.area() <= 0 {
        1
    } else {
        2
    }
}

/// At least the asked number of random requests, for at least the asked minutes.
pub fn requests(run: &mut Run, rng: &mut Rng) {
    let start = Instant::now();
    let least = Duration::from_secs(60 * run.minutes);
    let (mut asked, mut accepted, mut out, mut pixels) = (0u64, 0u64, 0u64, 0u64);
    let mut by_cause = [0u64; 3];
    // The clock is looked at now and then: it takes about as long as a request.
    while asked < run.requests || asked % 1024 != 0 || start.elapsed() < least {
        asked += 1;
        let case = case(rng);
        match run.through(&case) {
            Some((0, plane)) => {
                accepted += 1;
                let (seen, holds) = bound(rng, &case, plane);
                pixels += seen;
                run.holds(holds, || format!("{case}: {plane:?} is not above the exact value by at most 1119 units"));
            }
            Some((6, _)) => out += 1,
            Some(_) => by_cause[cause(&case)] += 1,
            None => {}
        }
    }
    let [value, area, three] = by_cause;
    run.note(format!(
        "{accepted} accepted, with the bound at {pixels} covered pixels; {out} refused with 6, {} with 9: {value} for a value, {area} for the area, {three} for c, a or b",
        value + area + three
    ));
}
