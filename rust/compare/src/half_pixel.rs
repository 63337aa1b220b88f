//! 02's M-100 outright: at which point of a pixel a triangle is judged, what the
//! point before it said of the same triangle, and both sides of the point.

use crate::case::{Call, Case, Fill};
use crate::groups::{area, covered_pixels, size, tight};
use crate::points::{sample, HALF};
use crate::random;
use crate::run::Run;
use kit::rng::Rng;
use merikohin::{Plane, Triangle};

/// A vertex number is from the one to the other.
const LEAST: i32 = -8192;
const MOST: i32 = 8191;

/// Width and height of a size number, in pixels.
fn pixels_of(s: u32) -> (usize, usize) {
    ((s / 512 * 16) as usize, (s % 512) as usize)
}

fn moved(v: [i32; 6], right: i32, down: i32) -> [i32; 6] {
    [v[0] + right, v[1] + down, v[2] + right, v[3] + down, v[4] + right, v[5] + down]
}

// ---------------------------------------------------------------------------
// One eighth wide.
// ---------------------------------------------------------------------------

/// The two triangles of a square one eighth wide, by either diagonal. Of all
/// points in whole eighths the square keeps its upper left corner alone, and with
/// each triangle it is told whether it is the one that does.
const TINY: [([i32; 6], bool); 4] =
    [([0, 0, 1, 0, 0, 1], true), ([1, 1, 0, 1, 1, 0], false), ([0, 0, 1, 0, 1, 1], true), ([0, 0, 1, 1, 0, 1], false)];

/// With the square's corner at a place, a triangle that keeps it covers the pixel
/// that is sampled there, and no other; one that does not, none.
fn tiny(run: &mut Run, s: u32, (v, keeps): ([i32; 6], bool), (right, down): (i32, i32)) {
    let (width, _) = pixels_of(s);
    let v = moved(v, right, down);
    let Some(covered) = covered_pixels(run, s, v) else { return };
    let sampled_there = |at: usize| (sample((at % width) as i32), sample((at / width) as i32)) == (right, down);
    let wrong = covered.iter().enumerate().filter(|&(at, &seen)| seen != (keeps && sampled_there(at))).count();
    run.holds(wrong == 0, || {
        format!("{v:?} on S = {s}, which keeps ({right}, {down}) {keeps}: {wrong} pixels not as sampled there")
    });
}

/// "pixel (x, y) is sampled at (8x + 4, 8y + 4)": at every place on a small
/// screen and a pixel around it, and around the farthest pixels of large ones.
pub fn one_eighth_wide(run: &mut Run, _: &mut Rng) {
    let small = size(1, 2);
    for down in -8..8 * 2 + 8 {
        for right in -8..8 * 16 + 8 {
            TINY.iter().for_each(|&triangle| tiny(run, small, triangle, (right, down)));
        }
    }
    for s in [size(40, 1), size(1, 480), size(3, 17)] {
        let (width, height) = pixels_of(s);
        let (x, y) = (sample(width as i32 - 1), sample(height as i32 - 1));
        for down in y - 5..=y + 4 {
            for right in x - 5..=x + 4 {
                tiny(run, s, TINY[0], (right, down));
            }
        }
    }
    let (x, y) = (sample(639), sample(479));
    for (left, up) in [(0, 0), (1, 0), (0, 1), (HALF, HALF)] {
        tiny(run, 20960, TINY[0], (x - left, y - up));
    }
}

// ---------------------------------------------------------------------------
// The point before.
// ---------------------------------------------------------------------------

/// What document 01 said before 02: "A pixel is sampled at the point (8x, 8y)."
fn covered_before(v: [i32; 6], x: usize, y: usize) -> bool {
    let v = v.map(i64::from);
    let (px, py) = (8 * x as i64, 8 * y as i64);
    [[0, 1, 2, 3], [2, 3, 4, 5], [4, 5, 0, 1]].iter().all(|&[x1, y1, x2, y2]| {
        let (dx, dy) = (v[x2] - v[x1], v[y2] - v[y1]);
        let value = (py - v[y1]) * dx - (px - v[x1]) * dy;
        value > 0 || value == 0 && (dy < 0 || dy == 0 && dx > 0)
    })
}

/// The top half of a plane's word at a pixel.
fn top(p: Plane, x: usize, y: usize) -> u16 {
    let whole = i64::from(p.c) + i64::from(p.a) * x as i64 + i64::from(p.b) * y as i64;
    (whole as u32 >> 16) as u16
}

/// The triangle as it was drawn before 02, on a tight screen of this size. Hands
/// back how many pixels were covered, and how many written.
fn draw_before(ram: &mut [u8], s: u32, t: &Triangle) -> (u32, u32) {
    let (width, height) = pixels_of(s);
    let depths = area(s) as usize;
    let (mut covered, mut written) = (0, 0);
    for (x, y) in (0..height).flat_map(|y| (0..width).map(move |x| (x, y))) {
        if !covered_before(t.vertices.numbers(), x, y) {
            continue;
        }
        covered += 1;
        let at = (y * width + x) * 2;
        let depth = top(t.depth, x, y).to_be_bytes();
        // Big-endian bytes are in the order of their half-words.
        if depth[..] <= ram[depths + at..depths + at + 2] {
            written += 1;
            let colour = top(t.red, x, y) % 32 * 2048 + top(t.green, x, y) % 64 * 32 + top(t.blue, x, y) % 32;
            ram[at..at + 2].copy_from_slice(&colour.to_be_bytes());
            ram[depths + at..depths + at + 2].copy_from_slice(&depth);
        }
    }
    (covered, written)
}

/// Moved by half a pixel right and down, a triangle is drawn as it was before 02
/// where it stood: the same pixels, and "Planes still count from pixel (0, 0)",
/// so their colours and depths too.
fn drawn_as_before(run: &mut Run, rng: &mut Rng, s: u32, t: Triangle) -> u32 {
    let (screen, ram) = tight(s);
    let there = Triangle { vertices: moved(t.vertices.numbers(), HALF, HALF).into(), ..t };
    let fill = if rng.chance(4) { Fill::Byte(255) } else { Fill::Random(rng.next()) };
    let case = Case::one(ram, fill, screen, Call::Draw(there));
    let Some(answers) = run.case(&case) else { return 0 };
    let mut wanted = vec![0; ram];
    fill.apply(&mut wanted);
    let counts = draw_before(&mut wanted, s, &t);
    let seen = (answers[0].covered, answers[0].written);
    let holds = answers[0].number == 0 && seen == counts && run.memories.subject_ram() == wanted;
    run.holds(holds, || format!("{case}: not what {t:?} drew before; then {counts:?}, now {seen:?}"));
    seen.0
}

/// Vertices that stay in range when moved so far right and down: both ends of
/// what is left are met.
fn room_for(v: [i32; 6], by: i32) -> [i32; 6] {
    v.map(|n| n.clamp(LEAST, MOST - by))
}

const SIZES: [(u32, u32); 8] = [(1, 1), (1, 4), (1, 17), (2, 3), (2, 24), (3, 9), (4, 32), (40, 1)];

/// A size, now and then the largest, and a triangle for it.
fn any_triangle(rng: &mut Rng, largest: bool) -> (u32, Triangle) {
    let (groups, height) = if largest { (40, 480) } else { rng.pick(&SIZES) };
    (size(groups, height), random::triangle(rng, i64::from(16 * groups), i64::from(height)))
}

/// The law by which what was drawn before 02 can be carried over: every triangle
/// of a small grid, and random ones.
pub fn moved_by_half(run: &mut Run, rng: &mut Rng) {
    let places = [-4, 0, 4, 8];
    let points: Vec<(i32, i32)> = places.iter().flat_map(|&y| places.map(|x| (x, y))).collect();
    for &(x1, y1) in &points {
        for &(x2, y2) in &points {
            for &(x3, y3) in &points {
                let t = random::triangle(rng, 16, 2);
                drawn_as_before(run, rng, size(1, 2), Triangle { vertices: [x1, y1, x2, y2, x3, y3].into(), ..t });
            }
        }
    }
    let (mut some, mut pixels) = (0, 0);
    for turn in 0..1500 {
        let (s, t) = any_triangle(rng, turn % 50 == 0);
        // Mostly on sample points once moved, and so on those of then before.
        let v = if rng.chance(4) { t.vertices.numbers() } else { moved(t.vertices.numbers(), -HALF, -HALF) };
        let covered = drawn_as_before(run, rng, s, Triangle { vertices: room_for(v, HALF).into(), ..t });
        some += u32::from(covered > 0);
        pixels += u64::from(covered);
    }
    run.note(format!("{some} random triangles cover {pixels} pixels"));
}

/// Moved by whole pixels, a triangle covers the pixels so many further, as far
/// as both are on the screen.
pub fn moved_by_a_whole(run: &mut Run, rng: &mut Rng) {
    for turn in 0..1000 {
        let (s, t) = any_triangle(rng, turn % 100 == 0);
        let v = room_for(t.vertices.numbers(), 8);
        let Some(here) = covered_pixels(run, s, v) else { continue };
        for (right, down) in [(1, 0), (0, 1), (1, 1)] {
            let Some(there) = covered_pixels(run, s, moved(v, 8 * right as i32, 8 * down as i32)) else { continue };
            let (width, height) = pixels_of(s);
            let places = (down..height).flat_map(|y| (right..width).map(move |x| (x, y)));
            let wrong = places.filter(|&(x, y)| there[y * width + x] != here[(y - down) * width + x - right]).count();
            run.holds(wrong == 0, || {
                format!("{v:?} on S = {s}, moved by {right} and {down} pixels: {wrong} pixels did not move with it")
            });
        }
    }
}

// ---------------------------------------------------------------------------
// Both sides of a sample point.
// ---------------------------------------------------------------------------

/// How often a step can be taken from a point and the range still has room for
/// an eighth.
fn reach(from: (i32, i32), step: (i32, i32)) -> i32 {
    let on_axis = |at: i32, by: i32| match by {
        0 => i32::MAX,
        1.. => (MOST - 1 - at) / by,
        _ => (at - LEAST - 1) / -by,
    };
    on_axis(from.0, step.0).min(on_axis(from.1, step.1))
}

/// A triangle with an edge of this direction through a point. Both its ends and
/// the third vertex, which is to the right of it, are some pixels away, or as far
/// as the range has room.
fn through(point: (i32, i32), (dx, dy): (i32, i32), far: bool) -> [i32; 6] {
    let some = 24 / dx.abs().max(dy.abs()) + 1;
    let corner = |step: (i32, i32)| {
        let times = if far { reach(point, step) } else { some };
        [point.0 + times * step.0, point.1 + times * step.1]
    };
    let ([x1, y1], [x2, y2], [x3, y3]) = (corner((-dx, -dy)), corner((dx, dy)), corner((-dy, dx)));
    [x1, y1, x2, y2, x3, y3]
}

/// Starts a triangle at another of its vertices.
fn started(v: [i32; 6], at: usize) -> [i32; 6] {
    std::array::from_fn(|k| v[(k + 2 * at) % 6])
}

/// An edge through a pixel's sample point has it inside by the tie rule; moved by
/// an eighth, by the side on which it then lies.
fn one_edge(run: &mut Run, s: u32, (x, y): (i32, i32), (dx, dy): (i32, i32), far: bool) {
    let v = through((sample(x), sample(y)), (dx, dy), far);
    let at = y as usize * pixels_of(s).0 + x as usize;
    for (right, down) in (-1..=1).flat_map(|down| (-1..=1).map(move |right| (right, down))) {
        let value = right * dy - down * dx;
        let wanted = value > 0 || value == 0 && (dy < 0 || dy == 0 && dx > 0);
        let v = started(moved(v, right, down), (dx + right + down).rem_euclid(3) as usize);
        let Some(covered) = covered_pixels(run, s, v) else { continue };
        run.holds(covered[at] == wanted, || {
            format!("{v:?} on S = {s}: pixel ({x}, {y}) covered {}, wanted {wanted}", covered[at])
        });
    }
}

/// Edges in every direction, through the first pixel of a screen, one in its
/// middle, its last, and the farthest there are.
pub fn both_sides(run: &mut Run, _: &mut Rng) {
    let directions = |most: i32| {
        let all = (-most..=most).flat_map(move |dy| (-most..=most).map(move |dx| (dx, dy)));
        all.filter(|&direction| direction != (0, 0))
    };
    for direction in directions(8) {
        for pixel in [(0, 0), (6, 1), (15, 2)] {
            one_edge(run, size(1, 3), pixel, direction, false);
            one_edge(run, size(1, 3), pixel, direction, true);
        }
        one_edge(run, size(40, 1), (639, 0), direction, true);
    }
    for direction in directions(1) {
        one_edge(run, size(1, 480), (15, 479), direction, true);
    }
    one_edge(run, 20960, (639, 479), (3, -2), true);
}
