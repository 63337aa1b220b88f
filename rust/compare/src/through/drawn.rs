//! 02's M-101 where it is drawn: "For every accepted request and every pixel the
//! triangle covers on a screen up to 640 by 480, the plane must be above the
//! exact value and by at most 1,119 units." The plane is held to it, and what
//! stands in the RAM to the plane, a depth or a part of a colour.

use super::case::Case;
use super::groups::whole;
use crate::case::{plain, second_vertices, Call, Fill, NO_PLANE};
use crate::groups::{area, size, tight};
use crate::random::{triangle, turned_right};
use crate::run::Run;
use kit::pixels::halves;
use kit::rng::Rng;
use merikohin::{Plane, Triangle};

/// Vertices and values whose plane is less than a unit above the exact value at
/// pixel (639, 479), which they cover: with c raised by 1,118 it would be below.
pub const TIGHT: [([i32; 6], [i32; 3]); 6] = [
    ([-148, 6152, -4246, -5964, 7186, 5040], [28928, 28928, 28927]),
    ([5108, 6002, -5586, 8113, 6118, 851], [9477, 9478, 9477]),
    ([-2528, -7755, 7775, 7069, 592, 6855], [26151, 20307, 6864]),
    ([7136, 6885, -5469, 3808, 4375, -3233], [10390, 2064, 27106]),
    ([671, -5714, 6247, 4970, -2823, 6076], [24344, 17116, 19692]),
    ([7170, 6279, 4283, 3832, 4601, -3304], [26616, 26617, 26616]),
];

/// How far a plane is above the exact value at a pixel, in units: a fraction, as
/// its numerator and its denominator. The exact value is the second program's;
/// none if the three edges do not give the same.
pub fn above(case: &Case, plane: Plane, x: i32, y: i32) -> Option<(i128, i128)> {
    let exact = second::through::exact_at(&second_vertices(case.vertices), case.values, i128::from(x), i128::from(y));
    let by_edges = (i128::from(case.value_by_area(x, y)), i128::from(case.area()));
    let over = exact.denominator * i128::from(whole(plane, x, y)) - 65536 * exact.numerator;
    ((exact.numerator, exact.denominator) == by_edges).then_some((over, exact.denominator))
}

/// "above the exact value and by at most 1,119 units".
pub fn within((over, denominator): (i128, i128)) -> bool {
    over > 0 && over <= 1119 * denominator
}

/// What was seen at covered pixels, of each plane.
#[derive(Default)]
struct Tally {
    triangles: u32,
    pixels: u64,
    /// Just as far above as is allowed.
    farthest: u64,
    /// Less than a unit above.
    nearest: u64,
}

impl Tally {
    fn in_words(&self) -> String {
        let Tally { triangles, pixels, farthest, nearest } = self;
        format!("{triangles} triangles, {pixels} times a plane at a covered pixel: {farthest} times 1119 units above the exact value, {nearest} times less than 1")
    }
}

/// A covered pixel: the plane is as 02 says, and what is drawn is its top half,
/// from the least of the three values to the greatest.
fn pixel(tally: &mut Tally, case: &Case, plane: Plane, (x, y): (i32, i32), drawn: u16) -> bool {
    let [r1, r2, r3] = case.values;
    let (least, greatest) = (r1.min(r2).min(r3), r1.max(r2).max(r3));
    let between = (least..=greatest).contains(&i32::from(drawn));
    // Positive and below 2^31: that it is taken modulo 2^32 changes nothing.
    let value = whole(plane, x, y);
    let fits = value > 0 && value <= 32767 * 65536 + 1119 && value / 65536 == i64::from(drawn);
    match above(case, plane, x, y) {
        Some((over, denominator)) => {
            tally.pixels += 1;
            tally.farthest += u64::from(over == 1119 * denominator);
            tally.nearest += u64::from(over < denominator);
            between && fits && within((over, denominator))
        }
        None => false,
    }
}

/// Asks for a plane through each of these values: the depth's, or those of
/// depth, red, green and blue. None if one is refused.
fn planes(run: &mut Run, v: [i32; 6], values: &[[i32; 3]]) -> Option<Vec<(Case, Plane)>> {
    let mut found = Vec::new();
    for &values in values {
        let case = Case::new(v, values);
        match run.through(&case) {
            Some((0, plane)) => found.push((case, plane)),
            _ => return None,
        }
    }
    Some(found)
}

/// Draws the triangle with such planes, and looks at each pixel that was
/// covered. None if there was nothing to look at.
fn drawn(run: &mut Run, tally: &mut Tally, s: u32, v: [i32; 6], values: &[[i32; 3]]) -> Option<()> {
    let planes = planes(run, v, values)?;
    let plane = |k: usize| planes.get(k).map_or(NO_PLANE, |&(_, plane)| plane);
    let t = Triangle { depth: plane(0), red: plane(1), green: plane(2), blue: plane(3), ..plain(v) };
    let (screen, ram) = tight(s);
    // All bytes 255: covered pixels get a depth below 32,768, and no other has one.
    let answer = run.case(&crate::case::Case::one(ram, Fill::Byte(255), screen, Call::Draw(t)))?[0];
    let (colours, depths) = run.memories.subject_ram().split_at(area(s) as usize);
    let (mut covered, mut wrong, width) = (0, 0, (s / 512 * 16) as usize);
    let pixels = halves(colours).zip(halves(depths)).enumerate();
    for (at, (colour, depth)) in pixels.filter(|(_, (_, depth))| *depth < 32768) {
        covered += 1;
        let place = ((at % width) as i32, (at / width) as i32);
        let parts = [depth, colour / 2048, colour / 32 % 64, colour % 32];
        let good = planes.iter().zip(parts).all(|((case, plane), part)| pixel(tally, case, *plane, place, part));
        wrong += u32::from(!good);
    }
    tally.triangles += u32::from(covered > 0);
    let all = (answer.number, answer.covered, answer.written) == (0, covered, covered);
    run.holds(all && wrong == 0, || {
        format!(
            "{t:?} through {values:?}, on S = {s}: {covered} pixels seen, {wrong} of them wrong; answered {answer:?}"
        )
    });
    Some(())
}

const SIZES: [(u32, u32); 7] = [(1, 1), (1, 17), (2, 24), (3, 9), (4, 32), (40, 1), (1, 480)];

/// Values of each kind: any, hardly different ones, and 0 and 32,767.
pub fn any_values(rng: &mut Rng) -> [i32; 3] {
    let low = rng.between(0, 32767);
    match rng.next() % 5 {
        0 | 1 => [(); 3].map(|()| rng.between(0, 32767) as i32),
        2 => [(); 3].map(|()| rng.between(low, (low + 1).min(32767)) as i32),
        3 => [(); 3].map(|()| rng.between(low, (low + 63).min(32767)) as i32),
        _ => [(); 3].map(|()| rng.pick(&[0, 1, 32766, 32767])),
    }
}

/// Small screens, and as wide and as high as screens are.
pub fn some(run: &mut Run, rng: &mut Rng) {
    let mut tally = Tally::default();
    for _ in 0..1500 {
        let (groups, height) = rng.pick(&SIZES);
        let v = triangle(rng, i64::from(16 * groups), i64::from(height)).vertices.numbers();
        let colours = [31, 63, 31].map(|most| [(); 3].map(|()| rng.between(0, most) as i32));
        let values = [any_values(rng), colours[0], colours[1], colours[2]];
        drawn(run, &mut tally, size(groups, height), turned_right(v), &values);
    }
    run.note(tally.in_words());
}

/// 640 by 480: where the bound ends below, flat planes, which are where it ends
/// above, and any.
pub fn full_size(run: &mut Run, rng: &mut Rng) {
    let mut tally = Tally::default();
    for (v, values) in TIGHT {
        let case = Case::new(v, values);
        drawn(run, &mut tally, 20960, v, &[values]);
        if let Some((0, plane)) = run.through(&case) {
            let (over, denominator) = above(&case, plane, 639, 479).unwrap_or((0, 0));
            let holds = over > 0 && over < denominator;
            run.holds(holds, || format!("{case}: {over} / {denominator} units above at pixel (639, 479)"));
        }
    }
    let all = [2560, -8192, 8191, 8191, -8192, 8191];
    for values in [[0; 3], [32767; 3], [0, 32767, 32767], [32767, 0, 1]] {
        drawn(run, &mut tally, 20960, all, &[values]);
    }
    for _ in 0..12 {
        let v = triangle(rng, 640, 480).vertices.numbers();
        drawn(run, &mut tally, 20960, turned_right(v), &[any_values(rng)]);
    }
    run.note(tally.in_words());
}
