//! Cases with c, a or b at an end of signed 32 bits, or just past it. They are
//! made from the number wanted: the values and the vertices are solved for.

use super::case::Case;
use crate::groups::euclid;
use crate::points::HALF;
use crate::random::turned_right;
use crate::run::Run;
use kit::rng::Rng;

/// One past the greatest of signed 32 bits; below 0, the least of them.
const END: i64 = 1 << 31;
const MOST: i64 = END - 1;
const RAISE: i64 = 1119;

/// Two numbers which p times and q times add up to a sum, the first from 0 to
/// below q. None if p and q have a common divisor.
pub fn solved(p: i64, q: i64, sum: i64) -> Option<(i64, i64)> {
    let modulus = q.abs();
    if modulus == 0 {
        return None;
    }
    let (divisor, inverse) = euclid(p.rem_euclid(modulus), modulus);
    let first = sum.rem_euclid(modulus) * inverse % modulus;
    (divisor == 1).then(|| (first, (sum - p * first) / q))
}

/// Of numbers in range, the case that they are.
fn in_range(vertices: [i64; 6], values: [i64; 3]) -> Option<Case> {
    let fits = vertices.iter().all(|v| (-8192..=8191).contains(v)) && values.iter().all(|r| (0..=32767).contains(r));
    fits.then(|| Case::new(vertices.map(|v| v as i32), values.map(|r| r as i32)))
}

/// Whether a step fits, which as a whole value for each pixel is from -32,768 to
/// below 32,768.
fn step_fits(case: &Case, step: i64) -> bool {
    (-32768 * case.area()..32768 * case.area()).contains(&step)
}

/// A case whose value rises by so much for each eighth to the right, and by `off`
/// divided by its doubled area more. None if the random numbers give none.
fn steep(rng: &mut Rng, rise: i64, off: i64) -> Option<Case> {
    let far = rng.pick(&[3, 40, 900, 8000]);
    let y = [(); 3].map(|()| rng.between(-far, far));
    let (p, q, r) = (y[1] - y[2], y[2] - y[0], y[0] - y[1]);
    let any = |rng: &mut Rng| if rng.chance(3) { rng.pick(&[0, 32767]) } else { rng.between(0, 32767) };
    let (r1, r3) = (any(rng), any(rng));
    // The values, so that what rises to the right leaves `off` when divided.
    let (r2, _) = solved(q, rise.abs(), off - r1 * p - r3 * r)?;
    let r2 = r2 + rise.abs() * rng.between(0, 7);
    let area = (r1 * p + r2 * q + r3 * r - off) / rise;
    // The columns, so that the doubled area is what this leads to.
    let (x2, x3) = if area > 0 { solved(q, r, area)? } else { return None };
    let at = |right: i64| in_range([right, y[0], x2 + right, y[1], x3 + right, y[2]], [r1, r2, r3]);
    // Moved to where c is small.
    let unmoved = at(0)?;
    let case = at(unmoved.value_by_area(0, 0).div_euclid(rise * area + off))?;
    step_fits(&case, case.steps_by_area()[1]).then_some(case)
}

/// 9: "one of the final three outside signed 32 bits", by a alone, and with rows
/// and columns exchanged by b alone. 4,096 for each eighth is 2^31 units for each
/// pixel, which is past the end, and -4,096 is the last that fits.
pub fn steps(run: &mut Run, rng: &mut Rng) {
    let (mut least, mut greatest) = (0, 0);
    let offs = [-50, -3, -2, -1, 0, 1, 2, 50];
    for (rise, off) in [4096, -4096].into_iter().flat_map(|rise| offs.map(|off| (rise, off))) {
        let fits = if rise > 0 { off < 0 } else { off >= 0 };
        let number = if fits { 0 } else { 9 };
        let mut found = 0;
        while found < 40 {
            let case = match steep(rng, rise, off) {
                Some(case) => case,
                None => continue,
            };
            found += 1;
            let wanted = rise.signum() * END + (off * 524_288).div_euclid(case.area());
            let plane = run.through_wants(&case, number, None);
            let mirrored = run.through_wants(&case.mirrored(), number, None);
            if let (0, Some(plane), Some(mirrored)) = (number, plane, mirrored) {
                let steps = (i64::from(plane.a), i64::from(mirrored.b));
                run.holds(steps == (wanted, wanted), || format!("{case}: a and b are {steps:?}, wanted {wanted}"));
                (least, greatest) = (least.min(plane.a), greatest.max(plane.a));
            }
        }
    }
    run.note(format!("a and b from {least} to {greatest}"));
}

/// A case whose c, rounded down and not yet raised, is this. None if the random
/// numbers give none.
fn first_value(rng: &mut Rng, c: i64) -> Option<Case> {
    let far = rng.pick(&[100, 200, 400]);
    let around = |rng: &mut Rng| rng.between(i64::from(HALF) - far, i64::from(HALF) + far);
    let v = turned_right([(); 6].map(|()| around(rng) as i32));
    let unvalued = Case::new(v, [0; 3]);
    let (area, [w1, w2, w3]) = (unvalued.area(), unvalued.weights(0, 0));
    // The least whole number that in units, divided, is at least c.
    let sum = -(-c * area).div_euclid(65536);
    if area == 0 || 65536 * sum >= (c + 1) * area {
        return None;
    }
    let r3 = rng.between(0, 32767);
    let (r1, _) = solved(w1, w2, sum - r3 * w3)?;
    let r1 = r1 + w2.abs() * rng.between(0, 32767 / w2.abs());
    let r2 = (sum - r3 * w3 - r1 * w1) / w2;
    let case = in_range(v.map(i64::from), [r1, r2, r3])?;
    case.steps_by_area().iter().all(|&step| step_fits(&case, step)).then_some(case)
}

/// The same by c alone, which is judged as raised: both sides of where it then
/// ends, and of where it ends before.
pub fn first(run: &mut Run, rng: &mut Rng) {
    for end in [MOST - RAISE, MOST, -END - RAISE, -END] {
        for c in end - 2..=end + 2 {
            let number = if (-END..=MOST).contains(&(c + RAISE)) { 0 } else { 9 };
            let mut found = 0;
            while found < 25 {
                let case = match first_value(rng, c) {
                    Some(case) => case,
                    None => continue,
                };
                found += 1;
                if let (0, Some(plane)) = (number, run.through_wants(&case, number, None)) {
                    run.holds(i64::from(plane.c) == c + RAISE, || format!("{case}: c is {}, wanted {c}", plane.c));
                }
            }
        }
    }
}
