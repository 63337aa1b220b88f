//! The fixed groups: both sides of every edge that 02's M-101 names.

use super::case::Case;
use super::{drawn, ends, random};
use crate::points::{onto_sample, sample};
use crate::random::{near, triangle, turned_right, twice_area};
use crate::run::Run;
use kit::rng::Rng;
use merikohin::Plane;

pub fn all(run: &mut Run) {
    run.group("plane through, worked by hand", by_hand);
    run.group("plane through, vertex numbers", vertex_numbers);
    run.group("plane through, values", values);
    run.group("plane through, every triangle on a 4 by 4 grid", grid);
    run.group("plane through, doubled areas", areas);
    run.group("plane through, flat", flat);
    run.group("plane through, a and b at the ends of 32 bits", ends::steps);
    run.group("plane through, c at the ends of 32 bits", ends::first);
    run.group("plane through, several faults at once", several_faults);
    run.group("plane through, at the vertices", at_the_vertices);
    run.group("plane through, vertices in another order", other_orders);
    run.group("plane through, drawn", drawn::some);
    run.group("plane through, drawn on 640 by 480", drawn::full_size);
    run.group("random planes", random::requests);
}

/// What a plane through three equal values is.
fn flat_plane(value: i32) -> [i32; 3] {
    [value * 65536 + 1119, 0, 0]
}

fn in_range(v: [i32; 6]) -> bool {
    v.iter().all(|n| (-8192..=8191).contains(n))
}

/// Three equal values at vertices like these: 6, else 9 by the doubled area
/// alone, else what a flat plane is.
fn flat_wants(run: &mut Run, v: [i32; 6], value: i32) {
    let number = if !in_range(v) {
        6
    } else if twice_area(v) <= 0 {
        9
    } else {
        0
    };
    run.through_wants(&Case::new(v, [value; 3]), number, Some(flat_plane(value)));
}

fn six([p, q, r]: [(i32, i32); 3]) -> [i32; 6] {
    [p.0, p.1, q.0, q.1, r.0, r.1]
}

fn any_value(rng: &mut Rng) -> i32 {
    rng.between(0, 32767) as i32
}

/// Large, and around the first sample point: c, a and b fit whatever the values
/// are.
const WIDE: [[i32; 6]; 3] =
    [[0, 0, 5120, 0, 0, 3840], [2560, -8192, 8191, 8191, -8192, 8191], [300, 400, -250, 350, 10, -500]];

/// Of doubled area 1: for a and b to fit, the values must be near each other.
const THIN: [i32; 6] = [4, 4, 5, 4, 4, 5];

/// With a value at the second vertex that is far from the others, a alone does
/// not fit, b alone, and c alone.
const ONE_OUT: [[i32; 6]; 3] = [THIN, [4, 4, 4, 5, 3, 4], [8000, 8000, 8100, 8000, 8000, 8100]];

/// A third of a value for each pixel.
const THIRDS: [i32; 6] = [4, 4, 28, 4, 4, 28];

/// As far up and down as vertices go, and a pixel wide. Its doubled area is
/// 131,060, and with these values it has the least step that fits and the
/// greatest that there is: one that fits is short of 4,096 for each eighth by at
/// least one in the doubled area, and with so steep a step no area is larger.
const STEEPEST: [i32; 6] = [8, -8191, 4, 8191, 0, -8192];

/// Vertices, values and the plane, worked out apart from both programs.
const WORKED: [([i32; 6], [i32; 3], [i32; 3]); 18] = [
    // Nothing to round.
    ([4, 4, 36, 4, 4, 36], [10, 30, 20], [656_479, 327_680, 163_840]),
    ([0, 0, 8, 0, 0, 8], [0, 2, 0], [66_655, 131_072, 0]),
    // Steps that are rounded down, to the right and down, up and down.
    (THIRDS, [1, 2, 1], [66_655, 21_845, 0]),
    (THIRDS, [2, 1, 2], [132_191, -21_846, 0]),
    (THIRDS, [1, 1, 2], [66_655, 0, 21_845]),
    (THIRDS, [2, 2, 1], [132_191, 0, -21_846]),
    // c rounded down: 1 / 6, 2 / 3, -25 / 24.
    ([0, 0, 24, 0, 0, 24], [0, 1, 0], [12_041, 21_845, 0]),
    ([0, 0, 24, 0, 0, 24], [1, 0, 0], [44_809, -21_846, -21_846]),
    ([29, 4, 53, 4, 29, 28], [0, 1, 0], [-67_148, 21_845, 0]),
    ([28, 4, 52, 4, 28, 28], [0, 1, 0], [-64_417, 21_845, 0]),
    // The greatest doubled area: steps of 8 / 16,383, c of 8,196 / 16,383.
    ([-8192, -8192, 8191, -8192, -8192, 8191], [0, 1, 0], [33_905, 32, 0]),
    ([-8192, -8192, 8191, -8192, -8192, 8191], [1, 0, 1], [33_868, -33, 0]),
    // Doubled area 1.
    (THIN, [0, 4095, 0], [1_119, 2_146_959_360, 0]),
    (THIN, [4096, 0, 4096], [268_436_575, i32::MIN, 0]),
    // The greatest step, and the least.
    (STEEPEST, [32767, 2, 0], [536_642_672, 2_147_483_643, -524_256]),
    (STEEPEST, [0, 32766, 32767], [1_610_810_463, i32::MIN, 524_288]),
    // 02's bound from below: with 1,118 these fail at pixel (639, 479).
    (drawn::TIGHT[0].0, [28928, 28928, 28927], [1_895_807_559, -69, 22]),
    (drawn::TIGHT[0].0, [1, 1, 0], [47_687, -69, 22]),
];

/// With these values the same vertices have an a of 2^31, and of -2,147,483,653,
/// the next below -2^31 that there is.
const PAST: [[i32; 3]; 2] = [[32767, 1, 0], [0, 32767, 32767]];

fn by_hand(run: &mut Run, _: &mut Rng) {
    for (v, values, [c, a, b]) in WORKED {
        let case = Case::new(v, values);
        run.through_wants(&case, 0, Some([c, a, b]));
        run.through_wants(&case.mirrored(), 0, Some([c, b, a]));
        run.through_wants(&case.turned(), 9, None);
    }
    for values in PAST {
        let case = Case::new(STEEPEST, values);
        run.through_wants(&case, 9, None);
        run.through_wants(&case.mirrored(), 9, None);
    }
}

/// 6: "a vertex number outside -8192..8191", each of the six at both ends and far
/// beyond, and every two of them.
fn vertex_numbers(run: &mut Run, rng: &mut Rng) {
    let far = [16384, -16384, 65536, -65536, 65540, -65532, 1 << 28, i32::MAX - 1, i32::MAX, i32::MIN, i32::MIN + 1];
    let ends = [-8194, -8193, -8192, -8191, 8190, 8191, 8192, 8193];
    for base in WIDE {
        for k in 0..6 {
            for n in ends.into_iter().chain(far) {
                let mut v = base;
                v[k] = n;
                flat_wants(run, v, any_value(rng));
                let case = Case::new(v, [(); 3].map(|()| any_value(rng)));
                if let Some((number, _)) = run.through(&case) {
                    run.holds((number == 6) != in_range(v), || format!("{case}: number {number}"));
                }
            }
        }
        for (j, k) in (0..6).flat_map(|j| (0..j).map(move |k| (j, k))) {
            for (one, other) in ends.into_iter().flat_map(|one| ends.map(|other| (one, other))) {
                let mut v = base;
                (v[j], v[k]) = (one, other);
                flat_wants(run, v, any_value(rng));
            }
        }
    }
    for n in ends.into_iter().chain(far) {
        flat_wants(run, [n; 6], any_value(rng));
    }
}

/// 9: "a value outside 0 to 32,767", whatever the area: each of the three, and
/// every choice of them at once.
fn values(run: &mut Run, rng: &mut Rng) {
    let ends = [-1, 0, 32767, 32768, i32::MIN, i32::MAX];
    let others = [1, 2, -2, 32766, 32769, 65535, 65536, 65537, -32768, -65536, i32::MIN + 1, i32::MAX - 1];
    let fits = |values: [i32; 3]| values.iter().all(|r| (0..=32767).contains(r));
    let turned = WIDE.map(|v| Case::new(v, [0; 3]).turned().vertices);
    let level = [[4, 4, 100, 4, 200, 4], [16; 6]];
    let all = WIDE.iter().map(|&v| (v, true)).chain(turned.iter().chain(&level).map(|&v| (v, false)));
    for (v, draws) in all {
        let wants = |run: &mut Run, values: [i32; 3]| {
            let number = if fits(values) && draws { 0 } else { 9 };
            run.through_wants(&Case::new(v, values), number, None);
        };
        for k in 0..3 {
            for r in ends.into_iter().chain(others) {
                let mut values = [(); 3].map(|()| any_value(rng));
                values[k] = r;
                wants(run, values);
            }
        }
        for r in ends.into_iter().flat_map(|r1| ends.into_iter().flat_map(move |r2| ends.map(|r3| [r1, r2, r3]))) {
            wants(run, r);
        }
    }
}

/// All triangles with vertices on a grid of whole eighths around a sample point:
/// doubled areas from -9 to 9, and many of each.
fn grid(run: &mut Run, rng: &mut Rng) {
    let places = [-1, 0, 1, 2].map(|n| sample(0) + n);
    let points: Vec<(i32, i32)> = places.iter().flat_map(|&y| places.map(|x| (x, y))).collect();
    for &(x1, y1) in &points {
        for &(x2, y2) in &points {
            for &(x3, y3) in &points {
                let v = [x1, y1, x2, y2, x3, y3];
                flat_wants(run, v, any_value(rng));
                // Small differences fit, however small the area.
                let values = [(); 3].map(|()| rng.between(1000, 1004) as i32);
                let number = if twice_area(v) > 0 { 0 } else { 9 };
                run.through_wants(&Case::new(v, values), number, None);
            }
        }
    }
}

/// Three vertices with this doubled area, far apart: two are anywhere, and the
/// third is solved for. None if the random numbers give none.
fn of_area(rng: &mut Rng, area: i64) -> Option<[i32; 6]> {
    let any = |rng: &mut Rng| rng.between(-8192, 8191);
    let (x1, y1, x2, y2) = (any(rng), any(rng), any(rng), any(rng));
    let (dx, dy) = (x2 - x1, y2 - y1);
    // dx times the one less dy times the other is the area.
    let (ey, minus_ex) = ends::solved(dx, dy, area)?;
    let back = if rng.chance(2) { 1 } else { 0 };
    let v = [x1, y1, x2, y2, x1 - minus_ex - back * dx, y1 + ey - back * dy].map(|n| n as i32);
    in_range(v).then_some(v)
}

/// 9: "doubled area not positive": just above 0, at it and below, of vertices
/// far apart; and the largest.
fn areas(run: &mut Run, rng: &mut Rng) {
    for area in -3..=3 {
        let mut found = 0;
        while found < 300 {
            if let Some(v) = of_area(rng, area) {
                found += 1;
                run.holds(twice_area(v) == area, || format!("{v:?}: the doubled area is not {area}"));
                let at = rng.between(0, 2) as usize;
                flat_wants(run, Case::new(v, [0; 3]).started(at).vertices, any_value(rng));
                run.through(&Case::new(v, [(); 3].map(|()| any_value(rng))));
            }
        }
    }
    // Numbers at the ends alone, vertices and values.
    for (bits, ups) in (0..64).flat_map(|bits| (0..8).map(move |ups| (bits, ups))) {
        let v = [0, 1, 2, 3, 4, 5].map(|k| if bits >> k & 1 == 0 { -8192 } else { 8191 });
        run.through(&Case::new(v, [0, 1, 2].map(|k| if ups >> k & 1 == 0 { 0 } else { 32767 })));
        flat_wants(run, v, any_value(rng));
    }
}

/// Three equal values: no step, and c is the value, raised.
fn flat(run: &mut Run, rng: &mut Rng) {
    for turn in 0..6000 {
        let v = if turn % 2 == 0 {
            triangle(rng, 640, 480).vertices.numbers()
        } else {
            turned_right([(); 6].map(|()| rng.between(-8192, 8191) as i32))
        };
        let value = if turn % 3 == 0 { rng.pick(&[0, 1, 255, 256, 32766, 32767]) } else { any_value(rng) };
        flat_wants(run, v, value);
    }
}

/// "number 6 goes first", and 9 has several causes: every choice of vertices and
/// values, each fine or at fault.
fn several_faults(run: &mut Run, rng: &mut Rng) {
    // With each: its number by itself, and whether values must be near each other.
    let mut vertices: Vec<([i32; 6], u32, bool)> = WIDE.iter().map(|&v| (v, 0, false)).collect();
    vertices.extend(WIDE.map(|v| (Case::new(v, [0; 3]).turned().vertices, 9, false)));
    vertices.extend([[16; 6], [0, 0, 8, 8, 16, 16], [-8192, 8191, 8191, 8191, 0, 8191]].map(|v| (v, 9, false)));
    vertices.extend(ONE_OUT.map(|v| (v, 0, true)));
    for (k, far) in [(0, 8192), (1, -8193), (2, i32::MAX), (3, i32::MIN), (4, 65536), (5, -65536)] {
        for base in [WIDE[0], THIN, [16; 6], [0, 0, 0, 3840, 5120, 0]] {
            let mut v = base;
            v[k] = far;
            vertices.push((v, 6, false));
        }
        vertices.push(([far; 6], 6, false));
    }
    vertices.push(([i32::MIN, i32::MAX, i32::MAX, i32::MIN, i32::MAX, i32::MAX], 6, false));
    for (v, number, near) in vertices {
        for turn in 0..40 {
            let flat = any_value(rng);
            let (low, high) = (rng.between(0, 100) as i32, rng.between(32000, 32767) as i32);
            let mut values = if turn % 2 == 0 { [flat; 3] } else { [low, high, low] };
            let fault = turn % 4 >= 2;
            if fault {
                values[turn / 4 % 3] = rng.pick(&[-1, 32768, 65536, i32::MIN, i32::MAX]);
            }
            let wrong = fault || near && turn % 2 == 1;
            let wanted = if number == 0 && wrong { 9 } else { number };
            run.through_wants(&Case::new(v, values), wanted, None);
        }
    }
}

/// The value of a plane at a pixel, as a whole number.
pub fn whole(plane: Plane, x: i32, y: i32) -> i64 {
    i64::from(plane.c) + i64::from(plane.a) * i64::from(x) + i64::from(plane.b) * i64::from(y)
}

/// At a pixel whose sample point is a vertex, the exact value is the value there:
/// the plane's top half is that very value.
fn at_the_vertices(run: &mut Run, rng: &mut Rng) {
    let (mut accepted, mut refused) = (0, 0);
    for turn in 0..8000 {
        let (width, height) = rng.pick(&[(640, 480), (640, 480), (32, 24), (5, 5)]);
        let pixels = [(); 3].map(|()| (rng.between(0, width - 1) as i32, rng.between(0, height - 1) as i32));
        let v = six(pixels.map(|(x, y)| (sample(x), sample(y))));
        let near = rng.between(0, 32700);
        let values = [(); 3].map(|()| if turn % 2 == 0 { any_value(rng) } else { (near + rng.between(0, 67)) as i32 });
        let case = Case::new(v, values);
        let turned = case.area() < 0;
        let case = if turned { case.turned() } else { case };
        match run.through(&case) {
            Some((0, plane)) => {
                accepted += 1;
                let order = if turned { [0, 2, 1] } else { [0, 1, 2] };
                let tops = order.map(|k| whole(plane, pixels[k].0, pixels[k].1).div_euclid(65536));
                let holds = tops == case.values.map(i64::from);
                run.holds(holds, || format!("{case}: the plane's top halves at the vertices are {tops:?}"));
            }
            _ => refused += 1,
        }
    }
    run.note(format!("{accepted} accepted, {refused} refused"));
}

/// Started at another vertex it is the same plane, turned the other way it is
/// refused; and values that all rise by as much raise c alone.
fn other_orders(run: &mut Run, rng: &mut Rng) {
    for _ in 0..4000 {
        let v = match rng.next() % 3 {
            0 => triangle(rng, 640, 480).vertices.numbers(),
            1 => six([(); 3].map(|()| near(rng, 32, 24))),
            _ => [(); 6].map(|()| onto_sample(rng.between(-8192, 8191) as i32)),
        };
        let case = Case::new(turned_right(v), [(); 3].map(|()| rng.between(0, 20_000) as i32));
        let answer = match run.through(&case) {
            Some(answer) => answer,
            None => continue,
        };
        for at in 1..3 {
            let other = run.through(&case.started(at));
            let holds = other.unwrap_or(answer) == answer;
            run.holds(holds, || format!("{case}: another plane if it is started at vertex {}", at + 1));
        }
        run.through_wants(&case.turned(), 9, None);
        let (number, plane) = answer;
        let rise = rng.between(1, 12_767) as i32;
        let raised = run.through(&Case { values: case.values.map(|r| r + rise), ..case });
        if let (0, Some((0, raised))) = (number, raised) {
            let wanted = Plane { c: plane.c.wrapping_add(rise * 65536), ..plane };
            run.holds(raised == wanted, || format!("{case}, the values {rise} more: {raised:?}, wanted {wanted:?}"));
        }
    }
}
