//! The three sample programs of source document 001, brought to document 01's
//! rules: no delay slot, a mask of all ones for TREESET, and no stop
//! instruction, so that each ends with halt 12 past its last word.

use super::case::{Case, FRESH};
use crate::case::plain;
use crate::groups::{area, size, tight, DEMONSTRATION};
use crate::points::{onto_sample, sample};
use crate::random;
use crate::run::Run;
use kit::rng::Rng;
use kit::words::{rri, Program};
use merikohin::{Plane, Screen, Triangle};
use second::machine::*;

/// A number with 16 bits of fraction: whole, a fraction, or at the edges.
fn fixed(rng: &mut Rng) -> u32 {
    match rng.next() % 5 {
        0 => (rng.between(-4, 4) * 65536) as u32,
        1 => rng.between(-65536, 65536) as u32,
        2 => rng.pick(&[0, 1, u32::MAX, 32768, 65535, 1 << 31, i32::MAX as u32]),
        3 => rng.between(-1000 * 65536, 1000 * 65536) as u32,
        _ => rng.next() as u32,
    }
}

/// "Expect the sum of floor(m·v / 65536) per row, never the floor of the sum."
fn row_by_column(row: [u32; 4], column: [u32; 4]) -> u32 {
    let mut sum = 0i64;
    for (a, b) in row.into_iter().zip(column) {
        sum += (i64::from(a as i32) * i64::from(b as i32)).div_euclid(65536);
    }
    sum as u32
}

/// Four DOTs of a matrix, row by row, with one vector; the row's address is
/// advanced by LI, the results stay in four registers.
pub fn matrix_times_vector(run: &mut Run, rng: &mut Rng) {
    const ROW: u32 = 1;
    const VECTOR: u32 = 2;
    const RESULT: u32 = 10;
    for turn in 0..300 {
        let (matrix, vector) = if turn == 0 { (0, 16) } else { (rng.between(0, 1008), rng.between(0, 1020)) };
        let mut program = Program::default();
        program.rri(LI, ROW, 0, matrix);
        program.rri(LI, VECTOR, 0, vector);
        for row in 0..4 {
            if row > 0 {
                program.rri(LI, ROW, ROW, 4);
            }
            program.rrr(DOT, RESULT + row, ROW, VECTOR);
        }
        let v = [(); 4].map(|()| fixed(rng));
        let m = [(); 16].map(|()| fixed(rng));
        let case = Case::one(program.done(), 0, rng.next(), FRESH, 100);
        let mut case = case.with_words(matrix as usize, &m);
        // The vector may lie within the matrix.
        case = case.with_words(vector as usize, &v);
        let mut data = Vec::new();
        case.data_at_first(&mut data);
        let four = |at: usize| [data[at], data[at + 1], data[at + 2], data[at + 3]];
        let wanted: Vec<u32> =
            (0..4).map(|row| row_by_column(four(matrix as usize + 4 * row), four(vector as usize))).collect();
        if let Some(ran) = run.machine_wants(&case, 0, Some(9), Some(12)) {
            let seen = &ran.state.registers[RESULT as usize..RESULT as usize + 4];
            run.holds(seen == wanted, || format!("{case}: wanted {wanted:x?}, answered {seen:x?}"));
        }
    }
}

/// Sixteen incoming words are stored transposed; then each row of the matrix is
/// replaced by its four DOTs with the new columns.
pub fn matrix_times_matrix(run: &mut Run, rng: &mut Rng) {
    const WORD: u32 = 1;
    const POINTER: u32 = 2;
    const TARGET: u32 = 3;
    const COUNT: u32 = 4;
    const ROW: u32 = 5;
    const COLUMN: u32 = 6;
    const RESULT: u32 = 10;
    for turn in 0..300 {
        let (matrix, new, incoming) = if turn == 0 {
            (0, 16, 32)
        } else {
            (rng.between(0, 20) * 16, 336 + rng.between(0, 20) * 16, 700 + rng.between(0, 308))
        };
        let mut program = Program::default();
        let (fetch, end) = (program.mark(), program.mark());
        program.rri(LI, POINTER, 0, incoming);
        program.rri(LI, TARGET, 0, new);
        program.rri(LI, COUNT, 0, 4);
        let rows = program.mark();
        program.put(rows);
        for column in 0..4 {
            // Element (r, c) goes to new + 4c + r.
            program.jump(CALL, fetch);
            program.rri(ST, WORD, TARGET, 4 * column);
        }
        program.rri(LI, TARGET, TARGET, 1);
        program.rri(LI, COUNT, COUNT, -1);
        program.jump(JNEL, rows);

        program.rri(LI, ROW, 0, matrix);
        for column in 0..4 {
            program.rri(LI, COLUMN + column, 0, new + 4 * i64::from(column));
        }
        program.rri(LI, COUNT, 0, 4);
        let products = program.mark();
        program.put(products);
        for column in 0..4 {
            program.rrr(DOT, RESULT + column, ROW, COLUMN + column);
        }
        for column in 0..4 {
            program.rri(ST, RESULT + column, ROW, i64::from(column));
        }
        program.rri(LI, ROW, ROW, 4);
        program.rri(LI, COUNT, COUNT, -1);
        program.jump(JNEL, products);
        program.jump(JMP, end);

        program.put(fetch);
        program.rri(LD, WORD, POINTER, 0);
        program.rri(LI, POINTER, POINTER, 1);
        program.rri(JMP, 0, 31, 0);

        let m = [(); 16].map(|()| fixed(rng));
        let n = [(); 16].map(|()| fixed(rng));
        let case = Case::one(program.done(), 0, rng.next(), FRESH, 10_000);
        let case = case.with_words(matrix as usize, &m).with_words(incoming as usize, &n);
        let mut wanted = [0; 16];
        for r in 0..4 {
            for c in 0..4 {
                let row = std::array::from_fn(|k| m[4 * r + k]);
                let column = std::array::from_fn(|k| n[4 * k + c]);
                wanted[4 * r + c] = row_by_column(row, column);
            }
        }
        // 3 + 4·(4·(2 + 3) + 3), then 6 + 4·(4 + 4 + 3), then the last jump.
        let steps = 3 + 4 * 23 + 6 + 4 * 11 + 1;
        if run.machine_wants(&case, 0, Some(steps), Some(12)).is_some() {
            let data = run.machine_memories.subject_data();
            let seen = data[matrix as usize..matrix as usize + 16].to_vec();
            let stored = (0..16).all(|k| data[new as usize + 4 * (k % 4) + k / 4] == n[k]);
            run.holds(seen == wanted && stored, || format!("{case}: wanted {wanted:x?}, answered {seen:x?}"));
        }
    }
}

// ---------------------------------------------------------------------------
// The rasterization loop.
// ---------------------------------------------------------------------------

/// One triangle's data: twelve plane numbers (A, B, C of depth, red, green,
/// blue: the B of each at 1, 4, 7, 10), then the three edges' B, A and C.
const PLANES: usize = 0;
const EDGE_DOWN: usize = 12;
const EDGE_RIGHT: usize = 15;
const EDGE_START: usize = 18;
/// Least column, last column, first row, last row of the box; the two starts of
/// the screen.
const BOX: usize = 21;
const SCREEN: usize = 25;
const WORDS: usize = 27;

const MASK: u32 = 6;

/// The loop over a box, for a screen of this size and data from `base` on. Seven
/// values (three edges, four planes) are kept for the line's start and for the
/// group.
fn add_loop(program: &mut Program, size: u32, base: usize) {
    const X: u32 = 1;
    const Y: u32 = 2;
    const MIN_X: u32 = 3;
    const MAX_X: u32 = 4;
    const MAX_Y: u32 = 5;
    // Edges first, then planes, in each seven.
    const RIGHT: u32 = 7;
    const LINE: u32 = 14;
    const VALUE: u32 = 21;
    let at = |place: usize| (base + place) as i64;
    let down = |k: usize| at(if k < 3 { EDGE_DOWN + k } else { PLANES + 3 * (k - 3) + 1 });
    let right = |k: usize| at(if k < 3 { EDGE_RIGHT + k } else { PLANES + 3 * (k - 3) });
    let start = |k: usize| at(if k < 3 { EDGE_START + k } else { PLANES + 3 * (k - 3) + 2 });

    program.rri(LD, X, 0, at(SCREEN));
    program.rri(LD, Y, 0, at(SCREEN + 1));
    program.rri(SCRSET, X, Y, i64::from(size));
    program.rri(LD, MIN_X, 0, at(BOX));
    program.rri(LD, MAX_X, 0, at(BOX + 1));
    program.rri(LD, Y, 0, at(BOX + 2));
    program.rri(LD, MAX_Y, 0, at(BOX + 3));
    program.rri(LI, MASK, 0, -1);
    for k in 0..7 {
        program.rri(LD, RIGHT + k as u32, 0, right(k));
        program.rri(LD, LINE + k as u32, 0, start(k));
    }
    let (row, group) = (program.mark(), program.mark());
    program.put(row);
    program.rrr(ADD, X, MIN_X, 0);
    for k in 0..7 {
        program.rrr(ADD, VALUE + k, LINE + k, 0);
    }
    program.put(group);
    program.rrr(TREESET, X, Y, MASK);
    for k in 0..3 {
        program.rrr(TREEIN, VALUE + k, RIGHT + k, 0);
    }
    for k in 0..4 {
        program.rri(TREEVAL, VALUE + 3 + k, RIGHT + 3 + k, i64::from(k));
    }
    program.rrr(TREEPUT, 0, 0, 0);
    program.rri(LI, X, X, 16);
    program.rrr(SUB, 0, X, MAX_X);
    program.jump(JLEL, group);
    for k in 0..7 {
        // X is free here: the next row sets it anew.
        program.rri(LD, X, 0, down(k));
        program.rrr(ADD, LINE + k as u32, LINE + k as u32, X);
    }
    program.rri(LI, Y, Y, 1);
    program.rrr(SUB, 0, Y, MAX_Y);
    program.jump(JLEL, row);
}

/// The steps of one loop over a box.
fn loop_steps(corners: [u32; 4]) -> u64 {
    let [min_x, max_x, min_y, max_y] = corners.map(u64::from);
    let groups = (max_x - min_x) / 16 + 1;
    22 + (max_y - min_y + 1) * (8 + 12 * groups + 17)
}

/// The data of one triangle: "A = -8·dy, B = 8·dx, C = edge value at pixel
/// (0,0)'s sample point, less 1 for each edge whose zeros are out"; all start
/// values taken on to the box's first pixel. The planes start from pixel (0, 0)
/// itself.
fn set_up(t: &Triangle, screen: Screen, corners: [u32; 4]) -> Vec<u32> {
    let [min_x, max_x, min_y, max_y] = corners;
    let at_corner = |c: i64, a: i64, b: i64| (c + a * i64::from(min_x) + b * i64::from(min_y)) as u32;
    let mut words = vec![0; WORDS];
    for (k, Plane { c, a, b }) in [t.depth, t.red, t.green, t.blue].into_iter().enumerate() {
        words[PLANES + 3 * k] = a as u32;
        words[PLANES + 3 * k + 1] = b as u32;
        words[PLANES + 3 * k + 2] = at_corner(c.into(), a.into(), b.into());
    }
    let v = [(t.vertices.x1, t.vertices.y1), (t.vertices.x2, t.vertices.y2), (t.vertices.x3, t.vertices.y3)]
        .map(|(x, y)| (i64::from(x), i64::from(y)));
    let first = i64::from(sample(0));
    for k in 0..3 {
        let (from, to) = (v[k], v[(k + 1) % 3]);
        let (dx, dy) = (to.0 - from.0, to.1 - from.1);
        let zeros_in = dy < 0 || (dy == 0 && dx > 0);
        let c = (first - from.1) * dx - (first - from.0) * dy - i64::from(!zeros_in);
        let (a, b) = (-8 * dy, 8 * dx);
        words[EDGE_RIGHT + k] = a as u32;
        words[EDGE_DOWN + k] = b as u32;
        words[EDGE_START + k] = at_corner(c, a, b);
    }
    words[BOX..BOX + 4].copy_from_slice(&[min_x, max_x, min_y, max_y]);
    words[SCREEN..].copy_from_slice(&[screen.colour_start, screen.depth_start]);
    words
}

/// The box to visit: the whole screen, or no more than the triangle needs.
fn box_of(rng: &mut Rng, t: &Triangle, screen: Screen) -> [u32; 4] {
    let (width, height) = ((screen.size_number / 512 * 16) as i32, (screen.size_number % 512) as i32);
    if rng.chance(3) {
        return [0, width as u32 - 1, 0, height as u32 - 1];
    }
    let (x, y) = ([t.vertices.x1, t.vertices.x2, t.vertices.x3], [t.vertices.y1, t.vertices.y2, t.vertices.y3]);
    // The last column or row that is sampled at the place or before it.
    let sampled_by = |place: i32| (place - sample(0)) >> 3;
    let least = |n: [i32; 3]| sampled_by(n[0].min(n[1]).min(n[2]));
    let most = |n: [i32; 3]| sampled_by(n[0].max(n[1]).max(n[2]));
    let left = least(x).clamp(0, width - 1) / 16 * 16;
    let top = least(y).clamp(0, height - 1);
    let right = most(x).clamp(left, width - 1);
    let bottom = most(y).clamp(top, height - 1);
    [left as u32, right as u32, top as u32, bottom as u32]
}

/// Some triangles one after the other, by loops in one program and by the
/// drawer: equal RAM. Hands back how many pixels the drawer wrote.
fn loops_against_drawer(run: &mut Run, rng: &mut Rng, screen: Screen, ram: usize, list: &[Triangle]) -> Option<u64> {
    let mut program = Program::default();
    let mut data = Vec::new();
    let mut steps = 0;
    for t in list {
        let corners = box_of(rng, t, screen);
        add_loop(&mut program, screen.size_number, data.len());
        data.extend(set_up(t, screen, corners));
        steps += loop_steps(corners);
    }
    let case = Case::one(program.done(), ram, rng.next(), FRESH, 10_000_000).with_words(0, &data);
    run.machine_wants(&case, 0, Some(steps), Some(12))?;

    let by_loop = run.machine_memories.subject_ram().to_vec();
    let mut by_drawer = Vec::new();
    case.ram_at_first(&mut by_drawer);
    let (mut numbers, mut written) = (0, 0);
    for t in list {
        let drawn = run.subject.draw(&mut by_drawer, screen, *t);
        numbers |= drawn.number;
        written += u64::from(drawn.written);
    }
    let different = (0..ram).filter(|&at| by_loop[at] != by_drawer[at]).count();
    run.holds(numbers == 0 && different == 0, || {
        format!("{list:?} on {screen:?}, by the loop and by the drawer: {different} bytes of RAM differ\n  compare --case '{case}'")
    });
    Some(written)
}

/// A triangle the loop draws as the drawer does: "only D > 0 ... D >= 3 rules
/// out the all-negative case".
fn fitting_triangle(rng: &mut Rng, width: i64, height: i64, on_samples: bool) -> Triangle {
    loop {
        let mut t = random::triangle(rng, width, height);
        let mut v = t.vertices.numbers();
        if on_samples {
            // Many edges through sample points.
            v = v.map(onto_sample);
        }
        let v = random::turned_right(v);
        t.vertices = v.into();
        if random::twice_area(v) >= 3 {
            return t;
        }
    }
}

/// Triangles by the loop, pixel by pixel as the drawer has them.
pub fn rasterization(run: &mut Run, rng: &mut Rng) {
    let (mut triangles, mut written) = (0u64, 0u64);
    let mut draw = |run: &mut Run, rng: &mut Rng, screen: Screen, ram: usize, list: &[Triangle]| {
        if let Some(pixels) = loops_against_drawer(run, rng, screen, ram, list) {
            triangles += list.len() as u64;
            written += pixels;
        }
    };
    for turn in 0..1200 {
        let (groups, height) = rng.pick(&[(1, 1), (1, 4), (1, 9), (2, 3), (2, 16), (3, 24), (4, 20)]);
        let s = size(groups, height);
        let ram = 2 * area(s) as usize + rng.pick(&[0, 0, 1, 6, 70]);
        let screen = random::sound_screen(rng, s, ram);
        let mut list = Vec::new();
        for _ in 0..rng.pick(&[1, 1, 2, 3, 8]) {
            list.push(fitting_triangle(rng, i64::from(groups * 16), i64::from(height), turn % 3 == 0));
        }
        draw(run, rng, screen, ram, &list);
    }
    // The largest screen: its two halves, then others.
    let (screen, ram) = tight(20960);
    for turn in 0..4 {
        let mut t = fitting_triangle(rng, 640, 480, false);
        match turn {
            0 => t.vertices = [0, 0, 5120, 0, 0, 3840].into(),
            1 => t.vertices = [5120, 3840, 0, 3840, 5120, 0].into(),
            _ => {}
        }
        draw(run, rng, screen, ram, &[t]);
    }
    run.note(format!("{triangles} triangles, {written} pixels written"));

    // A box beyond the screen halts with 14 in the middle of the work.
    let (screen, ram) = tight(size(2, 4));
    let t = Triangle { red: Plane { c: 7 << 16, a: 0, b: 0 }, ..plain([0, 0, 256, 0, 0, 32]) };
    let one_loop = |screen: Screen| {
        let mut program = Program::default();
        add_loop(&mut program, screen.size_number, 0);
        program
    };
    for (corners, steps) in [([0, 32, 0, 3], 22 + 8 + 2 * 12), ([0, 31, 0, 4], 22 + 4 * (8 + 2 * 12 + 17) + 8)] {
        let case = Case::one(one_loop(screen).done(), ram, rng.next(), FRESH, 1_000_000);
        let case = case.with_words(0, &set_up(&t, screen, corners));
        run.machine_wants(&case, 0, Some(steps), Some(14));
    }
    // A mask of 0, as R0 would be, lets no pixel through.
    let mut program = one_loop(screen);
    program.words[7] = rri(LI, MASK, 0, 0);
    let case = Case::one(program.done(), ram, rng.next(), FRESH, 1_000_000);
    let case = case.with_words(0, &set_up(&t, screen, [0, 31, 0, 3]));
    let mut before = Vec::new();
    case.ram_at_first(&mut before);
    if run.machine_wants(&case, 0, Some(loop_steps([0, 31, 0, 3])), Some(12)).is_some() {
        let same = run.machine_memories.subject_ram() == before;
        run.holds(same, || "a mask of 0 let a pixel through".to_string());
    }
    demonstration(run, rng);
}

/// The demonstration picture by the machine alone: CLS to colour 0 and depth
/// 65535, then two loops with depth 0 and blue 1, then 2.
fn demonstration(run: &mut Run, rng: &mut Rng) {
    let (screen, ram) = tight(size(1, 4));
    let blue = |n: i32| Plane { c: n << 16, a: 0, b: 0 };
    let pair = [
        Triangle { blue: blue(1), ..plain([0, 0, 32, 0, 0, 32]) },
        Triangle { blue: blue(2), ..plain([32, 32, 0, 32, 32, 0]) },
    ];
    let corners = [0, 15, 0, 3];
    let mut program = Program::default();
    program.rri(LI, 1, 0, 128);
    program.rri(SCRSET, 0, 1, i64::from(screen.size_number));
    program.rri(LI, 2, 0, -1);
    program.rrr(CLS, 0, 2, 0);
    let mut data = Vec::new();
    for t in &pair {
        add_loop(&mut program, screen.size_number, data.len());
        data.extend(set_up(t, screen, corners));
    }
    let case = Case::one(program.done(), ram, rng.next(), FRESH, 1_000_000).with_words(0, &data);
    if run.machine_wants(&case, 0, Some(4 + 2 * loop_steps(corners)), Some(12)).is_some() {
        let colours = &run.machine_memories.subject_ram()[..128];
        let mut picture = String::new();
        for row in colours.chunks(32) {
            row.chunks(2).for_each(|pixel| picture += &(u32::from(pixel[0]) * 256 + u32::from(pixel[1])).to_string());
            picture.push('\n');
        }
        run.holds(picture == DEMONSTRATION, || format!("the picture is\n{picture}"));
    }
}
