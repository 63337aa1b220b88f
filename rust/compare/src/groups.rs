//! The fixed groups: both sides of every edge document 01 names, as 02 changes
//! it. Those of 02's M-100 alone are in [`crate::half_pixel`].

use crate::case::{plain, second_triangle, Area, Call, Case, Fill, NO_PLANE};
use crate::half_pixel;
use crate::points::{onto_sample, sample};
use crate::random;
use crate::run::Run;
use kit::rng::Rng;
use merikohin::{Plane, Screen, Triangle};

pub fn all(run: &mut Run) {
    run.group("the table of triangles", table);
    run.group("the demonstration picture", demonstration);
    run.group("vertex numbers", vertex_numbers);
    run.group("size numbers", size_numbers);
    run.group("640 by 480", full_size);
    run.group("rows", rows);
    run.group("areas", areas);
    run.group("areas, every start", every_start);
    run.group("starts near 2^32", starts_near_the_top);
    run.group("RAM lengths", ram_lengths);
    run.group("several faults at once", several_faults);
    run.group("every triangle on a 5 by 5 grid", grid);
    run.group("half a pixel, one eighth wide", half_pixel::one_eighth_wide);
    run.group("half a pixel, moved by half", half_pixel::moved_by_half);
    run.group("half a pixel, moved by a whole", half_pixel::moved_by_a_whole);
    run.group("both sides of a sample point", half_pixel::both_sides);
    run.group("points, lines and slivers", slivers);
    run.group("triangles of one column", one_column);
    run.group("far vertices", far);
    run.group("largest edge values", largest_edges);
    run.group("long edges", long_edges);
    run.group("shared edges", shared_edges);
    run.group("fans", fans);
    run.group("depth", depth);
    run.group("planes", planes);
    run.group("two orders", two_orders);
    run.group("random calls", random::calls);
}

// ---------------------------------------------------------------------------
// Building blocks.
// ---------------------------------------------------------------------------

pub fn size(groups: u32, height: u32) -> u32 {
    groups * 512 + height
}

/// Bytes of one area; for sizes in range.
pub fn area(size: u32) -> u32 {
    (size / 512) * (size % 512) * 32
}

/// Colour area first, depth area right after it, and RAM for just both.
pub fn tight(size: u32) -> (Screen, usize) {
    let bytes = area(size);
    (Screen { colour_start: 0, depth_start: bytes, size_number: size }, 2 * bytes as usize)
}

fn flat(value: i32) -> Plane {
    Plane { c: value << 16, a: 0, b: 0 }
}

/// A triangle that covers every pixel of every screen.
const ALL: [i32; 6] = [2560, -8192, 8191, 8191, -8192, 8191];

fn covers_all(rng: &mut Rng) -> Triangle {
    let mut t = plain(ALL);
    t.depth = random::plane(rng);
    t.red = random::plane(rng);
    t.green = random::plane(rng);
    t.blue = random::plane(rng);
    t
}

/// Each kind of call on one RAM and screen, each from random bytes; all are to
/// answer `number`.
fn each_call(run: &mut Run, rng: &mut Rng, ram: usize, screen: Screen, number: u32) {
    let height = screen.size_number % 512;
    let row = (rng.next() % u64::from(height.max(1))) as u32;
    let clear = Call::Clear { colour: rng.next() as u16, depth: rng.next() as u16 };
    let rows = Area::BOTH.map(|area| Call::Row { area, row });
    for call in [clear, Call::Draw(covers_all(rng)), Call::RowCheck { row }, rows[0], rows[1]] {
        let fill = Fill::Random(rng.next());
        run.case_wants(
            &Case { lead: (rng.next() % 16) as usize, ..Case::one(ram, fill, screen, call) },
            number,
            None,
            None,
        );
    }
}

/// The pixels a triangle covers, as the subject drew them; none if the call
/// already mismatched.
pub fn covered_pixels(run: &mut Run, size: u32, v: [i32; 6]) -> Option<Vec<bool>> {
    let (screen, ram) = tight(size);
    // All bytes 255: depth 65535 everywhere, so every covered pixel is written
    // with depth 0 and colour 0.
    run.case(&Case::one(ram, Fill::Byte(255), screen, Call::Draw(plain(v))))?;
    let colours = &run.memories.subject_ram()[..area(size) as usize];
    Some(colours.chunks(2).map(|pixel| pixel == [0, 0]).collect())
}

// ---------------------------------------------------------------------------
// The groups.
// ---------------------------------------------------------------------------

const STARRED_FIRST: [i32; 6] = [0, 0, 32, 0, 0, 32];
const STARRED_SECOND: [i32; 6] = [32, 32, 0, 32, 32, 0];

/// 02, M-100: "The starred pair on 16 by 4 now covers 6 and 10."
const FIRST_COVERS: u32 = 6;
const SECOND_COVERS: u32 = 10;

/// 01: "Screen 16 by 4: (0,0), (32,0), (0,32) covers ...; (32,32), (0,32),
/// (32,0) covers ...; no pixel in common. (0,0), (0,32), (32,0) covers 0. Three
/// equal vertices cover 0." The two numbers are 02's.
fn table(run: &mut Run, rng: &mut Rng) {
    let (screen, ram) = tight(size(1, 4));
    let turned = [0, 0, 0, 32, 32, 0];
    // On a pixel's corner, and on its sample point.
    let equal = [[16; 6], [sample(2); 6]];
    let pair = [(STARRED_FIRST, FIRST_COVERS), (STARRED_SECOND, SECOND_COVERS)];
    for (v, covered) in pair.into_iter().chain([(turned, 0), (equal[0], 0), (equal[1], 0)]) {
        // The same triangle, started at each of its vertices.
        for turn in 0..3 {
            let k = 2 * turn;
            let v = [v[k], v[k + 1], v[(k + 2) % 6], v[(k + 3) % 6], v[(k + 4) % 6], v[(k + 5) % 6]];
            let all = Case::one(ram, Fill::Byte(255), screen, Call::Draw(plain(v)));
            run.case_wants(&all, 0, Some(covered), Some(covered));
            let some = Case::one(ram, Fill::Random(rng.next()), screen, Call::Draw(plain(v)));
            run.case_wants(&some, 0, Some(covered), None);
        }
    }
    let first = covered_pixels(run, size(1, 4), STARRED_FIRST);
    let second = covered_pixels(run, size(1, 4), STARRED_SECOND);
    if let (Some(first), Some(second)) = (first, second) {
        let common = first.iter().zip(&second).filter(|(a, b)| **a && **b).count();
        run.holds(common == 0, || format!("the starred pair has {common} pixels in common"));
        let either = first.iter().zip(&second).filter(|(a, b)| **a || **b).count();
        run.holds(either == 16, || format!("the starred pair covers {either} pixels together"));
    }
}

pub const DEMONSTRATION: &str = "\
1112000000000000
1122000000000000
1222000000000000
2222000000000000
";

/// 01: "The demonstration program clears a 16 by 4 screen to colour 0, depth
/// 65535, draws the starred pair with depth 0 and blue 1, then 2, and writes
/// each pixel's colour as a digit."
fn demonstration(run: &mut Run, rng: &mut Rng) {
    let (screen, ram) = tight(size(1, 4));
    let first = Triangle { blue: flat(1), ..plain(STARRED_FIRST) };
    let second = Triangle { blue: flat(2), ..plain(STARRED_SECOND) };
    let clear = Call::Clear { colour: 0, depth: 65535 };
    for pair in [[first, second], [second, first]] {
        let mut calls = vec![clear, Call::Draw(pair[0]), Call::Draw(pair[1])];
        calls.extend((0..5).map(|row| Call::Row { area: Area::Colours, row }));
        let case = Case::many(ram, Fill::Random(rng.next()), screen, &calls);
        if let Some(answers) = run.case(&case) {
            let mut picture = String::new();
            for answer in &answers[3..] {
                let row = answer.row.expect("a row call");
                if row.number == 0 {
                    let bytes = &run.memories.subject_ram()[row.start as usize..][..row.length as usize];
                    for pixel in bytes.chunks(2) {
                        picture += &(u32::from(pixel[0]) * 256 + u32::from(pixel[1])).to_string();
                    }
                    picture.push('\n');
                }
            }
            let holds = picture == DEMONSTRATION && ones_as_told(&picture);
            run.holds(holds, || format!("the picture is\n{picture}"));
        }
    }
}

/// 02, M-100: "The demonstration output has 1s where x + y is at most 2."
fn ones_as_told(picture: &str) -> bool {
    let in_row = |y: usize, line: &str| line.chars().enumerate().all(|(x, digit)| (digit == '1') == (x + y <= 2));
    picture.lines().enumerate().all(|(y, line)| in_row(y, line))
}

/// 6: "a vertex number outside -8192..8191"; "8191 passes, 8192 gives 6".
fn vertex_numbers(run: &mut Run, rng: &mut Rng) {
    let (screen, ram) = tight(size(2, 32));
    let values = [
        8190,
        8191,
        8192,
        8193,
        -8191,
        -8192,
        -8193,
        -8194,
        16383,
        16384,
        -16384,
        32767,
        32768,
        -32768,
        -32769,
        65535,
        65536,
        65544,
        73727,
        73728,
        -65536,
        -65528,
        1 << 28,
        -(1 << 28),
        1 << 30,
        i32::MAX - 1,
        i32::MAX,
        i32::MIN,
        i32::MIN + 1,
    ];
    for base in [[0, 0, 256, 0, 0, 256], [256, 256, 0, 256, 256, 0], [40, 10, 200, 120, 10, 180]] {
        for k in 0..6 {
            for value in values {
                let number = if (-8192..=8191).contains(&value) { 0 } else { 6 };
                let mut v = base;
                v[k] = value;
                let mut t = covers_all(rng);
                t.vertices = v.into();
                run.case_wants(&Case::one(ram, Fill::Random(rng.next()), screen, Call::Draw(t)), number, None, None);
            }
        }
    }
    for value in values {
        let number = if (-8192..=8191).contains(&value) { 0 } else { 6 };
        let t = plain([value; 6]);
        run.case_wants(&Case::one(ram, Fill::Random(rng.next()), screen, Call::Draw(t)), number, Some(0), Some(0));
    }
    // Every two of the six numbers, each just inside or just outside.
    for j in 0..6 {
        for k in 0..j {
            for a in [8191, 8192, -8192, -8193] {
                for b in [8191, 8192, -8192, -8193] {
                    let mut v = [0, 0, 256, 0, 0, 256];
                    v[j] = a;
                    v[k] = b;
                    let number = if v.iter().all(|n| (-8192..=8191).contains(n)) { 0 } else { 6 };
                    let case = Case::one(ram, Fill::Random(rng.next()), screen, Call::Draw(plain(v)));
                    run.case_wants(&case, number, None, None);
                }
            }
        }
    }
}

/// "S div 512 is the width in groups of 16 pixels, 1 to 40; S mod 512 is the
/// height, 1 to 480."
fn size_numbers(run: &mut Run, rng: &mut Rng) {
    // RAM that would hold even 41 groups by 511 rows twice.
    let (ram, depth) = (1_400_000, 700_000);
    let mut sizes = Vec::new();
    for groups in [0, 1, 2, 39, 40, 41, 42, 63, 64, 65, 127, 128, 129, 255, 256, 257, 65537, 8_388_607] {
        for height in [0, 1, 2, 479, 480, 481, 510, 511] {
            sizes.push(size(groups, height));
        }
    }
    sizes.extend([0, 1, 480, 511, 512, 513, u32::MAX, u32::MAX - 1, i32::MAX as u32, 1 << 31, 65535, 65536]);
    // Fine only if truncated to 16 bits, or to fewer bits of the width.
    for fine in [size(1, 1), size(1, 4), size(4, 64), size(40, 480)] {
        for above in [1 << 15, 1 << 16, 1 << 17, 1 << 20, 1 << 24, 1 << 31, 0x7fff_0000, 0xffff_0000] {
            sizes.push(above | fine);
        }
    }
    for s in sizes {
        let fits = (1..=40).contains(&(s / 512)) && (1..=480).contains(&(s % 512));
        let screen = Screen { colour_start: 0, depth_start: depth, size_number: s };
        each_call(run, rng, ram, screen, if fits { 0 } else { 5 });
        let screen = Screen { colour_start: 0, depth_start: 64, size_number: s };
        let fits = fits && area(s) <= 64;
        each_call(run, rng, 128, screen, if fits { 0 } else { 5 });
    }
}

/// "S = 20960 is 640 by 480."
fn full_size(run: &mut Run, rng: &mut Rng) {
    let (screen, ram) = tight(20960);
    let all = Case::one(ram, Fill::Byte(255), screen, Call::Draw(plain(ALL)));
    run.case_wants(&all, 0, Some(640 * 480), Some(640 * 480));
    each_call(run, rng, ram, screen, 0);
    each_call(run, rng, ram - 1, screen, 5);
    for row in [0, 1, 240, 478, 479, 480, 481, u32::MAX] {
        let calls = Area::BOTH.map(|area| Call::Row { area, row });
        let case = Case::many(ram, Fill::Random(rng.next()), screen, &calls);
        let Some(answers) = run.case(&case) else { continue };
        for (answer, first) in answers.iter().zip([0, 614_400]) {
            let seen = answer.row.expect("a row call");
            let holds = if row < 480 {
                (seen.number, seen.start, seen.length) == (0, first + u64::from(row) * 1280, 1280)
            } else {
                (seen.number, seen.start, seen.length) == (8, 0, 0)
            };
            run.holds(holds, || format!("row {row} of a 640 by 480 screen, its area at {first}: {seen:?}"));
        }
    }
    for _ in 0..20 {
        let t = random::triangle(rng, 640, 480);
        run.case(&Case::one(ram, Fill::Random(rng.next()), screen, Call::Draw(t)));
    }
}

/// "8: row not below the height"; the first and the last row, and rows whose
/// byte place would wrap around 2^32.
fn rows(run: &mut Run, rng: &mut Rng) {
    for (groups, height) in [(1, 1), (1, 4), (2, 3), (3, 7), (4, 64), (40, 1), (1, 480), (40, 480)] {
        let s = size(groups, height);
        let bytes = area(s);
        let row_bytes = u64::from(groups) * 32;
        let wraps = ((1u64 << 32) / row_bytes) as u32;
        let rows = [
            0,
            1,
            height / 2,
            height - 1,
            height,
            height + 1,
            255,
            256,
            479,
            480,
            511,
            512,
            65535,
            65536,
            65536 + height - 1,
            wraps.wrapping_sub(1),
            wraps,
            wraps.wrapping_add(1),
            i32::MAX as u32,
            1 << 31,
            (1 << 31) + 1,
            u32::MAX - 1,
            u32::MAX,
        ];
        for (colour, depth) in [(0, bytes), (bytes, 0), (2, bytes + 4), (bytes + 6, 0)] {
            let screen = Screen { colour_start: colour, depth_start: depth, size_number: s };
            let ram = 2 * bytes as usize + 7;
            for row in rows {
                let number = if row < height { 0 } else { 8 };
                for area in Area::BOTH {
                    let calls = [Call::RowCheck { row }, Call::Row { area, row }];
                    let lead = (rng.next() % 16) as usize;
                    let case = Case { lead, ..Case::many(ram, Fill::Random(rng.next()), screen, &calls) };
                    let Some(answers) = run.case(&case) else { continue };
                    let seen = answers[1].row.expect("a row call");
                    let length = if number == 0 { row_bytes } else { 0 };
                    let first = u64::from(area.start(screen));
                    let start = if number == 0 { first + u64::from(row) * row_bytes } else { 0 };
                    let part = Some((start as usize, length as usize));
                    let holds = answers[0].number == number
                        && (seen.number, seen.start, seen.length, seen.part) == (number, start, length, part);
                    run.holds(holds, || format!("{case}: check {}, row {seen:?}", answers[0].number));
                }
            }
        }
    }
}

/// "both starts are even, each area lies within RAM, and the areas do not
/// overlap. Touching is allowed."
fn areas(run: &mut Run, rng: &mut Rng) {
    for (groups, height) in [(1, 1), (1, 4), (2, 3), (4, 64), (40, 1), (1, 480)] {
        let s = size(groups, height);
        let a = area(s);
        let exact = 2 * a as usize;
        // Colour start, depth start, RAM length, number.
        let mut list = vec![
            // Touching each other and the end of RAM, in both orders.
            (0, a, exact, 0),
            (a, 0, exact, 0),
            (0, a, exact + 1, 0),
            (a, 0, exact + 1, 0),
            // Apart by one half-word.
            (0, a + 2, exact + 2, 0),
            (a + 2, 0, exact + 2, 0),
            (2, a + 2, exact + 2, 0),
            (a + 2, 2, exact + 2, 0),
            // Past the end of RAM by one byte, and by one half-word.
            (0, a, exact - 1, 5),
            (a, 0, exact - 1, 5),
            (0, a, exact - 2, 5),
            (a, 0, exact - 2, 5),
            (0, a + 2, exact, 5),
            (a + 2, 0, exact, 5),
            (0, a + 2, exact + 1, 5),
            (a + 2, 0, exact + 1, 5),
            // Overlapping by one half-word, and by one byte.
            (0, a - 2, exact, 5),
            (a - 2, 0, exact, 5),
            (0, a - 1, exact, 5),
            (a - 1, 0, exact, 5),
            (2, a, exact, 5),
            (a, 2, exact, 5),
            // The same area twice, and one half-word on.
            (0, 0, exact, 5),
            (a, a, exact, 5),
            (0, 2, exact, 5),
            (2, 0, exact, 5),
            // Odd starts.
            (1, a + 2, exact + 4, 5),
            (0, a + 1, exact + 4, 5),
            (1, a + 1, exact + 4, 5),
            (1, a + 3, exact + 4, 5),
            (a + 1, 0, exact + 4, 5),
            (a + 2, 1, exact + 4, 5),
            (a + 3, 1, exact + 4, 5),
            (2, a + 2, exact + 4, 0),
            // No RAM to speak of.
            (0, a, a as usize, 5),
            (a, 0, a as usize, 5),
            (0, a, 0, 5),
            (0, a, 1, 5),
        ];
        list.push((a / 2, a + a / 2, exact + a as usize, 0));
        for (colour, depth, ram, number) in list {
            each_call(run, rng, ram, Screen { colour_start: colour, depth_start: depth, size_number: s }, number);
        }
    }
}

/// One row of one group (areas of 32 bytes) at every two starts in and around
/// RAM lengths just too short, just right and just longer.
fn every_start(run: &mut Run, rng: &mut Rng) {
    let s = size(1, 1);
    for ram in [63, 64, 65, 66, 67] {
        for colour in 0..=70 {
            for depth in 0..=70 {
                let screen = Screen { colour_start: colour, depth_start: depth, size_number: s };
                let fits = |start: u32| start.is_multiple_of(2) && start as usize + 32 <= ram;
                let apart = colour.abs_diff(depth) >= 32;
                let number = if fits(colour) && fits(depth) && apart { 0 } else { 5 };
                each_call(run, rng, ram, screen, number);
            }
        }
    }
}

/// Starts at which start + area passes 2^31 or 2^32.
fn starts_near_the_top(run: &mut Run, rng: &mut Rng) {
    for (groups, height) in [(1, 1), (1, 4), (4, 64), (40, 480)] {
        let s = size(groups, height);
        let a = area(s);
        let mut tops = vec![0u32.wrapping_sub(1), 0u32.wrapping_sub(2), 0u32.wrapping_sub(4), 0u32.wrapping_sub(2 * a)];
        for top in [0u32, 1 << 31, 1 << 24, 1 << 23, 1 << 22, 65536 * 65535] {
            for by in [2, 1] {
                tops.extend([top.wrapping_sub(a).wrapping_sub(by), top.wrapping_sub(a).wrapping_add(by)]);
            }
            tops.extend([top.wrapping_sub(a), top.wrapping_sub(2), top.wrapping_sub(1)]);
            if top != 0 {
                tops.extend([top, top + 2]);
            }
        }
        for ram in [2 * a as usize, 2 * a as usize + 2] {
            for &top in &tops {
                for (colour, depth) in [(top, 0), (0, top), (top, top), (top, top.wrapping_add(a)), (a, top), (top, a)]
                {
                    let screen = Screen { colour_start: colour, depth_start: depth, size_number: s };
                    let fits = |start: u32| start.is_multiple_of(2) && u64::from(start) + u64::from(a) <= ram as u64;
                    let apart = colour.abs_diff(depth) >= a;
                    let number = if fits(colour) && fits(depth) && apart { 0 } else { 5 };
                    each_call(run, rng, ram, screen, number);
                }
            }
        }
    }
}

/// "External RAM: 0 to 4,194,304 bytes"; 3: "RAM longer than 4,194,304 bytes".
fn ram_lengths(run: &mut Run, rng: &mut Rng) {
    for ram in [
        0usize,
        1,
        2,
        31,
        32,
        63,
        64,
        65,
        4_194_302,
        4_194_303,
        4_194_304,
        4_194_305,
        4_194_306,
        8_388_608,
        4_194_304 + 65_536,
    ] {
        for s in [size(1, 1), size(40, 480)] {
            let a = area(s) as usize;
            // From the beginning; at the very end; one half-word past it.
            let end = ram / 2 * 2;
            for (colour, depth) in [
                (0, a),
                (end.saturating_sub(a), 0),
                (0, end.saturating_sub(a)),
                (end.saturating_sub(2 * a), end.saturating_sub(a)),
                (end.saturating_sub(a), end.saturating_sub(2 * a)),
                ((end + 2).saturating_sub(a), 0),
                (0, (end + 2).saturating_sub(a)),
            ] {
                let fits = |start: usize| start + a <= ram;
                let number = if ram > 4_194_304 {
                    3
                } else if fits(colour) && fits(depth) && colour.abs_diff(depth) >= a {
                    0
                } else {
                    5
                };
                each_call(
                    run,
                    rng,
                    ram,
                    Screen { colour_start: colour as u32, depth_start: depth as u32, size_number: s },
                    number,
                );
            }
        }
    }
}

/// "The lowest number that applies to that kind of call wins", for every
/// choice of faults.
fn several_faults(run: &mut Run, rng: &mut Rng) {
    let s = size(2, 8);
    let a = area(s);
    let good = Screen { colour_start: 0, depth_start: a, size_number: s };
    let unsound = [
        Screen { size_number: 0, ..good },
        Screen { size_number: size(2, 0), ..good },
        Screen { size_number: size(2, 481), ..good },
        Screen { size_number: size(0, 8), ..good },
        Screen { size_number: size(41, 8), ..good },
        Screen { size_number: u32::MAX, ..good },
        Screen { size_number: s | 1 << 16, ..good },
        Screen { colour_start: 1, ..good },
        Screen { depth_start: a + 1, ..good },
        Screen { depth_start: a - 2, ..good },
        Screen { colour_start: 0, depth_start: 0, ..good },
        Screen { colour_start: u32::MAX - 1, ..good },
        Screen { depth_start: 0u32.wrapping_sub(a), ..good },
        Screen { colour_start: 4_194_306, ..good },
        Screen { colour_start: u32::MAX, depth_start: u32::MAX, size_number: u32::MAX },
    ];
    let mut screens = vec![(good, true)];
    screens.extend(unsound.map(|screen| (screen, false)));

    let mut triangles = vec![(plain([0, 0, 256, 0, 0, 64]), true), (plain([0, 0, 0, 64, 256, 0]), true)];
    for (k, far) in [(0, 8192), (1, -8193), (2, i32::MAX), (3, i32::MIN), (4, 65536), (5, -65536)] {
        let mut v = [0, 0, 256, 0, 0, 64];
        v[k] = far;
        triangles.push((plain(v), false));
        triangles.push((plain([far; 6]), false));
    }
    triangles.push((plain([i32::MIN, i32::MAX, i32::MAX, i32::MIN, i32::MAX, i32::MAX]), false));

    for (ram, ram_fits) in [(2 * a as usize, true), (4_194_304, true), (4_194_305, false), (4_200_000, false)] {
        for &(screen, screen_fits) in &screens {
            let first = if !ram_fits {
                3
            } else if !screen_fits {
                5
            } else {
                0
            };
            let clear = Call::Clear { colour: 0x1234, depth: 0x5678 };
            run.case_wants(&Case::one(ram, Fill::Random(rng.next()), screen, clear), first, None, None);
            let draws = triangles.iter().map(|&(t, fits)| (Call::Draw(t), if fits { 0 } else { 6 }));
            let height = u64::from(screen.size_number % 512);
            let rows = [0, 7, 8, 9, u32::MAX].into_iter().flat_map(|row| {
                let number = if u64::from(row) < height { 0 } else { 8 };
                let [colours, depths] = Area::BOTH.map(|area| (Call::Row { area, row }, number));
                [(Call::RowCheck { row }, number), colours, depths]
            });
            // All on one long case: one RAM serves many refused calls.
            let (calls, numbers): (Vec<Call>, Vec<u32>) = draws.chain(rows).unzip();
            let case = Case::many(ram, Fill::Random(rng.next()), screen, &calls);
            if let Some(answers) = run.case(&case) {
                for ((answer, number), call) in answers.iter().zip(numbers).zip(&calls) {
                    let wanted = if first != 0 { first } else { number };
                    let counts_fit = wanted == 0 || (answer.covered == 0 && answer.written == 0);
                    run.holds(answer.number == wanted && counts_fit, || {
                        format!("ram {ram}, {screen:?}, {call:?}: wanted number {wanted}, answered {answer:?}")
                    });
                }
            }
        }
    }
}

/// All triangles with vertices on the first two sample points of an axis,
/// between them, before and behind: every way to pass through sample points or
/// between them, points and lines included.
fn grid(run: &mut Run, rng: &mut Rng) {
    let places = [-4, 0, 4, 8, 12].map(|n| sample(0) + n);
    let points: Vec<(i32, i32)> = places.iter().flat_map(|&y| places.map(|x| (x, y))).collect();
    let (screen, ram) = tight(size(1, 3));
    for &(x1, y1) in &points {
        for &(x2, y2) in &points {
            for &(x3, y3) in &points {
                let t = Triangle { blue: flat(1), depth: flat(0x7fff), ..plain([x1, y1, x2, y2, x3, y3]) };
                run.case(&Case::one(ram, Fill::Random(rng.next()), screen, Call::Draw(t)));
            }
        }
    }
}

/// Triangles of no area, and very thin ones at every kind of slope.
fn slivers(run: &mut Run, rng: &mut Rng) {
    let s = size(4, 64);
    let (screen, ram) = tight(s);
    let draw = |run: &mut Run, rng: &mut Rng, v: [i32; 6], covered: Option<u32>| {
        let t = Triangle { blue: random::plane(rng), ..plain(v) };
        run.case_wants(&Case::one(ram, Fill::Random(rng.next()), screen, Call::Draw(t)), 0, covered, None);
    };
    for _ in 0..100 {
        // A point, and two vertices at one point.
        let p = random::near(rng, 64, 64);
        let q = random::near(rng, 64, 64);
        draw(run, rng, [p.0, p.1, p.0, p.1, p.0, p.1], Some(0));
        draw(run, rng, [p.0, p.1, q.0, q.1, p.0, p.1], Some(0));
        draw(run, rng, [p.0, p.1, p.0, p.1, q.0, q.1], Some(0));
        draw(run, rng, [q.0, q.1, p.0, p.1, p.0, p.1], Some(0));
        // Three vertices on a line.
        let (dx, dy) = (rng.between(-20, 20) as i32, rng.between(-20, 20) as i32);
        let along = |k: i64| (p.0 + k as i32 * dx, p.1 + k as i32 * dy);
        let (a, b, c) = (along(rng.between(-9, 9)), along(rng.between(-9, 9)), along(rng.between(-9, 9)));
        draw(run, rng, [a.0, a.1, b.0, b.1, c.0, c.1], Some(0));
    }
    // Thin ones: two long sides that run one or a few eighths apart.
    for _ in 0..3000 {
        let p = random::near(rng, 64, 64);
        let (dx, dy) = match rng.next() % 4 {
            0 => (rng.between(-512, 512), rng.between(-8, 8)),
            1 => (rng.between(-8, 8), rng.between(-512, 512)),
            2 => {
                let d = rng.between(-512, 512);
                (d, rng.pick(&[d, -d, d + 1, 1 - d, d / 2, 2 * d]))
            }
            _ => (rng.between(-512, 512), rng.between(-512, 512)),
        };
        let (ex, ey) = (rng.between(-8, 8), rng.between(-8, 8));
        let q = (p.0 + dx as i32, p.1 + dy as i32);
        let r = (q.0 + ex as i32, q.1 + ey as i32);
        for v in [[p.0, p.1, q.0, q.1, r.0, r.1], [p.0, p.1, r.0, r.1, q.0, q.1]] {
            draw(run, rng, v, None);
        }
    }
    // As long as can be, on the full size.
    let (screen, ram) = tight(20960);
    let any_row = |rng: &mut Rng| rng.between(i64::from(sample(0)), i64::from(sample(479))) as i32;
    for _ in 0..10 {
        let y = any_row(rng);
        for v in [
            [-8192, y, 8191, y, 8191, y + 1],
            [-8192, y - 1, 8191, y + 1, -8192, y],
            [sample(0), y, sample(639), any_row(rng), sample(639), y + 8],
        ] {
            let v = random::turned_right(v);
            let t = Triangle { blue: random::plane(rng), ..plain(v) };
            run.case(&Case::one(ram, Fill::Random(rng.next()), screen, Call::Draw(t)));
        }
    }
}

/// The columns of a screen this wide that are sampled from `left` to `right`,
/// both included.
fn columns_within(width: i32, (left, right): (i32, i32)) -> std::ops::Range<i32> {
    let first = (left - sample(0) + 7).div_euclid(8).max(0);
    let last = (right - sample(0)).div_euclid(8).min(width - 1);
    first..last + 1
}

/// From the left to the right of a triangle. First those of 1 to 18 eighths, at
/// every phase within a pixel: up to 7 they hold one column at most, and from 16
/// on two at least, whether or not one on the right side itself is counted. Then
/// those that reach far beyond the screen and hold one column of it, or none, or
/// two: the columns are what counts, not the width.
fn widths_of_one_column(width: i32) -> Vec<(i32, i32)> {
    let mut found = Vec::new();
    for column in [-2, -1, 0, 7, width - 2, width - 1] {
        for phase in 0..8 {
            found.extend((1..=18).map(|wide| (8 * column + phase, 8 * column + phase + wide)));
        }
    }
    for off in [-1, 0, 1, 7, 8, 9] {
        for far in [8192, 700, 19] {
            found.push((-far, sample(0) + off));
            found.push((sample(width - 1) - off, 8 * width + far.min(8191 - 8 * width)));
        }
    }
    found
}

/// From the top to the bottom of a triangle: over the whole height and beyond
/// it, up to the first row and not quite, from the last row on and not quite,
/// and within a row.
fn heights_of_one_column(height: i32) -> [(i32, i32); 10] {
    let (first, last, some) = (sample(0), sample(height - 1), sample(height / 2));
    [
        (-8192, 8191),
        (0, 8 * height),
        (first, last),
        (-50, first),
        (-50, first - 1),
        (last, last + 50),
        (last + 1, last + 50),
        (some - 4, some + 4),
        (some - 1, some + 1),
        (some, some + 9),
    ]
}

/// A triangle that reaches to all four sides of a box: with a vertex in one of
/// its corners and one on each side away from it, or two in opposite corners.
fn boxed(rng: &mut Rng, (left, right): (i32, i32), (top, bottom): (i32, i32)) -> [i32; 6] {
    // Often in a corner too, so that an edge runs down the column or along a row.
    let within = |rng: &mut Rng, low: i32, high: i32| {
        let any = rng.between(i64::from(low), i64::from(high)) as i32;
        rng.pick(&[low, high, any, any])
    };
    let (x, y) = (within(rng, left, right), within(rng, top, bottom));
    let v = match rng.next() % 6 {
        0 => [left, top, right, y, x, bottom],
        1 => [right, top, left, y, x, bottom],
        2 => [left, bottom, right, y, x, top],
        3 => [right, bottom, left, y, x, top],
        4 => [left, top, right, bottom, x, y],
        _ => [right, top, left, bottom, x, y],
    };
    let start = rng.next() as usize % 3;
    random::turned_right(std::array::from_fn(|k| v[(k + 2 * start) % 6]))
}

/// Vertices on one line within a box: two of them the same, on a column, or the
/// third halfway.
fn no_area(rng: &mut Rng, (left, right): (i32, i32), (top, bottom): (i32, i32)) -> [i32; 6] {
    let (right, bottom) = (right - (right - left) % 2, bottom - (bottom - top) % 2);
    let halfway = ((left + right) / 2, (top + bottom) / 2);
    match rng.next() % 3 {
        0 => [left, top, right, bottom, left, top],
        1 => [halfway.0, top, halfway.0, bottom, halfway.0, halfway.1],
        _ => [left, top, halfway.0, halfway.1, right, bottom],
    }
}

/// A plane that has a depth at a pixel, or misses it by one; how it goes on from
/// there is up to its steps.
fn around(rng: &mut Rng, depth: i32, (x, y): (i32, i32)) -> Plane {
    let step = |rng: &mut Rng| rng.pick(&[0, 0, 1, -1, 30_000, -30_000, 65536, -65536, 1 << 20, i32::MAX, i32::MIN]);
    let (a, b) = (step(rng), step(rng));
    let there = (depth + rng.pick(&[-1, 0, 1])) << 16 | rng.pick(&[0, 1, 0x8000, 0xffff]);
    Plane { c: there.wrapping_sub(a.wrapping_mul(x)).wrapping_sub(b.wrapping_mul(y)), a, b }
}

/// Draws a triangle so that its depth is below, equal to and above what is
/// stored; `pixel` is one that it may cover.
fn draw_around_stored(run: &mut Run, rng: &mut Rng, s: u32, v: [i32; 6], pixel: (i32, i32), covered: Option<u32>) {
    // With no byte to spare, or with some between the areas and around them.
    let (mut screen, mut ram) = tight(s);
    if rng.chance(2) {
        ram += 64;
        screen = random::sound_screen(rng, s, ram);
    }
    let mut t = Triangle { vertices: v.into(), ..covers_all(rng) };
    let mut calls = Vec::new();
    let fill = match rng.next() % 4 {
        // Any depths at all.
        0 => Fill::Random(rng.next()),
        // Those of another triangle, drawn the other way, at every pixel.
        1 => {
            let beneath = covers_all(rng);
            let c = beneath.depth.c.wrapping_add(rng.pick(&[-65536, -1, 0, 0, 1, 65536]));
            t.depth = Plane { c, ..beneath.depth };
            calls.push(Call::Draw(beneath));
            Fill::Byte(255)
        }
        // One depth everywhere, which the steps cross.
        _ => {
            let byte = rng.pick(&[0, 1, 127, 128, 254, 255]);
            t.depth = around(rng, i32::from(byte) * 257, pixel);
            Fill::Byte(byte)
        }
    };
    calls.push(Call::Draw(t));
    let case = Case { lead: (rng.next() % 16) as usize, ..Case::many(ram, fill, screen, &calls) };
    run.case_wants(&case, 0, covered, None);
}

/// A triangle whose sample points can lie in one column of the screen alone is
/// drawn down that column pixel by pixel, every other one another way. Nothing may
/// tell which it was: triangles on both sides of what divides them.
fn one_column(run: &mut Run, rng: &mut Rng) {
    let mut by_columns = [0; 3];
    let mut draw = |run: &mut Run, rng: &mut Rng, s: u32, across: (i32, i32), down: (i32, i32)| {
        let (width, height) = ((s / 512 * 16) as i32, (s % 512) as i32);
        let columns = columns_within(width, across);
        by_columns[columns.len().min(2)] += 1;
        let row = rng.between(i64::from(down.0), i64::from(down.1)) as i32 >> 3;
        let pixel = (columns.start.min(width - 1), row.clamp(0, height - 1));
        let none = if columns.is_empty() { Some(0) } else { None };
        let v = boxed(rng, across, down);
        draw_around_stored(run, rng, s, v, pixel, none);
        if rng.chance(4) && random::twice_area(v) > 0 {
            let back = [v[4], v[5], v[2], v[3], v[0], v[1]];
            draw_around_stored(run, rng, s, back, pixel, Some(0));
        }
        if rng.chance(8) {
            let line = no_area(rng, across, down);
            draw_around_stored(run, rng, s, line, pixel, Some(0));
        }
    };
    for across in widths_of_one_column(16) {
        for down in heights_of_one_column(4) {
            draw(run, rng, size(1, 4), across, down);
        }
    }
    // Every column of two groups, and any rows.
    for turn in 0..4000 {
        let left = rng.between(-20, 8 * 32 + 4) as i32;
        let top = rng.between(-40, 8 * 20 + 8) as i32;
        let high = rng.pick(&[8, 40, 8 * 20 + 40]);
        let down = (top, top + rng.between(1, high) as i32);
        let down = if rng.chance(4) { rng.pick(&heights_of_one_column(20)) } else { down };
        draw(run, rng, size(2, 20), (left, left + 1 + turn % 18), down);
    }
    // The farthest columns there are.
    let (widths, heights) = (widths_of_one_column(640), heights_of_one_column(480));
    for _ in 0..8 {
        let (across, down) = (rng.pick(&widths), rng.pick(&heights));
        draw(run, rng, 20960, across, down);
    }
    let [none, one, two] = by_columns;
    run.note(format!("{none} boxes hold no column, {one} hold one, {two} hold two or more"));
}

/// Triangles wholly off the screen cover none; others reach far beyond it.
fn far(run: &mut Run, rng: &mut Rng) {
    let s = size(2, 24);
    let (screen, ram) = tight(s);
    let (first, right, below) = (sample(0), sample(31), sample(23));
    for _ in 0..500 {
        let any = |rng: &mut Rng| rng.between(-8192, 8191) as i32;
        let before = |rng: &mut Rng| rng.between(-8192, i64::from(first) - 1) as i32;
        let behind = |rng: &mut Rng, last: i32| rng.between(i64::from(last) + 1, 8191) as i32;
        let mut v = [any(rng), any(rng), any(rng), any(rng), any(rng), any(rng)];
        let side = rng.next() % 5;
        for k in 0..3 {
            match side {
                0 => v[2 * k] = before(rng),
                1 => v[2 * k] = behind(rng, right),
                2 => v[2 * k + 1] = before(rng),
                3 => v[2 * k + 1] = behind(rng, below),
                _ => {}
            }
        }
        let v = random::turned_right(v);
        let covered = if side < 4 { Some(0) } else { None };
        let t = Triangle { red: random::plane(rng), ..plain(v) };
        run.case_wants(&Case::one(ram, Fill::Random(rng.next()), screen, Call::Draw(t)), 0, covered, None);
    }
    // One eighth, one pixel and half a pixel off the first and the last sample
    // points of the screen.
    for off in [-9, -8, -7, -4, -1, 0, 1, 4, 7, 8, 9] {
        let (first, right, below) = (first + off, right + off, below + off);
        for v in [
            [first, -8192, first, 8191, -8192, 0],
            [first, 8191, first, -8192, 8191, 0],
            [right, -8192, right, 8191, -8192, 0],
            [right, 8191, right, -8192, 8191, 0],
            [-8192, first, 8191, first, 0, 8191],
            [8191, first, -8192, first, 0, -8192],
            [-8192, below, 8191, below, 0, 8191],
            [8191, below, -8192, below, 0, -8192],
        ] {
            let t = Triangle { green: random::plane(rng), ..plain(v) };
            run.case(&Case::one(ram, Fill::Random(rng.next()), screen, Call::Draw(t)));
        }
    }
    run.case_wants(&Case::one(ram, Fill::Byte(255), screen, Call::Draw(plain(ALL))), 0, Some(32 * 24), Some(32 * 24));
}

/// All triangles with numbers -8192 and 8191 alone, on the largest screen:
/// the edge values farthest from 0. None reaches 7.
fn largest_edges(run: &mut Run, rng: &mut Rng) {
    let (screen, ram) = tight(20960);
    for bits in 0..64 {
        let v = [0, 1, 2, 3, 4, 5].map(|k| if bits >> k & 1 == 0 { -8192 } else { 8191 });
        let t = Triangle { green: flat(5), depth: flat(0x4000), ..plain(v) };
        run.case_wants(&Case::one(ram, Fill::Random(rng.next()), screen, Call::Draw(t)), 0, None, None);
    }
}

/// Nearly the longest edges, placed so that their value at a pixel of the
/// largest screen's last rows is -1, 0 or 1: the least that rounding summed
/// over all rows could turn. Rounded up too far, it turns those with 1 or -1, by
/// the edge's direction; rounded down, those with 0.
fn long_edges(run: &mut Run, rng: &mut Rng) {
    let (screen, ram) = tight(20960);
    let in_range = |v: i64| (-8192..=8191).contains(&v);
    let sampled = |rng: &mut Rng, low: i64, high: i64| i64::from(sample(rng.between(low, high) as i32));
    let mut turn = 0;
    while turn < 240 {
        let (short, value) = (rng.between(0, 300), turn % 3 - 1);
        let (dy, y1) = (16383 - short, -8192 + rng.between(0, short));
        let up = sampled(rng, 470, 479) - y1;
        let (divisor, inverse) = euclid(up, dy);
        // A zero off the edge's ends needs a common divisor, the other values need none.
        if (value == 0) == (divisor == 1) {
            continue;
        }
        // up * dx - left * dy is the value.
        let dx = if value == 0 {
            dy / divisor * rng.between(1 - divisor, divisor - 1)
        } else {
            (value * inverse).rem_euclid(dy) - if rng.chance(2) { dy } else { 0 }
        };
        let left = (up * dx - value) / dy;
        let x1 = sampled(rng, 0, 639) - left;
        if !in_range(x1) || !in_range(x1 + dx) {
            continue;
        }
        let side = if rng.chance(2) { -8192 } else { 8191 };
        let v = [x1, y1, x1 + dx, y1 + dy, side, rng.between(-8192, 8191)].map(|n| n as i32);
        let v = if rng.chance(8) { v } else { random::turned_right(v) };
        let t = Triangle { green: flat(5), depth: flat(0x4000), ..plain(v) };
        run.case(&Case::one(ram, Fill::Random(rng.next()), screen, Call::Draw(t)));
        turn += 1;
    }
}

/// The greatest common divisor of a and n, and what a is multiplied by to give
/// it, modulo n.
pub fn euclid(a: i64, n: i64) -> (i64, i64) {
    let (mut r, mut next, mut s, mut t) = (a % n, n, 1, 0);
    while next != 0 {
        let q = r / next;
        (r, next) = (next, r - q * next);
        (s, t) = (t, s - q * t);
    }
    (r, s.rem_euclid(n))
}

/// "Two triangles that run along a common edge of non-zero length in opposite
/// directions cover no common pixel."
fn shared_edges(run: &mut Run, rng: &mut Rng) {
    let s = size(2, 24);
    for turn in 0..4000 {
        let p = random::near(rng, 32, 24);
        let q = if rng.chance(3) { (p.0, rng.between(-8, 200) as i32) } else { random::near(rng, 32, 24) };
        if p == q {
            continue;
        }
        // On a common line, the second edge may be another part of it.
        let (p2, q2) = if rng.chance(3) {
            let (dx, dy) = (q.0 - p.0, q.1 - p.1);
            let (i, j) = (rng.between(-2, 2) as i32, rng.between(1, 3) as i32);
            ((p.0 + i * dx, p.1 + i * dy), (p.0 + (i + j) * dx, p.1 + (i + j) * dy))
        } else {
            (p, q)
        };
        let (c, d) = (random::near(rng, 32, 24), random::near(rng, 32, 24));
        let mut first = [p.0, p.1, q.0, q.1, c.0, c.1];
        let mut second = [q2.0, q2.1, p2.0, p2.1, d.0, d.1];
        if turn % 8 != 0 {
            // Mostly one on each side, so that both cover something.
            if random::twice_area(first) < 0 {
                (first, second) = ([q.0, q.1, p.0, p.1, c.0, c.1], [p2.0, p2.1, q2.0, q2.1, d.0, d.1]);
            }
            if random::twice_area(second) < 0 {
                let mirrored = (p.0 + q.0 - c.0, p.1 + q.1 - c.1);
                (second[4], second[5]) = mirrored;
            }
        }
        let (one, other) = (covered_pixels(run, s, first), covered_pixels(run, s, second));
        if let (Some(one), Some(other)) = (one, other) {
            let common = one.iter().zip(&other).filter(|(a, b)| **a && **b).count();
            run.holds(common == 0, || format!("{first:?} and {second:?} cover {common} common pixels"));
        }
        // The other way around each covers none where it covered some.
        let back = [first[4], first[5], first[2], first[3], first[0], first[1]];
        if let Some(pixels) = covered_pixels(run, s, back) {
            let holds = random::twice_area(first) <= 0 || pixels.iter().all(|&covered| !covered);
            run.holds(holds, || format!("{back:?} is turned the other way and covers some pixel"));
        }
    }
}

/// Triangles around a common vertex that fill a frame around the screen: each
/// pixel is covered by exactly one.
fn fans(run: &mut Run, rng: &mut Rng) {
    for turn in 0..300 {
        let (groups, height) = rng.pick(&[(1, 4), (1, 16), (2, 9), (2, 24), (4, 32)]);
        let (first, right, below) = (sample(0), sample(16 * groups as i32 - 1), sample(height as i32 - 1));
        let margin = rng.pick(&[8, 16, 64, 1, 3, 1000]);
        let (x0, y0, x1, y1) = (first - margin, first - margin, right + margin, below + margin);
        // The common vertex, often on a sample point, sometimes on the frame's
        // very corner pixel.
        let any = |rng: &mut Rng, last: i32| rng.between(i64::from(first), i64::from(last)) as i32;
        let mut centre = (any(rng, right), any(rng, below));
        if turn % 2 == 0 {
            centre = (onto_sample(centre.0), onto_sample(centre.1));
        }
        let on_grid = |n: i64| if turn % 3 == 0 { onto_sample(n as i32) } else { n as i32 };
        // Around the frame: top to the right, right side down, bottom to the
        // left, left side up; corners always included.
        let mut ring = Vec::new();
        let sides = rng.between(0, 4) as usize;
        let cuts = |rng: &mut Rng, low: i32, high: i32| {
            let mut found: Vec<i32> =
                (0..sides).map(|_| on_grid(rng.between(i64::from(low), i64::from(high))).clamp(low, high)).collect();
            found.push(low);
            found.sort();
            found.dedup();
            found.retain(|&n| n < high);
            found
        };
        let (top, side) = (cuts(rng, x0, x1), cuts(rng, y0, y1));
        let (bottom, other) = (cuts(rng, x0, x1), cuts(rng, y0, y1));
        ring.extend(top.iter().map(|&x| (x, y0)));
        ring.extend(side.iter().map(|&y| (x1, y)));
        ring.extend(bottom.iter().map(|&x| (x1 - (x - x0), y1)));
        ring.extend(other.iter().map(|&y| (x0, y1 - (y - y0))));
        let mut times = vec![0; (16 * groups * height) as usize];
        let mut whole = true;
        for k in 0..ring.len() {
            let (p, q) = (ring[k], ring[(k + 1) % ring.len()]);
            match covered_pixels(run, size(groups, height), [centre.0, centre.1, p.0, p.1, q.0, q.1]) {
                Some(pixels) => pixels.iter().zip(&mut times).for_each(|(&covered, n)| *n += i32::from(covered)),
                None => whole = false,
            }
        }
        if whole {
            let wrong = times.iter().filter(|&&n| n != 1).count();
            run.holds(wrong == 0, || {
                format!("fan around {centre:?} over {ring:?}: {wrong} pixels not covered exactly once")
            });
        }
    }
}

/// "A covered pixel is written, colour and depth, if its depth is at most the
/// stored depth. ... Depth is an unsigned half-word."
fn depth(run: &mut Run, rng: &mut Rng) {
    let (screen, ram) = tight(size(1, 4));
    let edges = [0u16, 1, 2, 255, 256, 32766, 32767, 32768, 32769, 65279, 65280, 65534, 65535];
    for stored in edges {
        for new in edges {
            for low in [0, 1, 0x8000, 0xffff] {
                let c = (u32::from(new) << 16 | low) as i32;
                let t = Triangle { depth: Plane { c, a: 0, b: 0 }, red: flat(21), ..plain(STARRED_FIRST) };
                let calls = [Call::Clear { colour: 0xffff, depth: stored }, Call::Draw(t)];
                let written = if new <= stored { FIRST_COVERS } else { 0 };
                let case = Case::many(ram, Fill::Random(rng.next()), screen, &calls);
                run.case_wants(&case, 0, Some(FIRST_COVERS), Some(written));
            }
        }
    }
    // Equal depth: the later one is seen, whoever comes first; a nearer one
    // keeps its place.
    for (first, second, passes) in [
        (5, 5, true),
        (5, 4, true),
        (5, 6, false),
        (65535, 0, true),
        (0, 65535, false),
        (65535, 65535, true),
        (0, 0, true),
    ] {
        let one = Triangle { depth: flat(first), blue: flat(1), ..plain(STARRED_FIRST) };
        let two = Triangle { depth: flat(second), blue: flat(2), ..plain(STARRED_FIRST) };
        let calls = [Call::Clear { colour: 0, depth: 65535 }, Call::Draw(one), Call::Draw(two)];
        let case = Case::many(ram, Fill::Random(rng.next()), screen, &calls);
        run.case_wants(&case, 0, Some(FIRST_COVERS), Some(if passes { FIRST_COVERS } else { 0 }));
    }
    // Depth planes that cross each other, and steps of a fraction of a depth.
    let (screen, ram) = tight(size(2, 16));
    for _ in 0..300 {
        let slope = |rng: &mut Rng| rng.pick(&[0, 1, -1, 4096, -4096, 65536, -65536, 65535, 1 << 20, -(1 << 20)]);
        let plane =
            |rng: &mut Rng| Plane { c: rng.between(0, 40) as i32 * 65536 + 32768, a: slope(rng), b: slope(rng) };
        let mut calls = vec![Call::Clear { colour: 0, depth: rng.pick(&[65535, 20, 0]) }];
        for _ in 0..3 {
            let mut t = covers_all(rng);
            t.depth = plane(rng);
            if rng.chance(2) {
                t.vertices = random::triangle(rng, 32, 16).vertices;
            }
            calls.push(Call::Draw(t));
        }
        run.case(&Case::many(ram, Fill::Random(rng.next()), screen, &calls));
    }
}

/// "At pixel (x, y) a plane has c + a·x + b·y, taken modulo 2^32."
fn planes(run: &mut Run, rng: &mut Rng) {
    let values = [
        i32::MIN,
        i32::MIN + 1,
        -(1 << 30),
        -65537,
        -65536,
        -65535,
        -2,
        -1,
        0,
        1,
        2,
        65535,
        65536,
        65537,
        1 << 20,
        1 << 21,
        1 << 22,
        1 << 30,
        i32::MAX - 1,
        i32::MAX,
    ];
    let (screen, ram) = tight(size(4, 32));
    let draw = |run: &mut Run, rng: &mut Rng, fields: [[i32; 3]; 4]| {
        let p = fields.map(|[c, a, b]| Plane { c, a, b });
        let t = Triangle { depth: p[0], red: p[1], green: p[2], blue: p[3], ..plain(ALL) };
        for fill in [Fill::Byte(255), Fill::Random(rng.next())] {
            run.case_wants(&Case::one(ram, fill, screen, Call::Draw(t)), 0, Some(64 * 32), None);
        }
    };
    // One number at a time, in every field of every plane.
    for plane in 0..4 {
        for field in 0..3 {
            for value in values {
                let mut fields = [[0; 3]; 4];
                fields[plane][field] = value;
                draw(run, rng, fields);
            }
        }
    }
    // Extreme numbers together.
    for _ in 0..300 {
        let fields = [[(); 3]; 4].map(|row| row.map(|()| rng.pick(&values)));
        draw(run, rng, fields);
    }
    // The farthest pixel of the largest screen.
    let (screen, ram) = tight(20960);
    for value in [i32::MIN, i32::MAX, -1, 1, 65536] {
        let p = Plane { c: value, a: value, b: value };
        let t = Triangle { depth: NO_PLANE, red: p, green: p, blue: p, ..plain(ALL) };
        run.case(&Case::one(ram, Fill::Byte(255), screen, Call::Draw(t)));
        let t = Triangle { depth: p, ..t };
        run.case(&Case::one(ram, Fill::Random(rng.next()), screen, Call::Draw(t)));
    }
}

/// "Both orders give the same memory exactly if, at each pixel that both
/// cover, the depths differ, or both lie above the depth stored before, or the
/// colours are equal."
fn two_orders(run: &mut Run, rng: &mut Rng) {
    let s = size(2, 12);
    let (screen, ram) = tight(s);
    let (mut same, mut different) = (0, 0);
    for _ in 0..2000 {
        let depth = |rng: &mut Rng| Plane {
            c: rng.between(0, 3) as i32 * 65536,
            a: rng.pick(&[0, 0, 0, 4096, 65536]),
            b: rng.pick(&[0, 0, 0, 4096, -4096]),
        };
        let mut first = random::triangle(rng, 32, 12);
        let mut second = random::triangle(rng, 32, 12);
        (first.depth, second.depth) = (depth(rng), depth(rng));
        if rng.chance(2) {
            second.depth = first.depth;
        }
        if rng.chance(3) {
            (second.red, second.green, second.blue) = (first.red, first.green, first.blue);
        }
        // A depth stored before: from random bytes, or the same everywhere.
        let stored = rng.pick(&[None, Some(65535), Some(65535), Some(1), Some(2)]);
        let seed = rng.next();
        let mut ends = Vec::new();
        for pair in [[first, second], [second, first]] {
            let mut calls: Vec<Call> = stored.iter().map(|&depth| Call::Clear { colour: 0, depth }).collect();
            calls.extend(pair.map(Call::Draw));
            if run.case(&Case::many(ram, Fill::Random(seed), screen, &calls)).is_some() {
                ends.push(run.memories.subject_ram().to_vec());
            }
        }
        if ends.len() < 2 {
            continue;
        }
        let mut before = vec![0; ram];
        Fill::Random(seed).apply(&mut before);
        let (one, two) = (second_triangle(&first), second_triangle(&second));
        let mut wanted = true;
        for y in 0..12 {
            for x in 0..32 {
                if !(second::covers(&one, x, y) && second::covers(&two, x, y)) {
                    continue;
                }
                let was = match stored {
                    Some(depth) => i128::from(depth),
                    None => second::half_word(&before, i128::from(screen.depth_start) + (y * 32 + x) * 2),
                };
                let depths = (second::depth_at(&one, x, y), second::depth_at(&two, x, y));
                let equal_colours = second::colour_at(&one, x, y) == second::colour_at(&two, x, y);
                wanted &= depths.0 != depths.1 || (depths.0 > was && depths.1 > was) || equal_colours;
            }
        }
        let seen = ends[0] == ends[1];
        if seen {
            same += 1;
        } else {
            different += 1;
        }
        run.holds(seen == wanted, || {
            format!("{first:?}, {second:?}, stored depth {stored:?}, fill {seed}: orders agree {seen}, wanted {wanted}")
        });
    }
    run.note(format!("{same} pairs end the same in both orders, {different} do not"));
}
