//! What 02 says of two panels, and of a panel and its triangles.

use super::case::{Case, Recording};
use super::check::second_input;
use super::random;
use crate::case::{second_screen, Fill};
use crate::groups::size;
use crate::run::Run;
use kit::rng::Rng;
use merikohin::{Plane, Triangle};
use second::panel::{bar, bar_in_triangles, in_triangles, Diagonal};

/// The subject's RAM after a panel, and the count; none if it already mismatched.
fn drawn(run: &mut Run, case: &Case) -> Option<(Vec<u8>, u32)> {
    let seen = run.panel(case)?;
    run.holds(seen.number == 0, || format!("{case}: refused with {}", seen.number));
    Some((run.memories.subject_ram().to_vec(), seen.pixels))
}

/// "For d from 0 to the length, the result equals offset 0 on the recording
/// without its first d samples." (d is at most 2,047.)
pub fn shorter(run: &mut Run, rng: &mut Rng) {
    for _ in 0..2000 {
        let case = random::accepted(rng);
        let most = case.count().min(2047) as i64;
        let any = rng.between(0, most);
        let d = rng.pick(&[0, 1.min(most), most, (most - 1).max(0), any, any, any]);
        let at_d = Case { offset: d as i32, ..case.clone() };
        let without = Case { offset: 0, without: d as usize, ..case };
        let (Some(first), Some(second)) = (drawn(run, &at_d), drawn(run, &without)) else { continue };
        run.holds(first == second, || format!("{at_d}: not as offset 0 without the first {d} samples"));
    }
}

/// Offset d + n puts in column x what d puts in column x + 1: from a ground that is
/// everywhere the same, the same bytes a pixel further to the left.
pub fn moved(run: &mut Run, rng: &mut Rng) {
    for _ in 0..2000 {
        let case = Case { fill: Fill::Byte(rng.pick(&[0, 255, 7])), ..random::accepted(rng) };
        let most = i64::from(2047 - case.per_column);
        let (any, near) = (rng.between(-2048, most), rng.between(-70, 70));
        let d = rng.pick(&[i64::from(case.offset).min(most), any, near, most]);
        let at_d = Case { offset: d as i32, ..case };
        let further = Case { offset: at_d.offset + at_d.per_column, ..at_d.clone() };
        let (Some((first, _)), Some((second, _))) = (drawn(run, &at_d), drawn(run, &further)) else { continue };
        let row = 2 * at_d.width() as usize;
        let holds = [at_d.screen.colour_start, at_d.screen.depth_start].iter().all(|&start| {
            let rows = (0..at_d.height() as usize).map(|y| start as usize + y * row);
            rows.into_iter().all(|at| first[at + 2..at + row] == second[at..at + row - 2])
        });
        run.holds(holds, || format!("{at_d}: not what offset {} has a column to the left", further.offset));
    }
}

/// A triangle of the second program as the engine has it.
fn engine_triangle(t: &second::Triangle) -> Triangle {
    let plane = |p: second::Plane| Plane { c: p.c, a: p.a, b: p.b };
    let [p, q, r] = t.vertices;
    Triangle {
        vertices: [p.x, p.y, q.x, q.y, r.x, r.y].into(),
        depth: plane(t.depth),
        red: plane(t.red),
        green: plane(t.green),
        blue: plane(t.blue),
    }
}

/// The panel once more, by the subject's own drawing of each bar's two triangles:
/// its RAM, pixels covered and pixels written.
fn by_draw(run: &Run, case: &Case, diagonal: Diagonal) -> (Vec<u8>, u32, u32) {
    let (samples, mut ram) = (case.samples(), case.ram_with(&[]));
    let (mut covered, mut written) = (0, 0);
    for x in 0..i128::from(case.width()) {
        let rows = bar(&second_input(case, &samples), i128::from(case.height()), x);
        let triangles = rows.map(|(first, last)| bar_in_triangles(x, first, last, case.colour, diagonal));
        for triangle in triangles.into_iter().flatten() {
            let drawn = run.subject.draw(&mut ram, case.screen, engine_triangle(&triangle));
            covered += drawn.covered;
            written += drawn.written;
        }
    }
    (ram, covered, written)
}

/// The same by the second program's drawing.
fn by_second_draw(case: &Case, diagonal: Diagonal) -> (Vec<u8>, u32, u32) {
    let (samples, mut ram) = (case.samples(), case.ram_with(&[]));
    let drawn = in_triangles(&mut ram, second_screen(case.screen), &second_input(case, &samples), diagonal);
    (ram, drawn.covered, drawn.written)
}

/// Whether triangles leave what the panel left, by either diagonal.
fn as_triangles(run: &mut Run, case: &Case, second_too: bool) {
    let Some((ram, pixels)) = drawn(run, case) else { return };
    let wanted = (ram, pixels, pixels);
    for diagonal in [Diagonal::Rising, Diagonal::Falling] {
        let holds = by_draw(run, case, diagonal) == wanted;
        run.holds(holds, || format!("{case}: not what its triangles draw, {diagonal:?}"));
        if second_too {
            let holds = by_second_draw(case, diagonal) == wanted;
            run.holds(holds, || format!("{case}: not what the second program's triangles draw, {diagonal:?}"));
        }
    }
}

/// "Each bar is two triangles with a common diagonal, and exactly those pixels get
/// the colour."
pub fn two_triangles(run: &mut Run, rng: &mut Rng) {
    for turn in 0..120 {
        let s = size(1, rng.pick(&[1, 2, 3, 4, 8, 13]));
        let n = rng.pick(&[1, 2, 3, 10, 64]);
        let count = rng.between(0, 20 * i64::from(n)) as usize;
        let case = Case::new(s, Recording::Random(rng.next(), count), n, rng.between(-20, 20) as i32);
        let fill = if turn % 2 == 0 { Fill::Byte(255) } else { Fill::Random(rng.next()) };
        as_triangles(run, &Case { fill, colour: rng.next() as u16, ..case }, true);
    }
}

/// The same where vertices are largest: the last column, and then all of them.
pub fn two_triangles_full_size(run: &mut Run, rng: &mut Rng) {
    let s = size(40, 480);
    for samples in [vec![i16::MIN, i16::MAX], vec![i16::MIN; 2]] {
        let case = Case::new(s, Recording::List(samples), 2, -2 * 639);
        as_triangles(run, &case, true);
    }
    // The engine alone is fast enough for all columns.
    if run.subject == crate::subject::Subject::Engine {
        for (n, d) in [(64, 0), (3, -100), (1, 2047)] {
            let case = Case::new(s, Recording::Random(rng.next(), 40_960), n, d);
            as_triangles(run, &Case { fill: Fill::Random(rng.next()), ..case }, false);
        }
    }
}
