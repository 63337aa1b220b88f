//! Why a pixel is what it is: of each line of a scene, whether it covers the
//! pixel, its depth against the stored one, and whether it was written. What is
//! said to be covered or written was asked of the engine, on copies; the edge
//! values say why.

use crate::problem::{self, Place, Problem};
use crate::scene::{Item, Scene};
use kit::pixels::halves;
use merikohin::{Plane, Refusal, Screen, Triangle};

/// A pixel is sampled at the point (8x + 4, 8y + 4), its centre.
const SAMPLE_OFFSET: i32 = 4;

/// Whether a triangle wrote the pixel.
pub fn why(scene: &Scene, x: u32, y: u32) -> Result<bool, Problem> {
    let screen = scene.screen;
    if x >= screen.width() || y >= screen.height() {
        let value = format!("({x}, {y}) of {} by {}", screen.width(), screen.height());
        return Err(Problem::new(problem::OFF_SCREEN, value).at(Place::file(&scene.file)));
    }
    let mut ram = scene.ram();
    let mut wrote = false;
    for (line, item) in &scene.items {
        let before = ram.clone();
        scene.draw(&mut ram, *line, *item)?;
        match item {
            Item::Clear { colour, depth } => println!("line {line}: clear: colour {colour:04x}, depth {depth}"),
            Item::Triangle(triangle) => {
                let answer = ask(screen, &before, triangle, x, y);
                println!("line {line}: triangle: {}", told(triangle, &answer, x, y));
                wrote |= answer.map_or(false, |answer| answer.written);
            }
        }
    }
    let (colour, depth) = pixel(&ram, screen, x, y);
    println!("now: colour {colour:04x}, depth {depth}");
    Ok(wrote)
}

/// What a triangle that covers the pixel does there.
struct Answer {
    depth: u16,
    stored: u16,
    written: bool,
    colour: u16,
}

/// The engine's answer; none where the pixel is not covered. Its clears and
/// triangles are accepted here, since the scene's own was.
fn ask(screen: Screen, before: &[u8], triangle: &Triangle, x: u32, y: u32) -> Option<Answer> {
    // Alone on a cleared screen, and in a colour of its own, it leaves that colour exactly where it covers.
    let mut alone = before.to_vec();
    let marked = Triangle { vertices: triangle.vertices, blue: flat(1), ..Triangle::default() };
    let _ = merikohin::clear(&mut alone, screen, 0, 65535).and_then(|()| merikohin::draw(&mut alone, screen, marked));
    if pixel(&alone, screen, x, y).0 == 0 {
        return None;
    }
    // Once more as it is, before a screen as far as can be: its depth and colour.
    let _ =
        merikohin::clear(&mut alone, screen, 0, 65535).and_then(|()| merikohin::draw(&mut alone, screen, *triangle));
    let (colour, depth) = pixel(&alone, screen, x, y);
    // In a colour that does not stand there yet, on what was there: written where that colour is then.
    let (was, stored) = pixel(before, screen, x, y);
    let other = flat(if was & 31 == 1 { 2 } else { 1 });
    let mut tried = before.to_vec();
    let _ = merikohin::draw(&mut tried, screen, Triangle { red: flat(0), green: flat(0), blue: other, ..*triangle });
    let written = pixel(&tried, screen, x, y).0 & 31 == (other.c >> 16) as u16;
    Some(Answer { depth, stored, written, colour })
}

fn flat(value: i32) -> Plane {
    Plane { c: value << 16, a: 0, b: 0 }
}

/// A pixel's colour and depth. The scene's screen is sound, and the pixel on it.
fn pixel(ram: &[u8], screen: Screen, x: u32, y: u32) -> (u16, u16) {
    let of = |row: Result<&[u8], Refusal>| halves(row.ok()?).nth(x as usize);
    let both = of(merikohin::row(ram, screen, y)).zip(of(merikohin::depth_row(ram, screen, y)));
    both.expect("a pixel of a sound screen")
}

fn told(triangle: &Triangle, answer: &Option<Answer>, x: u32, y: u32) -> String {
    let edges = edges(triangle, x, y);
    let values: Vec<String> = edges.iter().map(|edge| edge.value.to_string()).collect();
    let values = values.join(", ");
    match answer {
        Some(answer) => {
            let Answer { depth, stored, colour, .. } = answer;
            let fate =
                if answer.written { format!("written, colour {colour:04x}") } else { "hidden, not written".into() };
            format!("covers it (edge values {values}); depth {depth}, stored {stored}: {fate}")
        }
        None => {
            let outside = edges.iter().enumerate().filter(|(_, edge)| !edge.inside);
            let names: Vec<String> =
                outside.map(|(k, edge)| format!("edge {} is {}{}", k + 1, edge.value, edge.tie())).collect();
            format!("does not cover it (edge values {values}): {}", names.join(", "))
        }
    }
}

struct Edge {
    value: i64,
    inside: bool,
}

impl Edge {
    fn tie(&self) -> &'static str {
        if self.value == 0 {
            ", and zero is outside of it"
        } else {
            ""
        }
    }
}

/// The three edge values at the pixel's sample point, and on which side each is.
fn edges(triangle: &Triangle, x: u32, y: u32) -> [Edge; 3] {
    let [x1, y1, x2, y2, x3, y3] = triangle.vertices.numbers().map(i64::from);
    let [px, py] = [x, y].map(|place| 8 * i64::from(place) + i64::from(SAMPLE_OFFSET));
    [(x1, y1, x2, y2), (x2, y2, x3, y3), (x3, y3, x1, y1)].map(|(x1, y1, x2, y2)| {
        let (dx, dy) = (x2 - x1, y2 - y1);
        let value = (py - y1) * dx - (px - x1) * dy;
        Edge { value, inside: value > 0 || value == 0 && (dy < 0 || dy == 0 && dx > 0) }
    })
}

#[cfg(test)]
mod tests {
    use super::*;
    use kit::rng::Rng;

    /// The edge values that are told and the engine's coverage agree, and so do
    /// depth and fate; also where a sample point is on an edge.
    #[test]
    fn told_as_the_engine_has_it() {
        let mut rng = Rng::new(3);
        let screen = Screen::new(0, 1024, 32, 16);
        let mut ties = 0;
        for turn in 0..3000 {
            // Every other triangle has its vertices on sample points.
            let step = if turn % 2 == 0 { 8 } else { 1 };
            let mut v = [0; 6].map(|_: i32| rng.between(-40, 300) as i32 / step * step + SAMPLE_OFFSET);
            // Upright and level edges, and pixels in the first vertex's row, where such an edge is 0.
            match turn % 5 {
                0 => v[2] = v[0],
                1 | 2 => v[3] = v[1],
                _ => {}
            }
            let depth = flat(rng.between(0, 4) as i32);
            let triangle = Triangle { vertices: v.into(), depth, red: flat(3), ..Triangle::default() };
            let mut ram = vec![0; 2048];
            let (was, stored) = (rng.next() as u16, rng.between(0, 4) as u16);
            merikohin::clear(&mut ram, screen, was, stored).unwrap();
            let first = i64::from((v[1] - SAMPLE_OFFSET) / 8);
            let row = if turn % 2 == 0 { first.clamp(0, 15) } else { rng.between(0, 15) };
            let (x, y) = (rng.between(0, 31) as u32, row as u32);
            let answer = ask(screen, &ram, &triangle, x, y);
            let edges = edges(&triangle, x, y);
            assert_eq!(answer.is_some(), edges.iter().all(|edge| edge.inside), "{triangle:?}");
            ties += edges.iter().filter(|edge| edge.value == 0).count();
            merikohin::draw(&mut ram, screen, triangle).unwrap();
            let now = pixel(&ram, screen, x, y);
            match answer {
                Some(answer) if answer.written => assert_eq!(now, (answer.colour, answer.depth)),
                _ => assert_eq!(now, (was, stored)),
            }
            if let Some(answer) = ask(screen, &ram, &triangle, x, y) {
                assert_eq!(answer.written, answer.depth <= answer.stored);
            }
        }
        assert!(ties > 250, "{ties}");
    }
}
