//! A triangle given by its vertices, each with its colour and its depth; and why
//! the engine has no planes for it, in the words of whoever wrote the line.

use crate::problem::{self, Problem};
use crate::scene::{colour, number, vertex_out_of_range};
use merikohin::{Refusal, Triangle, Vertex, Vertices};
use std::cmp::Ordering;

const FORM: &str = "triangle vertex x y colour depth vertex x y colour depth vertex x y colour depth";

/// How many words a vertex has.
const WORDS: usize = 5;

pub fn read_triangle(words: &[&str]) -> Result<Triangle, Problem> {
    if words.len() != 3 * WORDS || words.iter().step_by(WORDS).any(|word| *word != "vertex") {
        return Err(Problem::new(problem::LINE, FORM));
    }
    let mut vertices = [Vertex::default(); 3];
    for (k, vertex) in vertices.iter_mut().enumerate() {
        let word = |place: usize| words[k * WORDS + place];
        let name = |name: &str| format!("{name}{}", k + 1);
        vertex.x = number(&name("x"), word(1))?;
        vertex.y = number(&name("y"), word(2))?;
        vertex.colour = colour(&name("colour"), word(3))?;
        vertex.depth = number(&name("depth"), word(4))?;
    }
    Triangle::through(vertices).map_err(|refusal| {
        let value = match refusal {
            Refusal::NoPlane => no_plane(vertices),
            _ => vertex_out_of_range(vertices.into()),
        };
        Problem::refused(refusal, value)
    })
}

/// Which of the reasons of number 9 it is. The engine says that it is one of them.
fn no_plane(vertices: [Vertex; 3]) -> String {
    let far = vertices.iter().position(|vertex| i32::from(vertex.depth) > merikohin::VALUE_MOST);
    match (far, doubled_area(vertices.into()).cmp(&0)) {
        (Some(k), _) => format!("depth{} = {}", k + 1, vertices[k].depth),
        (None, Ordering::Less) => {
            "the vertices go round anticlockwise, which covers nothing: exchange two of them".into()
        }
        (None, Ordering::Equal) => "the vertices are on one line, which covers nothing".into(),
        (None, Ordering::Greater) => too_steep(vertices),
    }
}

fn doubled_area(v: Vertices) -> i64 {
    let [x1, y1, x2, y2, x3, y3] = v.numbers().map(i64::from);
    (x2 - x1) * (y3 - y1) - (x3 - x1) * (y2 - y1)
}

/// The parts whose plane the engine refuses.
fn too_steep(vertices: [Vertex; 3]) -> String {
    let values = |k: usize| vertices.map(|vertex| vertex.values()[k]);
    let refused = |k: &usize| merikohin::plane_through(vertices.into(), values(*k).into()).is_err();
    let names: Vec<&str> = (0..4).filter(refused).map(|k| ["depth", "red", "green", "blue"][k]).collect();
    format!("{}: too steep, outside -32768..32767 at pixel (0, 0) or from one pixel to the next", names.join(", "))
}

#[cfg(test)]
mod tests {
    use super::*;

    fn told(line: &str) -> String {
        let words: Vec<&str> = line.split_whitespace().collect();
        read_triangle(&words).unwrap_err().to_string()
    }

    #[test]
    fn read_as_written() {
        let words = "vertex 0 0 31,63,31 100 vertex 0x40 0 0xf800 900 vertex 0 64 1 0";
        let words: Vec<&str> = words.split_whitespace().collect();
        let vertex = |x: i32, y: i32, colour: u16, depth: u16| Vertex { x, y, depth, colour };
        let wanted = [vertex(0, 0, 65535, 100), vertex(64, 0, 0xf800, 900), vertex(0, 64, 1, 0)];
        assert_eq!(read_triangle(&words), Ok(Triangle::through(wanted).unwrap()));
    }

    /// Each reason of number 9, and where several hold the first of them; 6 goes before all.
    #[test]
    fn refused_in_words() {
        let nine = format!("9: {}", Refusal::NoPlane);
        let line = |third: &str| told(&format!("vertex 0 0 1 0 vertex 8 0 1 0 vertex {third}"));
        assert_eq!(line("0 8 1 32768"), format!("{nine}: depth3 = 32768"));
        assert_eq!(line("0 -8 1 32768"), format!("{nine}: depth3 = 32768"));
        let turned = "the vertices go round anticlockwise, which covers nothing: exchange two of them";
        assert_eq!(line("0 -8 1 0"), format!("{nine}: {turned}"));
        assert_eq!(line("16 0 1 9000"), format!("{nine}: the vertices are on one line, which covers nothing"));
        let steep = "too steep, outside -32768..32767 at pixel (0, 0) or from one pixel to the next";
        assert_eq!(line("0 1 1 4096"), format!("{nine}: depth: {steep}"));
        let sliver = told("vertex -8192 -8192 0 0 vertex 8191 8190 0 0 vertex -8112 -8112 31,63,20 1");
        assert_eq!(sliver, format!("{nine}: red, green: {steep}"));
        assert_eq!(line("0 8192 1 65535"), "6: a vertex number is outside -8192..8191: y3 = 8192");
    }

    #[test]
    fn not_understood() {
        let form = format!("110: the line is not understood: {FORM}");
        for line in ["vertex", "vertex 0 0 1 0 vertex 8 0 1 0", "vertex 0 0 1 0 depth 8 0 1 0 vertex 0 8 1 0"] {
            assert_eq!(told(line), form);
        }
        let third = |words: &str| told(&format!("vertex 0 0 1 0 vertex 8 0 1 0 vertex {words}"));
        assert_eq!(third("0 8 1 -1"), "113: the number does not fit: depth3 = -1");
        assert_eq!(third("0 8 red 0"), "116: this is not a number: colour3 = red");
        assert_eq!(third("0 8 0,64,0 0"), "113: the number does not fit: green of colour3 = 64, above 63");
    }
}
