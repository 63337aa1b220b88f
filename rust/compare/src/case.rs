//! A case: a RAM, what it holds at first, and calls made on it one after the
//! other. Every case has a text form that `--case` reads back.

use kit::rng::Rng;
use merikohin::{Plane, Screen, Triangle};
use std::fmt;

#[derive(Clone, Copy, Debug, PartialEq, Eq)]
pub enum Fill {
    /// Bytes that follow from a seed.
    Random(u64),
    /// The same byte everywhere.
    Byte(u8),
}

impl Fill {
    pub fn apply(self, ram: &mut [u8]) {
        match self {
            Fill::Byte(byte) => ram.fill(byte),
            Fill::Random(seed) => {
                let mut rng = Rng::new(seed);
                for chunk in ram.chunks_mut(8) {
                    let bytes = rng.next().to_le_bytes();
                    chunk.copy_from_slice(&bytes[..chunk.len()]);
                }
            }
        }
    }
}

#[derive(Clone, Copy, Debug, PartialEq, Eq)]
pub enum Call {
    Clear { colour: u16, depth: u16 },
    Draw(Triangle),
    RowCheck { row: u32 },
    Row { area: Area, row: u32 },
}

/// Of which a row is read.
#[derive(Clone, Copy, Debug, PartialEq, Eq)]
pub enum Area {
    Colours,
    Depths,
}

impl Area {
    pub const BOTH: [Area; 2] = [Area::Colours, Area::Depths];

    /// The call that reads a row of it.
    pub fn call(self) -> &'static str {
        match self {
            Area::Colours => "row",
            Area::Depths => "depth_row",
        }
    }

    pub fn start(self, s: Screen) -> u32 {
        match self {
            Area::Colours => s.colour_start,
            Area::Depths => s.depth_start,
        }
    }
}

#[derive(Clone, Copy, Debug, PartialEq, Eq)]
pub struct Step {
    pub screen: Screen,
    pub call: Call,
}

#[derive(Clone, Debug, PartialEq, Eq)]
pub struct Case {
    /// RAM length in bytes.
    pub ram: usize,
    /// How far the RAM is moved from its usual address, to meet every
    /// alignment.
    pub lead: usize,
    pub fill: Fill,
    pub steps: Vec<Step>,
}

impl Case {
    pub fn one(ram: usize, fill: Fill, screen: Screen, call: Call) -> Case {
        Case { ram, lead: 0, fill, steps: vec![Step { screen, call }] }
    }

    pub fn many(ram: usize, fill: Fill, screen: Screen, calls: &[Call]) -> Case {
        let steps = calls.iter().map(|&call| Step { screen, call }).collect();
        Case { ram, lead: 0, fill, steps }
    }
}

pub fn planes(t: &Triangle) -> [Plane; 4] {
    [t.depth, t.red, t.green, t.blue]
}

pub fn set_planes(t: &mut Triangle, p: [Plane; 4]) {
    [t.depth, t.red, t.green, t.blue] = p;
}

pub const NO_PLANE: Plane = Plane { c: 0, a: 0, b: 0 };

/// A triangle with all planes zero: depth 0, colour 0.
pub fn plain(v: [i32; 6]) -> Triangle {
    Triangle { vertices: v.into(), ..Triangle::default() }
}

// ---------------------------------------------------------------------------
// The same things in the second program's words.
// ---------------------------------------------------------------------------

pub fn second_screen(s: Screen) -> second::Screen {
    second::Screen { colour_start: s.colour_start, depth_start: s.depth_start, size_number: s.size_number }
}

pub fn second_vertices([x1, y1, x2, y2, x3, y3]: [i32; 6]) -> [second::Vertex; 3] {
    [second::Vertex { x: x1, y: y1 }, second::Vertex { x: x2, y: y2 }, second::Vertex { x: x3, y: y3 }]
}

pub fn second_triangle(t: &Triangle) -> second::Triangle {
    let plane = |p: Plane| second::Plane { c: p.c, a: p.a, b: p.b };
    second::Triangle {
        vertices: second_vertices(t.vertices.numbers()),
        depth: plane(t.depth),
        red: plane(t.red),
        green: plane(t.green),
        blue: plane(t.blue),
    }
}

// ---------------------------------------------------------------------------
// Text form.
// ---------------------------------------------------------------------------

impl fmt::Display for Fill {
    fn fmt(&self, f: &mut fmt::Formatter<'_>) -> fmt::Result {
        match self {
            Fill::Random(seed) => write!(f, "random:{seed}"),
            Fill::Byte(byte) => write!(f, "byte:{byte}"),
        }
    }
}

impl fmt::Display for Case {
    fn fmt(&self, f: &mut fmt::Formatter<'_>) -> fmt::Result {
        write!(f, "ram={}", self.ram)?;
        if self.lead != 0 {
            write!(f, " lead={}", self.lead)?;
        }
        write!(f, " fill={}", self.fill)?;
        for step in &self.steps {
            let s = step.screen;
            write!(f, "; screen={},{},{} ", s.colour_start, s.depth_start, s.size_number)?;
            match step.call {
                Call::Clear { colour, depth } => write!(f, "clear={colour},{depth}")?,
                Call::RowCheck { row } => write!(f, "check={row}")?,
                Call::Row { area, row } => write!(f, "{}={row}", area.call())?,
                Call::Draw(t) => {
                    let [a, b, c, d, e, g] = t.vertices.numbers();
                    write!(f, "draw={a},{b},{c},{d},{e},{g}")?;
                    for (name, p) in ["depth", "red", "green", "blue"].iter().zip(planes(&t)) {
                        if p != NO_PLANE {
                            write!(f, " {name}={},{},{}", p.c, p.a, p.b)?;
                        }
                    }
                }
            }
        }
        Ok(())
    }
}

pub fn numbers<T: std::str::FromStr>(text: &str, count: usize) -> Result<Vec<T>, String> {
    let found: Vec<T> = text
        .split(',')
        .map(|word| word.trim().parse::<T>().map_err(|_| format!("not a fitting number: {word}")))
        .collect::<Result<_, _>>()?;
    if found.len() == count {
        Ok(found)
    } else {
        Err(format!("{count} numbers wanted: {text}"))
    }
}

impl std::str::FromStr for Fill {
    type Err = String;

    fn from_str(text: &str) -> Result<Fill, String> {
        match text.split_once(':') {
            Some(("random", seed)) => Ok(Fill::Random(numbers(seed, 1)?[0])),
            Some(("byte", byte)) => Ok(Fill::Byte(numbers(byte, 1)?[0])),
            _ => Err(format!("fill is random:N or byte:N: {text}")),
        }
    }
}

impl std::str::FromStr for Case {
    type Err = String;

    fn from_str(text: &str) -> Result<Case, String> {
        let mut case = Case { ram: 0, lead: 0, fill: Fill::Byte(0), steps: Vec::new() };
        for (place, part) in text.split(';').enumerate() {
            let mut screen = None;
            let mut call = None;
            for word in part.split_whitespace() {
                let (name, value) = word.split_once('=').ok_or(format!("name=value wanted: {word}"))?;
                match (place, name) {
                    (0, "ram") => case.ram = numbers(value, 1)?[0],
                    (0, "lead") => case.lead = numbers(value, 1)?[0],
                    (0, "fill") => case.fill = value.parse()?,
                    (1.., "screen") => {
                        let n = numbers::<u32>(value, 3)?;
                        screen = Some(Screen { colour_start: n[0], depth_start: n[1], size_number: n[2] });
                    }
                    (1.., "clear") => {
                        let n = numbers::<u16>(value, 2)?;
                        call = Some(Call::Clear { colour: n[0], depth: n[1] });
                    }
                    (1.., "check") => call = Some(Call::RowCheck { row: numbers(value, 1)?[0] }),
                    (1.., "row") => call = Some(Call::Row { area: Area::Colours, row: numbers(value, 1)?[0] }),
                    (1.., "depth_row") => call = Some(Call::Row { area: Area::Depths, row: numbers(value, 1)?[0] }),
                    (1.., "draw") => {
                        let n = numbers::<i32>(value, 6)?;
                        call = Some(Call::Draw(plain([n[0], n[1], n[2], n[3], n[4], n[5]])));
                    }
                    (1.., "depth" | "red" | "green" | "blue") => {
                        let n = numbers::<i32>(value, 3)?;
                        let plane = Plane { c: n[0], a: n[1], b: n[2] };
                        match (&mut call, name) {
                            (Some(Call::Draw(t)), "depth") => t.depth = plane,
                            (Some(Call::Draw(t)), "red") => t.red = plane,
                            (Some(Call::Draw(t)), "green") => t.green = plane,
                            (Some(Call::Draw(t)), _) => t.blue = plane,
                            _ => return Err(format!("a plane without draw: {word}")),
                        }
                    }
                    _ => return Err(format!("unknown: {word}")),
                }
            }
            if place > 0 {
                match (screen, call) {
                    (Some(screen), Some(call)) => case.steps.push(Step { screen, call }),
                    _ => return Err(format!("a screen and one of draw, clear, check, row, depth_row wanted: {part}")),
                }
            }
        }
        Ok(case)
    }
}
