//! Scenes: text, a line for the screen and for each clear or triangle.

use crate::problem::{self, Place, Problem};
use crate::vertices;
use merikohin::{Plane, Refusal, Screen, Triangle, Vertices};

#[derive(Clone, Copy, Debug, PartialEq)]
pub enum Item {
    Clear { colour: u16, depth: u16 },
    Triangle(Triangle),
}

#[derive(Debug)]
pub struct Scene {
    pub file: String,
    pub screen: Screen,
    pub ram_len: usize,
    /// What is drawn, each with its line.
    pub items: Vec<(usize, Item)>,
}

const VERTEX_NAMES: [&str; 6] = ["x1", "y1", "x2", "y2", "x3", "y3"];

impl Scene {
    pub fn read(file: &str, text: &str) -> Result<Scene, Problem> {
        let mut scene = Scene { file: file.into(), screen: Screen::default(), ram_len: 0, items: Vec::new() };
        let mut has_screen = false;
        for (k, whole) in text.lines().enumerate() {
            let line = k + 1;
            let words: Vec<&str> = whole.split('#').next().unwrap_or("").split_whitespace().collect();
            if let Some((name, rest)) = words.split_first() {
                scene.read_line(line, name, rest, &mut has_screen).map_err(|p| p.at(Place::line(file, line)))?;
            }
        }
        if !has_screen {
            return Err(Problem::new(problem::SCREEN_FIRST, "").at(Place::file(file)));
        }
        Ok(scene)
    }

    fn read_line(&mut self, line: usize, name: &str, rest: &[&str], has_screen: &mut bool) -> Result<(), Problem> {
        if (name == "screen") == *has_screen {
            return Err(Problem::new(problem::SCREEN_FIRST, name));
        }
        match name {
            "screen" => {
                *has_screen = true;
                self.read_screen(rest)
            }
            "clear" => {
                let [(name, text), depth] = fields(name, rest, ["colour", "depth"])?;
                let colour = colour(name, text)?;
                self.items.push((line, Item::Clear { colour, depth: number(depth.0, depth.1)? }));
                Ok(())
            }
            "triangle" => {
                self.items.push((line, Item::Triangle(read_triangle(rest)?)));
                Ok(())
            }
            _ => Err(Problem::new(problem::LINE, name)),
        }
    }

    /// WIDTH HEIGHT, then where colours and depths start, then how many bytes
    /// RAM has. Left out, the areas follow one another, and RAM has what both
    /// need.
    fn read_screen(&mut self, rest: &[&str]) -> Result<(), Problem> {
        const NAMES: [&str; 5] = ["width", "height", "colour_start", "depth_start", "ram"];
        if ![2, 4, 5].contains(&rest.len()) {
            return Err(Problem::new(problem::LINE, "screen WIDTH HEIGHT [COLOUR_START DEPTH_START [RAM]]"));
        }
        let mut n = [0u32; 5];
        for (k, text) in rest.iter().enumerate() {
            n[k] = number(NAMES[k], text)?;
        }
        let [width, height, colour_start, mut depth_start, mut ram] = n.map(u64::from);
        let area = width * height * 2;
        if rest.len() < 4 {
            depth_start = area;
        }
        if rest.len() < 5 {
            ram = colour_start.max(depth_start) + area;
        }
        self.screen =
            Screen::new(colour_start as u32, depth_start.min(u32::MAX.into()) as u32, width as u32, height as u32);
        if ram > merikohin::RAM_MOST as u64 {
            return Err(Problem::refused(Refusal::RamTooLong, format!("{ram} bytes")));
        }
        self.ram_len = ram as usize;
        merikohin::row_check(&self.ram(), self.screen, 0).map_err(|refusal| {
            let starts = format!("colours at {colour_start}, depths at {depth_start}, RAM of {ram} bytes");
            Problem::refused(refusal, format!("{width} by {height}, {starts}"))
        })
    }

    /// Its RAM at first: zeros.
    pub fn ram(&self) -> Vec<u8> {
        vec![0; self.ram_len]
    }

    /// Does one of its lines. A triangle answers the pixels covered and written.
    pub fn draw(&self, ram: &mut [u8], line: usize, item: Item) -> Result<Option<merikohin::Drawn>, Problem> {
        let answer = match item {
            Item::Clear { colour, depth } => merikohin::clear(ram, self.screen, colour, depth).map(|()| None),
            Item::Triangle(triangle) => merikohin::draw(ram, self.screen, triangle).map(Some),
        };
        answer.map_err(|refusal| {
            let value = match item {
                Item::Triangle(triangle) => vertex_out_of_range(triangle.vertices),
                Item::Clear { .. } => String::new(),
            };
            Problem::refused(refusal, value).at(Place::line(&self.file, line))
        })
    }
}

/// The first vertex number out of range, where there is one.
pub fn vertex_out_of_range(vertices: Vertices) -> String {
    let range = merikohin::VERTEX_LEAST..=merikohin::VERTEX_MOST;
    let named = VERTEX_NAMES.iter().zip(vertices.numbers());
    named
        .filter(|(_, value)| !range.contains(value))
        .map(|(name, value)| format!("{name} = {value}"))
        .next()
        .unwrap_or_default()
}

/// Exactly as many words as there are names, each with its name.
fn fields<'a, const N: usize>(
    line: &str,
    words: &[&'a str],
    names: [&'static str; N],
) -> Result<[(&'static str, &'a str); N], Problem> {
    if words.len() != N {
        return Err(Problem::new(problem::LINE, format!("{line} {}", names.join(" "))));
    }
    let mut k = 0;
    Ok(names.map(|name| {
        k += 1;
        (name, words[k - 1])
    }))
}

/// A colour: one number, or its red, green and blue with commas between them.
pub fn colour(name: &str, text: &str) -> Result<u16, Problem> {
    let parts: Vec<&str> = text.split(',').collect();
    if parts.len() == 1 {
        return number(name, text);
    }
    if parts.len() != 3 {
        return Err(Problem::new(
            problem::NO_NUMBER,
            format!("{name} = {text}, neither one number nor red,green,blue"),
        ));
    }
    let mut colour = 0;
    for ((part, most), text) in [("red", 31), ("green", 63), ("blue", 31)].into_iter().zip(parts) {
        let name = format!("{part} of {name}");
        let value: u16 = number(&name, text)?;
        if value > most {
            return Err(Problem::new(problem::NO_FIT, format!("{name} = {value}, above {most}")));
        }
        colour = colour * (most + 1) + value;
    }
    Ok(colour)
}

pub fn number<T: TryFrom<i128>>(name: &str, text: &str) -> Result<T, Problem> {
    let value =
        kit::args::number::<i128>(text).map_err(|_| Problem::new(problem::NO_NUMBER, format!("{name} = {text}")))?;
    T::try_from(value).map_err(|_| Problem::new(problem::NO_FIT, format!("{name} = {text}")))
}

/// A plane's number: whole, or with a point, and then in parts of 65,536: 1.5
/// is 98304. Rounded down.
fn plane_number(name: &str, text: &str) -> Result<i32, Problem> {
    let (whole, fraction) = match text.split_once('.') {
        Some(parts) => parts,
        None => return number(name, text),
    };
    let bad = || Problem::new(problem::NO_NUMBER, format!("{name} = {text}"));
    let digits = |part: &str| !part.is_empty() && part.len() <= 9 && part.bytes().all(|byte| byte.is_ascii_digit());
    let (minus, whole) = whole.strip_prefix('-').map_or((false, whole), |whole| (true, whole));
    if !digits(whole) || !digits(fraction) {
        return Err(bad());
    }
    let ten = 10i128.pow(fraction.len() as u32);
    let scaled = whole.parse::<i128>().map_err(|_| bad())? * ten + fraction.parse::<i128>().map_err(|_| bad())?;
    let value = (if minus { -scaled } else { scaled } * 65536).div_euclid(ten);
    i32::try_from(value).map_err(|_| Problem::new(problem::NO_FIT, format!("{name} = {text}")))
}

/// By its planes, or by what its vertices have.
fn read_triangle(words: &[&str]) -> Result<Triangle, Problem> {
    if words.contains(&"vertex") {
        return vertices::read_triangle(words);
    }
    let form = "triangle x1 y1 x2 y2 x3 y3 [depth c a b] [red c a b] [green c a b] [blue c a b]";
    if words.len() < 6 || words.len() % 4 != 2 {
        return Err(Problem::new(problem::LINE, form));
    }
    let mut numbers = [0; 6];
    for (k, name) in VERTEX_NAMES.iter().enumerate() {
        numbers[k] = number(name, words[k])?;
    }
    let mut triangle = Triangle { vertices: numbers.into(), ..Triangle::default() };
    for plane in words[6..].chunks(4) {
        let part = |k: usize, name: &str| plane_number(&format!("{} {name}", plane[0]), plane[k]);
        let read = Plane { c: part(1, "c")?, a: part(2, "a")?, b: part(3, "b")? };
        match plane[0] {
            "depth" => triangle.depth = read,
            "red" => triangle.red = read,
            "green" => triangle.green = read,
            "blue" => triangle.blue = read,
            _ => return Err(Problem::new(problem::LINE, form)),
        }
    }
    Ok(triangle)
}

#[cfg(test)]
mod tests {
    use super::*;

    #[test]
    fn plane_numbers() {
        for (text, value) in
            [("7", 7), ("-0x10", -16), ("1.5", 98304), ("-1.5", -98304), ("0.00001", 0), ("-0.00001", -1)]
        {
            assert_eq!(plane_number("c", text), Ok(value), "{text}");
        }
        for text in [".5", "1.", "--1.0", "1.2.3", "x"] {
            assert_eq!(plane_number("c", text).unwrap_err().number, problem::NO_NUMBER);
        }
        assert_eq!(plane_number("c", "32768.0").unwrap_err().number, problem::NO_FIT);
        assert_eq!(plane_number("c", "-32768.0"), Ok(i32::MIN));
    }

    #[test]
    fn colours() {
        for (text, value) in
            [("0xffff", 65535), ("2048", 2048), ("31,63,31", 65535), ("1,0,0", 2048), ("0,1,0", 32), ("0,0,0x1f", 31)]
        {
            assert_eq!(colour("colour", text), Ok(value), "{text}");
        }
        for (text, wanted) in [
            ("65536", "113: the number does not fit: colour = 65536"),
            ("32,0,0", "113: the number does not fit: red of colour = 32, above 31"),
            ("0,64,0", "113: the number does not fit: green of colour = 64, above 63"),
            ("0,0,32", "113: the number does not fit: blue of colour = 32, above 31"),
            ("0,-1,0", "113: the number does not fit: green of colour = -1"),
            ("1,,2", "116: this is not a number: green of colour = "),
            ("1,2", "116: this is not a number: colour = 1,2, neither one number nor red,green,blue"),
            ("1,2,3,4", "116: this is not a number: colour = 1,2,3,4, neither one number nor red,green,blue"),
        ] {
            assert_eq!(colour("colour", text).unwrap_err().to_string(), wanted);
        }
    }

    fn problem(text: &str) -> String {
        Scene::read("s", text).unwrap_err().to_string()
    }

    #[test]
    fn problems_with_their_places() {
        let screen = "5: the screen is not sound: 24 by 4, colours at 0, depths at 192, RAM of 384 bytes (s, line 1)";
        assert_eq!(problem("screen 24 4"), screen);
        for (text, wanted) in [
            ("clear 0 0", "120: a scene begins with its one screen: clear (s, line 1)"),
            ("# nothing", "120: a scene begins with its one screen (s)"),
            ("screen 16 4\nscreen 16 4", "120: a scene begins with its one screen: screen (s, line 2)"),
            ("screen 16 4 0 128 4194305", "3: the RAM is longer than 4,194,304 bytes: 4194305 bytes (s, line 1)"),
            ("screen 16 4\nclear 65536 0", "113: the number does not fit: colour = 65536 (s, line 2)"),
            ("screen 16 4\nclear 0", "110: the line is not understood: clear colour depth (s, line 2)"),
            ("screen 16 4\ncircle 1", "110: the line is not understood: circle (s, line 2)"),
            ("screen 16 4\ntriangle 0 0 a 0 0 0", "116: this is not a number: x2 = a (s, line 2)"),
            (
                "screen 16 4\n\ntriangle vertex 0 0 1 0 vertex 8 0 1 0 vertex a 8 1 0",
                "116: this is not a number: x3 = a (s, line 3)",
            ),
        ] {
            assert_eq!(problem(text), wanted);
        }
    }

    #[test]
    fn a_scene() {
        let text = "# two lines\nscreen 16 4\n\nclear 0 65535 # far\ntriangle 0 0 32 0 0 32 blue 1.0 0 0\n";
        let scene = Scene::read("s", text).unwrap();
        assert_eq!((scene.ram_len, scene.screen), (256, Screen::new(0, 128, 16, 4)));
        let mut ram = scene.ram();
        let drawn: Vec<_> =
            scene.items.iter().map(|(line, item)| scene.draw(&mut ram, *line, *item).unwrap()).collect();
        assert_eq!(drawn, [None, Some(merikohin::Drawn { covered: 6, written: 6 })]);
        let outside = Triangle { vertices: [0, 0, 0, 0, 0, 8192].into(), ..Triangle::default() };
        let problem = scene.draw(&mut ram, 9, Item::Triangle(outside)).unwrap_err();
        assert_eq!(problem.to_string(), "6: a vertex number is outside -8192..8191: y3 = 8192 (s, line 9)");
    }
}
