//! The Merikohin graphics engine for Rust callers: the drawing, with waveform
//! panels, and the machine of 41 instructions that shares its screens.
//!
//! A thin layer over the proved library `libmerikohin.a` (its C interface is
//! `include/merikohin.h`, and each function here has the name of C's without
//! `merikohin_`). Memory is lent to a call as a slice. A refused call answers
//! the number as a [`Refusal`] and changes nothing; apart from that nothing is
//! asked of the caller: every value of every argument is allowed.
//!
//! ```
//! use merikohin::{Screen, Triangle, Vertex};
//!
//! # fn main() -> Result<(), merikohin::Refusal> {
//! let mut ram = [0; 256]; // lent to each call
//! let screen = Screen::new(0, 128, 16, 4);
//! merikohin::clear(&mut ram, screen, 0, 65535)?;
//! let vertex = |x, y| Vertex { x, y, depth: 0, colour: 1 }; // x and y in eighths of a pixel
//! let triangle = Triangle::through([vertex(0, 0), vertex(32, 0), vertex(0, 32)])?;
//! let drawn = merikohin::draw(&mut ram, screen, triangle)?;
//! assert_eq!((drawn.covered, drawn.written), (6, 6));
//! assert_eq!(merikohin::row(&ram, screen, 2)?[..4], [0, 1, 0, 0]);
//! # Ok(())
//! # }
//! ```

mod data;
pub mod raw;
mod refusal;

pub use data::{Plane, Screen, State, Tree, Triangle, Values, Vertex, Vertices};
pub use refusal::{Halt, Refusal};

/// The directory the library was linked from: `target/staticlib`, or what
/// MERIKOHIN_LIB_DIR named at the time.
pub const LINKED_FROM: &str = env!("MERIKOHIN_LINKED_FROM");

/// Words of a program at most.
pub const PROGRAM_MOST: usize = 1024;
/// Words of data memory, no more and no less.
pub const MEMORY_WORDS: usize = 1024;
/// Bytes of RAM at most.
pub const RAM_MOST: usize = 4_194_304;
/// Pixels of a row at most.
pub const WIDTH_MOST: u32 = 640;
/// Rows of a screen at most.
pub const HEIGHT_MOST: u32 = 480;
/// The least vertex number, in eighths of a pixel.
pub const VERTEX_LEAST: i32 = -8192;
/// The greatest vertex number.
pub const VERTEX_MOST: i32 = 8191;
/// The greatest value at a vertex; the least is 0.
pub const VALUE_MOST: i32 = 32767;
/// Samples of a recording at most.
pub const SAMPLES_MOST: usize = 40_960;
/// Samples that a panel's column shows at most; the least is 1.
pub const PER_COLUMN_MOST: i32 = 64;
/// The least offset of a panel, in samples.
pub const OFFSET_LEAST: i32 = -2048;
/// The greatest offset.
pub const OFFSET_MOST: i32 = 2047;

/// What a triangle did: pixels covered, and how many of these were written.
#[derive(Clone, Copy, Debug, PartialEq, Eq)]
pub struct Drawn {
    pub covered: u32,
    pub written: u32,
}

/// What a run did: the steps carried out, and the state in which it stopped.
#[derive(Clone, Copy, Debug, PartialEq, Eq)]
pub struct Ran {
    pub steps: u64,
    pub state: State,
}

/// What a step did: whether it was carried out, and the state after it.
#[derive(Clone, Copy, Debug, PartialEq, Eq)]
pub struct Stepped {
    pub carried_out: bool,
    pub state: State,
}

/// The refusal of a number; done where it is 0. The library answers no number
/// without its refusal.
fn done(number: u32) -> Result<(), Refusal> {
    match number {
        0 => Ok(()),
        _ => Err(Refusal::from_number(number).expect("the library answers 0 to 10")),
    }
}

/// Gives every pixel of the screen one colour and one depth. Refuses with 3 and
/// 5.
///
/// ```
/// use merikohin::{clear, Refusal, Screen};
/// let mut ram = [0; 64];
/// assert_eq!(clear(&mut ram, Screen::new(0, 32, 16, 1), 1, 2), Ok(()));
/// assert_eq!((ram[1], ram[63]), (1, 2));
/// assert_eq!(clear(&mut ram, Screen::new(0, 32, 16, 2), 3, 4), Err(Refusal::ScreenNotSound));
/// assert_eq!((ram[1], ram[63]), (1, 2));
/// ```
pub fn clear(ram: &mut [u8], screen: Screen, colour: u16, depth: u16) -> Result<(), Refusal> {
    done(raw::clear(ram, screen, colour, depth))
}

/// Draws a triangle: each pixel (x, y) whose point (8x + 4, 8y + 4), its centre,
/// is inside all three edges is covered, and written where its depth is at most
/// the stored one. Refuses with 3, 5, 6 and 7.
///
/// ```
/// use merikohin::{draw, Refusal, Screen, Triangle};
/// let mut ram = [0; 256];
/// let screen = Screen::new(0, 128, 16, 4);
/// let outside = Triangle { vertices: [8192, 0, 32, 0, 0, 32].into(), ..Triangle::default() };
/// assert_eq!(draw(&mut ram, screen, outside), Err(Refusal::VertexOutOfRange));
/// ```
pub fn draw(ram: &mut [u8], screen: Screen, triangle: Triangle) -> Result<Drawn, Refusal> {
    let drawn = raw::draw(ram, screen, triangle);
    done(drawn.number).map(|()| Drawn { covered: drawn.covered, written: drawn.written })
}

/// The plane through three values, one at each vertex of a triangle. At every
/// pixel that the triangle covers it is above the exact value, which is a
/// fraction, and by at most 1,119 units of 1/65536, so its top half is never
/// below the least of the three values nor above the greatest. Refuses with 6
/// and 9. [`Triangle::through`] works out all four planes of a triangle.
///
/// ```
/// use merikohin::{plane_through, Plane, Refusal};
/// let vertices = [4, 4, 36, 4, 4, 36].into(); // the centres of pixels (0, 0), (4, 0) and (0, 4)
/// let plane = plane_through(vertices, [10, 30, 20].into())?;
/// assert_eq!(plane, Plane { c: (10 << 16) + 1119, a: 5 << 16, b: (10 << 16) / 4 });
/// assert_eq!(plane_through(vertices, [10, 30, 32768].into()), Err(Refusal::NoPlane));
/// # Ok::<(), Refusal>(())
/// ```
pub fn plane_through(vertices: Vertices, values: Values) -> Result<Plane, Refusal> {
    let through = raw::plane_through(vertices, values);
    done(through.number).map(|()| through.plane)
}

/// Draws a waveform panel, and answers how many pixels it drew. Column x of the
/// screen shows the samples numbered x·n + d to x·n + d + n - 1, with n
/// `per_column` and d the `offset`, leaving out those that do not exist. A column
/// with none stays as it was; in any other the rows from that of the largest
/// sample to that of the smallest get the colour and depth 0. A sample v stands
/// at row (32767 - v) × height / 65536, rounded down. Nothing is cleared. Refuses
/// with 3, 5 and 10.
///
/// ```
/// use merikohin::{clear, panel, row, Refusal, Screen};
/// let mut ram = [0; 256];
/// let screen = Screen::new(0, 128, 16, 4);
/// clear(&mut ram, screen, 0, 65535)?;
/// let samples = [0, 20000, -20000, 5, 6]; // rows 1, 0, 3, 1 and 1
/// assert_eq!(panel(&mut ram, screen, &samples, 2, 0, 7), Ok(2 + 3 + 1));
/// assert_eq!(row(&ram, screen, 0)?[..8], [0, 7, 0, 0, 0, 0, 0, 0]);
/// assert_eq!(row(&ram, screen, 1)?[..8], [0, 7, 0, 7, 0, 7, 0, 0]);
/// assert_eq!(row(&ram, screen, 3)?[..8], [0, 0, 0, 7, 0, 0, 0, 0]);
/// assert_eq!(panel(&mut ram, screen, &samples, 0, 0, 7), Err(Refusal::NoPanel));
/// # Ok::<(), Refusal>(())
/// ```
pub fn panel(
    ram: &mut [u8],
    screen: Screen,
    samples: &[i16],
    per_column: i32,
    offset: i32,
    colour: u16,
) -> Result<u32, Refusal> {
    let panelled = raw::panel(ram, screen, samples, per_column, offset, colour);
    done(panelled.number).map(|()| panelled.pixels)
}

/// Whether a row can be read: what [`row`] and [`depth_row`] refuse, this
/// refuses with the same number.
///
/// ```
/// use merikohin::{row_check, Refusal, Screen};
/// let screen = Screen::new(0, 128, 16, 4);
/// assert_eq!(row_check(&[0; 256], screen, 3), Ok(()));
/// assert_eq!(row_check(&[0; 255], screen, 3), Err(Refusal::ScreenNotSound));
/// ```
pub fn row_check(ram: &[u8], screen: Screen, row: u32) -> Result<(), Refusal> {
    done(raw::row_check(ram, screen, row))
}

/// The row's own 2 × width colour bytes, a part of `ram` and not a copy. C has
/// where that part stands ([`raw::row`]). Refuses with 3, 5 and 8.
///
/// ```
/// use merikohin::{row, Refusal, Screen};
/// let ram = [7; 256];
/// let screen = Screen::new(0, 128, 16, 4);
/// assert_eq!(row(&ram, screen, 3), Ok(&ram[96..128]));
/// assert_eq!(row(&ram, screen, 4), Err(Refusal::RowOutOfRange));
/// ```
pub fn row(ram: &[u8], screen: Screen, row: u32) -> Result<&[u8], Refusal> {
    bytes_of(ram, raw::row(ram, screen, row))
}

/// The row's own 2 × width depth bytes, a part of `ram` and not a copy. C has
/// where that part stands ([`raw::depth_row`]). Refuses with 3, 5 and 8.
///
/// ```
/// use merikohin::{clear, depth_row, Refusal, Screen};
/// let mut ram = [0; 256];
/// let screen = Screen::new(0, 128, 16, 4);
/// clear(&mut ram, screen, 1, 2)?;
/// assert_eq!(depth_row(&ram, screen, 3)?, [0, 2].repeat(16));
/// assert_eq!(depth_row(&ram, screen, 4), Err(Refusal::RowOutOfRange));
/// # Ok::<(), Refusal>(())
/// ```
pub fn depth_row(ram: &[u8], screen: Screen, row: u32) -> Result<&[u8], Refusal> {
    bytes_of(ram, raw::depth_row(ram, screen, row))
}

/// The bytes that a part locates.
fn bytes_of(ram: &[u8], part: raw::RowPart) -> Result<&[u8], Refusal> {
    done(part.number).map(|()| &ram[part.start as usize..][..part.length as usize])
}

/// A fresh state: place 0, registers 0, flags clear, no screen, no tree, halt
/// number 0.
///
/// ```
/// let state = merikohin::fresh();
/// assert_eq!((state.place, state.screen(), state.tree(), state.halted()), (0, None, None, None));
/// ```
#[must_use]
pub fn fresh() -> State {
    raw::fresh()
}

/// Runs a program from a state until as many steps as the budget says have been
/// carried out or one halts. A halting step changes only the halt number and is
/// not counted; a halted state runs 0 steps and stays. A program ends by running
/// past its last word ([`Halt::Place`], 12). Refuses with 1, 2, 3 and 4; the
/// state is then still the caller's.
///
/// ```
/// use merikohin::{run, Halt, Refusal};
/// let mut memory = [0; merikohin::MEMORY_WORDS];
/// let program = [0x0820_0007]; // LI R1, R0(7)
/// let ran = run(&program, &mut memory, &mut [], merikohin::fresh(), 1000)?;
/// assert_eq!((ran.steps, ran.state.registers[1], ran.state.halted()), (1, 7, Some(Halt::Place)));
/// assert_eq!(run(&program, &mut memory[1..], &mut [], merikohin::fresh(), 1000), Err(Refusal::MemoryNot1024));
/// # Ok::<(), Refusal>(())
/// ```
pub fn run(program: &[u32], memory: &mut [u32], ram: &mut [u8], state: State, budget: u64) -> Result<Ran, Refusal> {
    let ran = raw::run(program, memory, ram, state, budget);
    done(ran.number).map(|()| Ran { steps: ran.steps, state: ran.state })
}

/// Takes one step from a state. It is carried out unless it halts, which changes
/// only the halt number, or the state was halted already, which stays. A run is
/// these steps in turn. Refuses with 1, 2, 3 and 4; the state is then still the
/// caller's.
///
/// ```
/// use merikohin::{step, Halt, Refusal};
/// let mut memory = [0; merikohin::MEMORY_WORDS];
/// let program = [0x0820_0007]; // LI R1, R0(7)
/// let first = step(&program, &mut memory, &mut [], merikohin::fresh())?;
/// assert_eq!((first.carried_out, first.state.registers[1], first.state.halted()), (true, 7, None));
/// let second = step(&program, &mut memory, &mut [], first.state)?;
/// assert_eq!((second.carried_out, second.state.halted()), (false, Some(Halt::Place)));
/// assert_eq!(step(&program, &mut memory, &mut [], second.state), Ok(second)); // halted, it stays
/// assert_eq!(step(&program, &mut memory[1..], &mut [], first.state), Err(Refusal::MemoryNot1024));
/// # Ok::<(), Refusal>(())
/// ```
pub fn step(program: &[u32], memory: &mut [u32], ram: &mut [u8], state: State) -> Result<Stepped, Refusal> {
    let stepped = raw::step(program, memory, ram, state);
    done(stepped.number).map(|()| Stepped { carried_out: stepped.carried_out != 0, state: stepped.state })
}

#[cfg(test)]
mod tests {
    use super::*;
    use std::mem::size_of;

    /// The sizes and offsets that include/merikohin.h asserts.
    #[test]
    fn laid_out_as_c() {
        assert_eq!((size_of::<Screen>(), size_of::<Plane>(), size_of::<Vertices>()), (12, 12, 24));
        assert_eq!((size_of::<Triangle>(), size_of::<raw::Drawn>(), size_of::<raw::RowPart>()), (72, 12, 24));
        assert_eq!((size_of::<Values>(), size_of::<raw::Through>(), size_of::<raw::Panelled>()), (12, 16, 8));
        assert_eq!((size_of::<Tree>(), size_of::<State>(), size_of::<raw::Ran>()), (108, 272, 288));
        assert_eq!(size_of::<raw::Stepped>(), 280);
        let state = fresh();
        let at = |field: *const u32| field as usize - &state as *const State as usize;
        assert_eq!([at(&state.place), at(&state.negative), at(&state.zero), at(&state.halt)], [128, 132, 136, 140]);
        assert_eq!([at(&state.has_screen), at(&state.has_tree), at(&state.tree.has_depth)], [144, 160, 268]);
        let stepped = raw::Stepped { number: 0, carried_out: 0, state };
        let at = |field: *const u32| field as usize - &stepped as *const raw::Stepped as usize;
        assert_eq!([at(&stepped.number), at(&stepped.carried_out), at(&stepped.state.registers[0])], [0, 4, 8]);
    }

    /// The sentences of the header, of the rule book and these are the same, and the header's constants too.
    #[test]
    fn says_what_the_header_says() {
        let header = std::fs::read_to_string("../../include/merikohin.h").unwrap();
        let rules = std::fs::read_to_string("../../docs/RULES.md").unwrap();
        for refusal in Refusal::ALL {
            assert!(rules.contains(&format!("| {} | {refusal} |", refusal.number())), "{refusal}");
            assert!(header.contains(&format!("return \"{refusal}\";")), "{refusal}");
            assert!(header.contains(&format!(" = {},", refusal.number())) || refusal.number() == 10);
        }
        for halt in Halt::ALL {
            assert!(rules.contains(&format!("| {} | {halt} |", halt.number())), "{halt}");
            assert!(header.contains(&format!("return \"{halt}\";")), "{halt}");
        }
        for (name, value) in [
            ("PROGRAM_MOST", PROGRAM_MOST as i64),
            ("MEMORY_WORDS", MEMORY_WORDS as i64),
            ("RAM_MOST", RAM_MOST as i64),
            ("WIDTH_MOST", WIDTH_MOST.into()),
            ("HEIGHT_MOST", HEIGHT_MOST.into()),
            ("VERTEX_MOST", VERTEX_MOST.into()),
            ("VALUE_MOST", VALUE_MOST.into()),
            ("SAMPLES_MOST", SAMPLES_MOST as i64),
            ("PER_COLUMN_MOST", PER_COLUMN_MOST.into()),
            ("OFFSET_MOST", OFFSET_MOST.into()),
        ] {
            assert!(header.contains(&format!("#define MERIKOHIN_{name} {value}")), "{name}");
        }
        assert!(header.contains(&format!("#define MERIKOHIN_VERSION \"{}\"", env!("CARGO_PKG_VERSION"))));
    }

    #[test]
    fn numbers_there_and_back() {
        for number in 0..100 {
            assert_eq!(Refusal::from_number(number).map_or(0, Refusal::number), if number < 11 { number } else { 0 });
            let halts = (11..18).contains(&number);
            assert_eq!(Halt::from_number(number).map_or(0, Halt::number), if halts { number } else { 0 });
        }
    }

    fn vertex(x: i32, y: i32, depth: u16, colour: u16) -> Vertex {
        Vertex { x, y, depth, colour }
    }

    /// Each plane is the call's for its own part of the vertices.
    #[test]
    fn four_planes() {
        let red = |part: u16| part << 11;
        let vertices = [vertex(4, 4, 7, red(31)), vertex(84, 4, 407, 40 << 5), vertex(4, 44, 7, red(1) | 10)];
        let triangle = Triangle::through(vertices).unwrap();
        let through = |values: [i32; 3]| plane_through([4, 4, 84, 4, 4, 44].into(), values.into()).unwrap();
        assert_eq!(triangle.vertices.numbers(), [4, 4, 84, 4, 4, 44]);
        assert_eq!(triangle.depth, Plane { c: (7 << 16) + 1119, a: 40 << 16, b: 0 });
        assert_eq!([triangle.depth, triangle.red], [through([7, 407, 7]), through([31, 0, 1])]);
        assert_eq!([triangle.green, triangle.blue], [through([0, 40, 0]), through([0, 0, 10])]);
    }

    /// What a triangle of vertices is refused for, each beside one that is not; and 6 goes before 9.
    #[test]
    fn no_triangle() {
        let refusal = |vertices: [Vertex; 3]| Triangle::through(vertices).err();
        let [a, b, c] = [vertex(0, 0, 0, 0), vertex(8, 0, 0, 0), vertex(0, 8, 0, 0)];
        let deep = |depth: u16| Vertex { depth, ..c };
        assert_eq!(refusal([a, b, deep(32767)]), None);
        assert_eq!(refusal([a, b, deep(32768)]), Some(Refusal::NoPlane));
        assert_eq!(refusal([a, b, deep(65535)]), Some(Refusal::NoPlane));
        assert_eq!(refusal([a, c, b]), Some(Refusal::NoPlane));
        assert_eq!(refusal([a, b, b]), Some(Refusal::NoPlane));
        // An eighth of a pixel high, so over a pixel the depth changes eight times as much.
        let low = |depth: u16| vertex(0, 1, depth, 0);
        assert_eq!(refusal([a, b, low(4095)]), None);
        assert_eq!(refusal([a, b, low(4096)]), Some(Refusal::NoPlane));
        // In a long sliver a colour alone can be too steep; its doubled area is `wide`.
        let sliver = |wide: i32, colour: u16| {
            [vertex(-8192, -8192, 0, 0), vertex(8191, 8190, 0, 0), vertex(wide - 8192, wide - 8192, 0, colour)]
        };
        assert_eq!(refusal(sliver(252, 63 << 5)), None);
        assert_eq!(refusal(sliver(251, 63 << 5)), Some(Refusal::NoPlane));
        assert_eq!(refusal(sliver(251, 62 << 5)), None);
        for far in [vertex(8192, 0, 0, 0), vertex(0, -8193, 0, 0), vertex(i32::MAX, i32::MIN, 65535, 65535)] {
            assert_eq!(refusal([far, a, c]), Some(Refusal::VertexOutOfRange));
        }
    }

    /// At every pixel that a triangle writes, its depth and each part of its colour are between those of its vertices.
    #[test]
    fn nothing_wraps() {
        let screen = Screen::new(0, 1024, 32, 16);
        let mut seed = 1u32;
        let mut next = |count: u32| {
            seed = seed.wrapping_mul(1_664_525).wrapping_add(1_013_904_223);
            (seed >> 16) % count
        };
        let (mut drawn, mut written) = (0, 0);
        while drawn < 500 {
            let vertices = [0; 3].map(|_| {
                let (x, y) = (next(400) as i32 - 72, next(272) as i32 - 72);
                vertex(x, y, [0, 1, 300, 32767][next(4) as usize], [0, 0xffff, 0xf81f, 0x07e0][next(4) as usize])
            });
            let triangle = match Triangle::through(vertices) {
                Ok(triangle) => triangle,
                Err(_) => continue,
            };
            let mut ram = vec![0; 2048];
            clear(&mut ram, screen, 0x1234, 65535).unwrap();
            written += draw(&mut ram, screen, triangle).unwrap().written;
            drawn += 1;
            let half = |at: usize| u16::from_be_bytes([ram[at], ram[at + 1]]);
            for at in (0..1024).step_by(2).filter(|at| half(1024 + at) != 65535) {
                let here = vertex(0, 0, half(1024 + at), half(at)).values();
                for (k, value) in here.into_iter().enumerate() {
                    let at_vertices = vertices.map(|vertex| vertex.values()[k]);
                    let range = *at_vertices.iter().min().unwrap()..=*at_vertices.iter().max().unwrap();
                    assert!(range.contains(&value), "{vertices:?}: {here:?}");
                }
            }
        }
        assert!(written > 20_000, "{written}");
    }

    #[test]
    fn trees_by_meaning() {
        let a = Tree { inside: [1; 16], depth: [3; 16], ..Tree::default() };
        assert_eq!(a, Tree { inside: [9; 16], depth: [4; 16], ..a });
        assert_ne!(Tree { has_depth: 1, ..a }, a);
        assert_ne!(Tree { has_depth: 1, ..a }, Tree { has_depth: 1, depth: [4; 16], ..a });
        assert_eq!(Tree { has_depth: 1, ..a }, Tree { has_depth: 2, ..a });
        assert_ne!(Tree { outside: [1; 16], ..a }, a);
    }
}
